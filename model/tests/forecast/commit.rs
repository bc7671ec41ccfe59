//! A commit does what was foretold of it, as long as state and image are the same.
use super::{answers, forecast};
use crate::hand::{obsolete, reply, Hand};
use crate::{before_split, insert, split_operations, split_pages, BLOCK, ENOUGH, NONE, TORN};
use model::model::chip::Operation;
use model::model::frame::Frame;

/// The three counts of the commit that splits node 0: two pages and an erase.
const SPLIT: [u32; 3] = [2, 4, 1];

/// The same chip with a forecast of the commit that splits node 0.
fn foretold(counts: [u32; 3]) -> Hand {
    let mut hand = before_split();
    forecast(&mut hand, 0, counts);
    hand
}

/// Whether the judge accepts a commit that has these operations: finished with the counts, or cut with the first operations' counts.
fn commits(hand: &Hand, operations: &[Operation], allowance: u32, counts: [u32; 3]) -> bool {
    let cut = (allowance as usize) < operations.len();
    let image = hand.after(operations, allowance.min(operations.len() as u32) as usize);
    hand.accepts(Frame::Commit(allowance), &reply(if cut { 10 } else { 0 }, counts), &image)
}

/// With the sum or more it finishes, with less it is cut and tells the allowance.
#[test]
fn as_foretold() {
    let (hand, pages) = (foretold(SPLIT), split_pages());
    let operations = split_operations(&pages);
    for allowance in [7, 8, ENOUGH, u32::MAX] {
        assert!(commits(&hand, &operations, allowance, SPLIT));
        assert!(!hand.accepts(Frame::Commit(allowance), &reply(10, SPLIT), &hand.after(&operations, 7)));
    }
    let counts = [[0, 0, 0], [0, 1, 0], [1, 1, 0], [1, 2, 0], [1, 3, 0], [2, 3, 0], [2, 4, 0]];
    for (allowance, counts) in counts.into_iter().enumerate() {
        assert!(commits(&hand, &operations, allowance as u32, counts));
    }
    assert!(!hand.accepts(Frame::Commit(ENOUGH), &reply(6, NONE), &hand.image));
}

/// A commit that does one operation less or more than foretold, though all it does and tells is legal.
#[test]
fn otherwise() {
    let pages = split_pages();
    let whole = split_operations(&pages);
    let mut more = split_operations(&pages);
    more.extend(obsolete(&[0]));
    for (operations, counts) in [(&whole[..6], [2, 4, 0]), (&more[..], [2, 5, 1])] {
        for allowance in [operations.len() as u32, ENOUGH] {
            assert!(commits(&before_split(), operations, allowance, counts));
            assert!(commits(&foretold(counts), operations, allowance, counts));
            assert!(!commits(&foretold(SPLIT), operations, allowance, counts));
        }
    }
}

/// It finishes with one less than the sum, since it leaves the erase out then.
#[test]
fn finished_with_one_less() {
    let pages = split_pages();
    assert!(commits(&before_split(), &split_operations(&pages)[..6], 6, [2, 4, 0]));
    assert!(!commits(&foretold(SPLIT), &split_operations(&pages)[..6], 6, [2, 4, 0]));
}

/// It is cut with the sum, since it needs one more.
#[test]
fn cut_with_the_sum() {
    let pages = split_pages();
    let mut operations = split_operations(&pages);
    operations.extend(obsolete(&[0]));
    assert!(commits(&before_split(), &operations, 7, SPLIT));
    assert!(!commits(&foretold(SPLIT), &operations, 7, SPLIT));
    assert!(commits(&foretold([2, 5, 1]), &operations, 7, SPLIT));
}

/// Cut, it did of a kind more than foretold in all.
#[test]
fn cut_with_more_of_a_kind() {
    let pages = split_pages();
    let operations = split_operations(&pages);
    assert!(!commits(&foretold([1, 6, 0]), &operations, 6, [2, 4, 0]) && commits(&foretold([2, 5, 0]), &operations, 6, [2, 4, 0]));
}

/// A forecast of a page less, without the erase, and with an erase of a block that is free.
#[test]
fn wrong_forecasts() {
    let pages = split_pages();
    for counts in [[1, 2, 1], [2, 4, 0], [2, 4, 2]] {
        let hand = foretold(counts);
        assert!([7, 8, ENOUGH].iter().all(|allowance| !commits(&hand, &split_operations(&pages), *allowance, SPLIT)));
    }
}

/// Lines that leave state and image, or set the image back.
fn quiet(hand: &mut Hand) {
    let image = hand.image.clone();
    hand.frame(Frame::LookUp(3), "000000000303");
    hand.frame(Frame::LookUp(99), "0403");
    hand.frame(Frame::Delete(99), "04");
    hand.frame(Frame::Show(50), "00");
    hand.set_torn(0, 0x5B);
    hand.set_torn(0, 0x5A);
    hand.frame(Frame::TornLength(TORN as u32 - 1), "00");
    for frame in [Frame::Commit(ENOUGH), Frame::Mount(ENOUGH), Frame::Format(ENOUGH)] {
        hand.frame(frame, &reply(1, NONE));
    }
    hand.frame(Frame::TornLength(TORN as u32), "00");
    hand.image.truncate(BLOCK);
    hand.frame(Frame::Length(BLOCK as u32), "00");
    hand.frame(Frame::Insert(18, 18), "01");
    hand.frame(Frame::Commit(ENOUGH), &reply(1, NONE));
    forecast(hand, 1, NONE);
    hand.image = image.clone();
    hand.frame(Frame::Length(3 * BLOCK as u32), "00");
    let mut other = image.clone();
    other[40000] = 3;
    hand.set_image(&other);
    hand.set_image(&image);
}

/// Every further forecast is the same, and the commit does it, whatever leaves state and image stands between.
#[test]
fn the_same_again() {
    let (mut hand, pages) = (foretold(SPLIT), split_pages());
    for _ in 0..2 {
        for other in [[2, 4, 0], [1, 2, 1], [2, 5, 1], NONE] {
            assert!(!answers(&hand, 0, other));
        }
        assert!(answers(&hand, 0, SPLIT) && !answers(&hand, 6, NONE));
        assert!(!commits(&hand, &split_operations(&pages)[..6], ENOUGH, [2, 4, 0]));
        assert!(commits(&hand, &split_operations(&pages), ENOUGH, SPLIT));
        quiet(&mut hand);
    }
}

/// An accepted update, a mount, a format and a commit end it.
#[test]
fn ends() {
    let mut hand = foretold(SPLIT);
    insert(&mut hand, 18, 18);
    assert!(answers(&hand, 0, [2, 4, 0]) && answers(&hand, 0, SPLIT));
    let mut hand = foretold(SPLIT);
    hand.frame(Frame::Delete(3), "00");
    assert!(answers(&hand, 0, [1, 2, 0]));
    let mut hand = foretold(SPLIT);
    hand.frame(Frame::Mount(255), &reply(0, NONE));
    assert!(answers(&hand, 0, NONE) && !answers(&hand, 0, SPLIT));
    insert(&mut hand, 17, 17);
    assert!(answers(&hand, 0, [2, 4, 0]));
    let (mut hand, pages) = (foretold(SPLIT), split_pages());
    let image = hand.after(&split_operations(&pages), 7);
    hand.call(Frame::Commit(7), &reply(0, SPLIT), image);
    assert!(answers(&hand, 0, NONE) && !answers(&hand, 0, SPLIT));
    let mut hand = foretold(SPLIT);
    let image = hand.after(&split_operations(&pages), 6);
    hand.call(Frame::Commit(6), &reply(10, [2, 4, 0]), image);
    assert!(answers(&hand, 2, NONE) && !answers(&hand, 0, SPLIT));
}
