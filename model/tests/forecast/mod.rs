//! Forecasts, note 10 of document 02, worked by hand: what one answers by itself.
mod commit;
mod open;

use super::{before_split, commit_page, first_page, formatted, insert, units, BLOCK, ENOUGH, NONE, PAGE, TORN};
use crate::hand::{data, reply, write, Hand};
use model::model::chip::Operation;
use model::model::frame::Frame;
use model::model::unit::Deed;

/// Adds a forecast, which the judge has to accept.
fn forecast(hand: &mut Hand, refusal: u32, counts: [u32; 3]) {
    hand.frame(Frame::Forecast, &reply(refusal, counts));
}

/// Whether the judge accepts a forecast's answer.
fn answers(hand: &Hand, refusal: u32, counts: [u32; 3]) -> bool {
    hand.accepts(Frame::Forecast, &reply(refusal, counts), &hand.image)
}

/// Of the refusals 0 to 20, those that the judge accepts of a forecast with three zeros; with other counts it accepts none.
fn refusals(hand: &Hand) -> Vec<u32> {
    assert!((1..20).all(|refusal| !answers(hand, refusal, [0, 0, 1]) && !answers(hand, refusal, [1, 2, 0])));
    (0..=20).filter(|refusal| answers(hand, *refusal, NONE)).collect()
}

/// Lends so many bytes of an image, all 255 past its end.
fn lend(hand: &mut Hand, image: &[u8], length: usize) {
    hand.image = image.to_vec();
    hand.image.resize(length, 255);
    hand.frame(Frame::Length(length as u32), "00");
}

/// Off, the answer is 2 at every length of the image.
#[test]
fn off() {
    let mut hand = Hand::new();
    for length in [3 * BLOCK, 3 * BLOCK - 1, 0, 33 * BLOCK] {
        lend(&mut hand, &[], length);
        assert_eq!(refusals(&hand), [2]);
    }
}

/// On, the answer is 1 at each length that is not that of the state's B.
#[test]
fn wrong_size() {
    let mut hand = before_split();
    let image = hand.image.clone();
    for length in [0, BLOCK, 2 * BLOCK, 3 * BLOCK - 1, 3 * BLOCK + 1, 4 * BLOCK, 33 * BLOCK] {
        lend(&mut hand, &image, length);
        assert_eq!(refusals(&hand), [1]);
    }
    lend(&mut hand, &image, 3 * BLOCK);
    assert!(refusals(&hand).is_empty() && answers(&hand, 0, [2, 4, 1]));
}

/// The torn slice's length does not matter.
#[test]
fn torn_length() {
    for length in [0, 1, TORN - 1, TORN + 1, 600] {
        let mut hand = before_split();
        hand.frame(Frame::TornLength(length as u32), "00");
        assert!(refusals(&hand).is_empty());
        forecast(&mut hand, 0, [2, 4, 1]);
        assert!(hand.accepts(Frame::Commit(7), &reply(1, NONE), &hand.image));
        hand.frame(Frame::Commit(7), &reply(1, NONE));
        assert!(!answers(&hand, 0, [2, 4, 0]) && answers(&hand, 0, [2, 4, 1]));
    }
}

/// With nothing pending the answer is three zeros: after a format, a commit, a mount, and at the last number.
#[test]
fn nothing_pending() {
    let mut hand = formatted();
    assert_eq!(refusals(&hand), [0]);
    assert!(!answers(&hand, 0, [1, 2, 0]) && !answers(&hand, 0, [0, 0, 1]));
    insert(&mut hand, 1, 1);
    commit_page(&mut hand, 1, 2, &units(0, 1, 1));
    assert_eq!(refusals(&hand), [0]);
    insert(&mut hand, 2, 2);
    hand.frame(Frame::Mount(255), &reply(0, NONE));
    assert_eq!(refusals(&hand), [0]);
    let mut last = Hand::with_pages(&[(0, data(u32::MAX, 0, 1, &[(0, Deed::Reset(0))]))]);
    last.frame(Frame::Mount(255), &reply(0, NONE));
    assert_eq!(refusals(&last), [0]);
}

/// An answer has two digits and three times eight.
#[test]
fn digits() {
    let hand = before_split();
    for answer in ["00", "0000000007", "0000000002000000040000000", "000000000200000004000000010", "0000000002000000040000000g", "FF", ""] {
        assert!(!hand.accepts(Frame::Forecast, answer, &hand.image), "{answer}");
    }
}

/// A commit of a list writes whole pages, at least one, and else marks of pages that are not free; 6 and 10 do not hold.
#[test]
fn counts_of_a_list() {
    let hand = before_split();
    assert!(refusals(&hand).is_empty());
    for counts in [[1, 2, 0], [2, 4, 1], [2, 5, 0], [1, 2, 3], [93, 186, 0], [1, 8, 0]] {
        assert!(answers(&hand, 0, counts), "{counts:?}");
    }
    for counts in
        [[0, 1, 0], [0, 2, 1], [0, 0, 3], [1, 1, 0], [2, 3, 1], [1, 9, 0], [1, 1999, 0], [1, 2, 1998], [94, 188, 0], [u32::MAX; 3]]
    {
        assert!(!answers(&hand, 0, counts), "{counts:?}");
    }
}

/// A chip of 3 blocks whose pages before one are all written, each with node 0 anew, and an update pending.
fn filled(pages: usize) -> Hand {
    let mut hand = formatted();
    for place in 1..pages as u32 {
        hand.frame(Frame::Insert(7, place), "00");
        commit_page(&mut hand, place as usize, place + 1, &[(0, Deed::Reset(0)), (0, Deed::Insert(7, place))]);
    }
    insert(&mut hand, 7, 7);
    hand
}

/// Pages are free ones or in blocks erased; with an erase, one page more is left free.
#[test]
fn room() {
    let full = filled(96);
    assert!(!answers(&full, 0, [1, 2, 0]) && answers(&full, 0, [1, 2, 1]));
    assert!(answers(&full, 0, [31, 62, 1]) && !answers(&full, 0, [32, 64, 1]) && answers(&full, 0, [32, 64, 2]));
    let one = filled(95);
    assert!(answers(&one, 0, [1, 2, 0]) && !answers(&one, 0, [2, 4, 0]) && answers(&one, 0, [32, 64, 1]));
    let mut cut = filled(94);
    let page = first_page();
    let image = cut.after(&write(94, &page), 0);
    cut.call(Frame::Commit(0), &reply(10, NONE), image);
    cut.frame(Frame::Mount(255), &reply(0, NONE));
    insert(&mut cut, 7, 7);
    assert!(answers(&cut, 0, [1, 2, 0]) && !answers(&cut, 0, [2, 4, 0]));
    assert!(answers(&cut, 0, [33, 66, 1]) && !answers(&cut, 0, [34, 68, 1]));
}

/// Note 8: at most the blocks that the commit before did not erase, once each.
#[test]
fn erases_that_pay() {
    let mut hand = filled(70);
    assert!(answers(&hand, 0, [1, 2, 3]) && !answers(&hand, 0, [1, 2, 4]));
    let page = data(71, 0, 1, &[(0, Deed::Reset(0)), (0, Deed::Insert(7, 7))]);
    let mut operations = vec![Operation::Erase(0)];
    operations.extend(write(70, &page));
    let image = hand.after(&operations, 4);
    hand.call(Frame::Commit(ENOUGH), &reply(0, [1, 2, 1]), image);
    insert(&mut hand, 8, 8);
    assert!(answers(&hand, 0, [1, 2, 2]) && !answers(&hand, 0, [1, 2, 3]));
}

/// A forecast leaves the image, each byte of it.
#[test]
fn image_stays() {
    let hand = before_split();
    for at in [0, PAGE, 40000, 3 * BLOCK - 1] {
        let mut image = hand.image.clone();
        image[at] ^= 1;
        assert!(!hand.accepts(Frame::Forecast, &reply(0, [2, 4, 1]), &image));
    }
}

/// A forecast leaves the state: 16 pending updates stay pending, and what they inserted is found.
#[test]
fn state_stays() {
    let mut hand = formatted();
    insert(&mut hand, 1, 16);
    forecast(&mut hand, 0, [1, 2, 0]);
    assert!(hand.accepts(Frame::Insert(17, 17), "03", &hand.image) && !hand.accepts(Frame::Insert(17, 17), "00", &hand.image));
    assert!(hand.accepts(Frame::LookUp(16), "000000001001", &hand.image) && !hand.accepts(Frame::LookUp(16), "0401", &hand.image));
    assert!(!hand.accepts(Frame::Commit(ENOUGH), &reply(0, NONE), &hand.image));
    assert!(!hand.accepts(Frame::LookUp(1), "02", &hand.image));
}
