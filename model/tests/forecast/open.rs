//! Where document 01 leaves commit open, a forecast is open in the same way, and agrees with the commit made then.
use super::{answers, forecast, refusals};
use crate::hand::{data, obsolete, reply, write, Hand};
use crate::{before_split, first_page, insert, units, ENOUGH, NONE};
use model::model::frame::Frame;
use model::model::unit::Deed;

/// A chip of one leaf with a commit number that no format began, mounted, and key 1 pending.
fn foreign(number: u32) -> Hand {
    let mut hand = Hand::with_pages(&[(0, data(number, 0, 1, &[(0, Deed::Reset(0))]))]);
    hand.frame(Frame::Mount(255), &reply(0, NONE));
    insert(&mut hand, 1, 1);
    hand
}

/// Whether the judge accepts the commit of key 1 on such a chip, finished or cut, with an obsolete mark besides its page.
fn commits(hand: &Hand, refusal: u32, allowance: u32, counts: [u32; 3]) -> bool {
    let page = data(6, 0, 1, &[(0, Deed::Reset(0)), (0, Deed::Insert(1, 1))]);
    let mut operations = write(1, &page);
    operations.extend(obsolete(&[0]));
    let image = hand.after(&operations, allowance.min(4) as usize);
    hand.accepts(Frame::Commit(allowance), &reply(refusal, counts), &image)
}

/// On a chip that no format began: 6 or counts, and the commit the same.
#[test]
fn foreign_chip() {
    let hand = foreign(5);
    assert_eq!(refusals(&hand), [6]);
    assert!(answers(&hand, 0, [1, 3, 0]) && answers(&hand, 0, [0, 9, 0]) && !answers(&hand, 0, [u32::MAX, 1, 0]));
    let mut counted = foreign(5);
    forecast(&mut counted, 0, [1, 3, 0]);
    assert!(commits(&counted, 0, 4, [1, 3, 0]) && commits(&counted, 10, 3, [1, 2, 0]));
    assert!(!commits(&counted, 10, 4, [1, 3, 0]) && !commits(&counted, 0, 4, [1, 2, 0]) && !commits(&counted, 10, 3, [1, 1, 0]));
    assert!(!counted.accepts(Frame::Commit(ENOUGH), &reply(6, NONE), &counted.image));
    assert!(!answers(&counted, 6, NONE) && !answers(&counted, 0, [1, 2, 0]));
    assert!(commits(&hand, 0, 4, [1, 2, 0]) && hand.accepts(Frame::Commit(ENOUGH), &reply(6, NONE), &hand.image));
}

/// A forecast of 6 and a commit refused with 6 foretell each other, at every allowance.
#[test]
fn six() {
    let mut hand = foreign(5);
    forecast(&mut hand, 6, NONE);
    for allowance in [0, 3, 4, ENOUGH] {
        assert!(hand.accepts(Frame::Commit(allowance), &reply(6, NONE), &hand.image));
        assert!(!commits(&hand, 0, allowance, [1, 3, 0]) && !commits(&hand, 10, allowance, NONE));
    }
    let mut hand = foreign(5);
    hand.frame(Frame::Commit(3), &reply(6, NONE));
    assert_eq!(refusals(&hand), [6]);
    assert!(!answers(&hand, 0, [1, 3, 0]));
    insert(&mut hand, 2, 2);
    assert!(answers(&hand, 0, [1, 3, 0]));
}

/// With something pending at the last number: 6 alone.
#[test]
fn last_number() {
    let hand = foreign(u32::MAX);
    assert_eq!(refusals(&hand), [6]);
    assert!(!answers(&hand, 0, [1, 2, 0]));
    assert!(answers(&foreign(u32::MAX - 1), 0, [1, 2, 0]));
}

/// On a changed image: anything, but never 10, and the commit agrees; each image has its own, also when it is set back.
#[test]
fn changed_image() {
    let mut hand = before_split();
    let image = hand.image.clone();
    let mut other = image.clone();
    other[70 * 528] = 7;
    forecast(&mut hand, 0, [2, 4, 1]);
    hand.set_image(&other);
    assert_eq!(refusals(&hand), [0, 6]);
    assert!(answers(&hand, 0, [0, 9, 3000]) && answers(&hand, 0, [2, 4, 1]) && !answers(&hand, 0, [u32::MAX; 3]));
    forecast(&mut hand, 0, [0, 1, 4]);
    let accepts = |hand: &Hand, refusal, allowance, counts| hand.accepts(Frame::Commit(allowance), &reply(refusal, counts), &other);
    assert!(accepts(&hand, 0, 5, [0, 1, 4]) && accepts(&hand, 10, 4, [0, 0, 4]) && accepts(&hand, 10, 0, NONE));
    assert!(!accepts(&hand, 0, 5, [0, 0, 4]) && !accepts(&hand, 10, 5, [0, 1, 4]) && !accepts(&hand, 0, 4, [0, 0, 4]));
    assert!(!accepts(&hand, 10, 4, [0, 0, 3]) && !accepts(&hand, 10, 4, [0, 2, 2]) && !accepts(&hand, 6, 5, NONE));
    hand.set_image(&image);
    assert!(answers(&hand, 0, [2, 4, 1]) && !answers(&hand, 0, [0, 1, 4]) && !answers(&hand, 0, [2, 4, 0]));
    hand.set_image(&other);
    assert!(answers(&hand, 0, [0, 1, 4]) && !answers(&hand, 0, [2, 4, 1]));
}

/// On a state that an update on a changed image gave: anything, and the commit agrees; an accepted update ends it.
#[test]
fn wild_state() {
    let mut hand = before_split();
    let mut image = hand.image.clone();
    image[70 * 528] = 7;
    hand.set_image(&image);
    insert(&mut hand, 18, 18);
    assert_eq!(refusals(&hand), [0, 6]);
    forecast(&mut hand, 0, [3, 0, 0]);
    assert!(answers(&hand, 0, [3, 0, 0]) && !answers(&hand, 0, [0, 3, 0]));
    hand.frame(Frame::Insert(19, 19), "03");
    assert!(!answers(&hand, 0, [0, 3, 0]) && !hand.accepts(Frame::Commit(3), &reply(0, [0, 3, 0]), &image));
    assert!(hand.accepts(Frame::Commit(3), &reply(0, [3, 0, 0]), &image));
    insert(&mut hand, 19, 19);
    assert!(answers(&hand, 0, [0, 3, 0]));
}

/// A mount of a chip that a format began and frames left alone fixes the forecast again.
#[test]
fn mounted_again() {
    let mut hand = Hand::with_pages(&[(0, first_page()), (1, data(2, 0, 1, &units(0, 1, 1)))]);
    hand.frame(Frame::Mount(255), &reply(0, NONE));
    assert_eq!(refusals(&hand), [0]);
    insert(&mut hand, 2, 2);
    forecast(&mut hand, 6, NONE);
    hand.frame(Frame::Mount(255), &reply(0, NONE));
    assert_eq!(refusals(&hand), [0]);
    insert(&mut hand, 2, 2);
    assert!(answers(&hand, 0, [1, 2, 0]));
}
