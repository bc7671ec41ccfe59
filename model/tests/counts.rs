//! The three counts of format, mount and commit, data programs, marks set, erases, the erases of blocks, which have to pay, and
//! forecasts: by hand.
mod erases;
mod forecast;
mod hand;
mod pays;

use hand::{data, obsolete, reply, write, Hand};
use model::model::chip::{Operation, USED};
use model::model::frame::Frame;
use model::model::geometry::Geometry;
use model::model::unit::Deed;

/// The part of these tests.
const SMALL: Geometry = Geometry::SMALL;
/// Bytes of its blocks.
const BLOCK: usize = SMALL.block();
/// Bytes of its pages.
const PAGE: usize = SMALL.page();
/// Pages of its blocks.
const PAGES: usize = SMALL.pages;
/// Data bytes of its pages.
const DATA: usize = SMALL.data;
/// Bytes of its torn slices.
const TORN: usize = SMALL.torn;
/// Three zeros.
const NONE: [u32; 3] = [0, 0, 0];
/// An allowance that cuts nothing.
const ENOUGH: u32 = 2000;

/// The data of format's page.
fn first_page() -> Vec<u8> {
    data(1, 0, 1, &[(0, Deed::Reset(0))])
}

/// A chip that a format began.
fn formatted() -> Hand {
    let mut hand = Hand::new();
    let page = first_page();
    let image = hand.after(&write(0, &page), 3);
    hand.call(Frame::Format(ENOUGH), "00000000010000000200000003", image);
    hand
}

/// Adds inserts of keys from one to another, each with its key as value.
fn insert(hand: &mut Hand, from: u32, to: u32) {
    for key in from..=to {
        hand.frame(Frame::Insert(key, key), "00");
    }
}

/// The units that insert keys from one to another in a node.
fn units(node: u16, from: u32, to: u32) -> Vec<(u16, Deed)> {
    (from..=to).map(|key| (node, Deed::Insert(key, key))).collect()
}

/// Adds a finished commit of one page.
fn commit_page(hand: &mut Hand, place: usize, commit: u32, units: &[(u16, Deed)]) {
    let page = data(commit, 0, 1, units);
    let image = hand.after(&write(place, &page), 3);
    hand.call(Frame::Commit(ENOUGH), "00000000010000000200000000", image);
}

/// A chip with keys 1 to 16 in node 0, each block with a page in it, and key 17 pending, which splits node 0.
fn before_split() -> Hand {
    let mut hand = formatted();
    insert(&mut hand, 1, 8);
    commit_page(&mut hand, 32, 2, &units(0, 1, 8));
    insert(&mut hand, 9, 16);
    commit_page(&mut hand, 64, 3, &units(0, 9, 16));
    insert(&mut hand, 17, 17);
    hand
}

/// The data of the two pages of the commit that splits node 0.
fn split_pages() -> [Vec<u8>; 2] {
    let root = [(0, Deed::Reset(1)), (0, Deed::Insert(0, 1)), (0, Deed::Insert(10, 2))];
    let leaves = [vec![(1, Deed::Reset(0))], units(1, 1, 9), vec![(2, Deed::Reset(0))], units(2, 10, 17)].concat();
    [data(4, 0, 2, &root), data(4, 1, 2, &leaves)]
}

/// The operations of that commit: its pages in block 2, then block 1, which is spent, is erased.
fn split_operations(pages: &[Vec<u8>; 2]) -> Vec<Operation<'_>> {
    let mut operations = write(65, &pages[0]);
    operations.extend(write(66, &pages[1]));
    operations.push(Operation::Erase(1));
    operations
}

/// Format finished and cut at each operation: erases first, then used mark, data, valid mark.
#[test]
fn format_at_each_operation() {
    let hand = Hand::new();
    let page = first_page();
    let mut operations = vec![Operation::Erase(0), Operation::Erase(1), Operation::Erase(2)];
    operations.extend(write(0, &page));
    let cut = [[0, 0, 0], [0, 0, 1], [0, 0, 2], [0, 0, 3], [0, 1, 3], [1, 1, 3]];
    for (allowance, counts) in cut.iter().enumerate() {
        let image = hand.after(&operations, allowance);
        let frame = Frame::Format(allowance as u32);
        assert_eq!(hand.accepted(frame, 10, allowance as u32, &image), [*counts]);
        assert!(!hand.accepts(frame, &reply(0, *counts), &image));
    }
    let image = hand.after(&operations, 6);
    for allowance in [6, 7, ENOUGH, u32::MAX] {
        assert_eq!(hand.accepted(Frame::Format(allowance), 0, 6, &image), [[1, 2, 3]]);
        assert!(hand.accepts(Frame::Format(allowance), "00000000010000000200000003", &image));
        assert!(!hand.accepts(Frame::Format(allowance), "0000000006", &image));
    }
}

/// A format, mount or commit that is refused otherwise than with 10 tells three zeros.
#[test]
fn refusals_tell_zeros() {
    let mut hand = Hand::new();
    let zeros = |refusal| reply(refusal, NONE);
    let blank = hand.image.clone();
    assert!(hand.accepts(Frame::Commit(9), &zeros(2), &blank) && hand.accepts(Frame::Mount(9), &zeros(7), &blank));
    assert!(!hand.accepts(Frame::Commit(9), "0200000000", &blank) && !hand.accepts(Frame::Mount(9), &reply(7, [0, 1, 0]), &blank));
    hand.frame(Frame::TornLength(TORN as u32 - 1), "00");
    assert!(hand.accepts(Frame::Format(9), &zeros(1), &blank) && hand.accepts(Frame::Mount(9), &zeros(1), &blank));
    assert!(!hand.accepts(Frame::Format(9), &reply(1, [0, 0, 1]), &blank));
}

/// Mount tells the obsolete marks that it sets as marks, cut or not.
#[test]
fn mount_with_void_pages() {
    let void = [data(2, 2, 3, &units(0, 1, 1)), data(2, 0, 3, &units(1, 1, 1))];
    let mut hand = Hand::with_pages(&[(0, first_page()), (9, void[0].clone()), (40, void[1].clone())]);
    let operations = obsolete(&[9, 40]);
    for allowance in 0..2 {
        let image = hand.after(&operations, allowance as usize);
        assert_eq!(hand.accepted(Frame::Mount(allowance), 10, allowance, &image), [[0, allowance, 0]]);
    }
    let image = hand.after(&operations, 2);
    for allowance in [2, 3, 255] {
        assert_eq!(hand.accepted(Frame::Mount(allowance), 0, 2, &image), [[0, 2, 0]]);
    }
    hand.call(Frame::Mount(255), &reply(0, [0, 2, 0]), image.clone());
    assert!(hand.accepts(Frame::Mount(0), &reply(0, NONE), &image));
}

/// A finished commit tells its pages, two marks for each and the blocks erased.
#[test]
fn finished_commit() {
    let (hand, pages) = (before_split(), split_pages());
    let operations = split_operations(&pages);
    let image = hand.after(&operations, operations.len());
    for allowance in [7, 8, ENOUGH] {
        assert_eq!(hand.accepted(Frame::Commit(allowance), 0, 7, &image), [[2, 4, 1]]);
        for other in [[2, 4, 0], [1, 4, 1], [3, 4, 1], [2, 3, 1], [2, 5, 1], [0, 0, 0]] {
            assert!(!hand.accepts(Frame::Commit(allowance), &reply(0, other), &image), "{other:?}");
        }
    }
    assert!(!hand.accepts(Frame::Commit(6), &reply(0, [2, 4, 1]), &image));
    assert!(!hand.accepts(Frame::Commit(ENOUGH), "0000000007", &image));
}

/// A commit with nothing pending tells three zeros.
#[test]
fn commit_with_nothing_pending() {
    let hand = formatted();
    assert_eq!(hand.accepted(Frame::Commit(0), 0, 0, &hand.image), [NONE]);
    assert!(!hand.accepts(Frame::Commit(0), &reply(10, NONE), &hand.image));
    assert!(!hand.accepts(Frame::Commit(1), &reply(0, [0, 0, 1]), &hand.image));
}

/// Of all counts with the allowance as sum, the judge accepts those of the first operations alone; the chip has no free block.
fn cut_at_each_operation(hand: &Hand) {
    let pages = split_pages();
    let operations = split_operations(&pages);
    let counts = [[0, 0, 0], [0, 1, 0], [1, 1, 0], [1, 2, 0], [1, 3, 0], [2, 3, 0], [2, 4, 0]];
    for (allowance, counts) in counts.iter().enumerate() {
        let image = hand.after(&operations, allowance);
        let frame = Frame::Commit(allowance as u32);
        assert_eq!(hand.accepted(frame, 10, allowance as u32, &image), [*counts], "allowance {allowance}");
        let more = [counts[0], counts[1] + 1, counts[2]];
        assert!(!hand.accepts(frame, &reply(10, more), &image), "allowance {allowance}");
    }
}

/// A commit cut at each operation, with torn bytes that show.
#[test]
fn cut_commit() {
    cut_at_each_operation(&before_split());
}

/// A commit cut at each operation, with a torn mark that is set and a torn erase that does nothing.
#[test]
fn cut_commit_with_torn_byte_0() {
    let mut hand = before_split();
    hand.set_torn(0, 0);
    cut_at_each_operation(&hand);
}

/// A commit cut at each operation, with torn marks and data that do not show and a torn erase that looks whole.
#[test]
fn cut_commit_with_torn_bytes_255() {
    let mut hand = before_split();
    for at in 0..TORN {
        hand.set_torn(at, 255);
    }
    cut_at_each_operation(&hand);
}

/// A commit cut at each operation, with torn bytes that are the data of its second page.
#[test]
fn cut_commit_with_torn_data_of_a_page() {
    let mut hand = before_split();
    for (at, byte) in split_pages()[1].iter().enumerate().take(DATA) {
        hand.set_torn(at, *byte);
    }
    cut_at_each_operation(&hand);
}

/// Pages are written one after the other: after a cut, one page at most is written in part.
#[test]
fn cut_commit_with_two_pages_in_part() {
    let (hand, pages) = (before_split(), split_pages());
    let operations = [Operation::Mark(65, USED), Operation::Mark(66, USED), Operation::Program(65, &pages[0])];
    let image = hand.after(&operations, 2);
    assert!(hand.accepted(Frame::Commit(2), 10, 2, &image).is_empty());
}

/// Marks of other pages that show add to the two marks of each page.
#[test]
fn commit_that_sets_an_obsolete_mark() {
    let (hand, pages) = (before_split(), split_pages());
    let mut operations = split_operations(&pages);
    operations.extend(obsolete(&[0]));
    let image = hand.after(&operations, 8);
    assert_eq!(hand.accepted(Frame::Commit(ENOUGH), 0, 8, &image), [[2, 5, 1]]);
    assert_eq!(hand.accepted(Frame::Commit(7), 10, 7, &hand.after(&operations, 7)), [[2, 4, 1]]);
}

/// An erase of a free block does not show, so it may be told; no other kind may.
#[test]
fn erase_that_does_not_show() {
    let mut hand = formatted();
    insert(&mut hand, 1, 1);
    let page = data(2, 0, 1, &units(0, 1, 1));
    let image = hand.after(&write(1, &page), 3);
    assert_eq!(hand.accepted(Frame::Commit(ENOUGH), 0, 3, &image), [[1, 2, 0]]);
    assert_eq!(hand.accepted(Frame::Commit(ENOUGH), 0, 4, &image), [[1, 2, 1]]);
    let torn = hand.after(&write(1, &page), 2);
    assert_eq!(hand.accepted(Frame::Commit(2), 10, 2, &torn), [[1, 1, 0]]);
}

/// A block erased and written as far as an earlier cut commit wrote it shows no change, and its operations are told.
#[test]
fn cut_commit_that_leaves_the_same_image() {
    let (mut hand, pages) = (before_split(), split_pages());
    let split = split_operations(&pages);
    let image = hand.after(&split, split.len());
    hand.call(Frame::Commit(ENOUGH), &reply(0, [2, 4, 1]), image);
    hand.set_torn(0, 255);
    insert(&mut hand, 18, 18);
    let page = data(5, 0, 1, &units(2, 18, 18));
    let mut operations = vec![Operation::Erase(0)];
    operations.extend(write(0, &page));
    let image = hand.after(&operations, 3);
    assert_eq!(hand.accepted(Frame::Commit(3), 10, 3, &image), [[1, 1, 1]]);
    hand.call(Frame::Commit(3), &reply(10, [1, 1, 1]), image.clone());
    hand.frame(Frame::Mount(255), &reply(0, NONE));
    insert(&mut hand, 18, 18);
    assert_eq!(hand.after(&operations, 3), image);
    assert!(hand.accepts(Frame::Commit(3), &reply(10, [1, 1, 1]), &image));
    assert!(!hand.accepts(Frame::Commit(3), &reply(10, [1, 2, 0]), &image));
    assert!(!hand.accepts(Frame::Commit(3), &reply(10, [0, 2, 1]), &image));
}

/// Of an open commit the sum of the counts is at most the allowance.
#[test]
fn open_commit() {
    let mut hand = before_split();
    let mut image = hand.image.clone();
    image[70 * PAGE] = 7;
    hand.set_image(&image);
    for counts in [[0, 0, 0], [7, 0, 0], [1, 2, 4], [3, 3, 0]] {
        assert!(hand.accepts(Frame::Commit(7), &reply(0, counts), &image) && hand.accepts(Frame::Commit(7), &reply(10, counts), &image));
    }
    assert!(!hand.accepts(Frame::Commit(7), &reply(0, [3, 3, 2]), &image));
    assert!(!hand.accepts(Frame::Commit(u32::MAX), &reply(0, [u32::MAX, 1, 0]), &image));
    assert!(!hand.accepts(Frame::Commit(7), "0000000007", &image));
}

/// A commit above the last number tells refusal 6 and three zeros.
#[test]
fn commit_above_the_last_number() {
    let mut hand = Hand::with_pages(&[(0, data(u32::MAX, 0, 1, &[(0, Deed::Reset(0))]))]);
    hand.frame(Frame::Mount(255), &reply(0, NONE));
    insert(&mut hand, 1, 1);
    assert_eq!(hand.accepted(Frame::Commit(5), 6, 0, &hand.image), [NONE]);
    assert!(hand.accepted(Frame::Commit(5), 6, 1, &hand.image).is_empty());
}
