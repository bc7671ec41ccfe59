//! The erases that the block report shows, worked by hand.
use super::{before_split, first_page, formatted, insert, split_operations, split_pages, units, BLOCK, ENOUGH, NONE, PAGE, SMALL, TORN};
use crate::hand::{data, obsolete, reply, write, Hand};
use model::model::chip::{self, Operation};
use model::model::frame::Frame;
use model::model::unit::Deed;

/// The report of a block with the image's free pages and a figure.
fn report(hand: &Hand, block: u32, figure: u64) -> String {
    let (free, first) = chip::free_pages(SMALL, &hand.image, block as usize);
    format!("00{free:02X}{first:02X}{figure:016X}")
}

/// Of some figures, those that the judge accepts for a block.
fn figures(hand: &Hand, block: u32) -> Vec<u64> {
    let tried = [0, 1, 2, 3, 4, 5, 1 << 32, 1 << 56, u64::MAX];
    let accepted = |figure: &u64| hand.accepts(Frame::Report(block), &report(hand, block, *figure), &hand.image);
    tried.into_iter().filter(accepted).collect()
}

/// The judge accepts one figure alone for each of the three blocks.
fn just(hand: &Hand, erases: [u64; 3]) {
    for (block, figure) in erases.iter().enumerate() {
        assert_eq!(figures(hand, block as u32), [*figure], "block {block}");
    }
}

/// Adds a finished commit: all operations of a list.
fn commit(hand: &mut Hand, operations: &[Operation], counts: [u32; 3]) {
    let image = hand.after(operations, operations.len());
    hand.call(Frame::Commit(ENOUGH), &reply(0, counts), image);
}

/// Adds a commit cut after a number of operations.
fn cut(hand: &mut Hand, operations: &[Operation], allowance: u32, counts: [u32; 3]) {
    let image = hand.after(operations, allowance as usize);
    hand.call(Frame::Commit(allowance), &reply(10, counts), image);
}

/// A chip whose block 1 was erased once, by the commit that split node 0.
fn split() -> Hand {
    let (mut hand, pages) = (before_split(), split_pages());
    commit(&mut hand, &split_operations(&pages), [2, 4, 1]);
    hand
}

/// Adds the insert of a key in node 2 and the commit that erases block 0 and writes it into the block's first page.
fn commit_in_block_0(hand: &mut Hand, number: u32, key: u32) {
    insert(hand, key, key);
    let page = data(number, 0, 1, &units(2, key, key));
    let mut operations = vec![Operation::Erase(0)];
    operations.extend(write(0, &page));
    commit(hand, &operations, [1, 2, 1]);
}

/// A format's own erases are not counted.
#[test]
fn format_starts_at_0() {
    let hand = formatted();
    just(&hand, [0, 0, 0]);
    assert!(hand.accepts(Frame::Report(0), "001F010000000000000000", &hand.image));
    assert!(hand.accepts(Frame::Report(2), "0020000000000000000000", &hand.image));
}

/// A report has 16 digits more than the free pages and the first free one.
#[test]
fn sixteen_digits() {
    let hand = split();
    assert!(hand.accepts(Frame::Report(1), "0020000000000000000001", &hand.image));
    for digits in ["", "01", "00000001", "000000000000001", "00000000000000001", "0100000000000000", "000000000000000 ", "+000000000000001"]
    {
        assert!(!hand.accepts(Frame::Report(1), &format!("002000{digits}"), &hand.image), "{digits}");
    }
}

/// A report that is refused has the refusal alone: off, a wrong length, a block not on the chip.
#[test]
fn refused_reports() {
    let mut hand = Hand::new();
    assert!(hand.accepts(Frame::Report(0), "02", &hand.image));
    hand = split();
    for block in [3, 32, u32::MAX] {
        assert!(hand.accepts(Frame::Report(block), "04", &hand.image));
        assert!(!hand.accepts(Frame::Report(block), "0400000000000000000000", &hand.image));
    }
    hand.image.truncate(2 * BLOCK);
    hand.frame(Frame::Length(2 * BLOCK as u32), "00");
    assert!(hand.accepts(Frame::Report(0), "01", &hand.image));
}

/// Each erase of a finished commit counts for its block, and pages and marks count nothing.
#[test]
fn commits_count_their_erases() {
    just(&before_split(), [0, 0, 0]);
    let mut hand = split();
    just(&hand, [0, 1, 0]);
    commit_in_block_0(&mut hand, 5, 18);
    just(&hand, [1, 1, 0]);
    insert(&mut hand, 19, 19);
    let node = [vec![(2, Deed::Reset(0))], units(2, 10, 19)].concat();
    let page = data(6, 0, 1, &node);
    let mut operations = write(32, &page);
    operations.extend(obsolete(&[0]));
    commit(&mut hand, &operations, [1, 3, 0]);
    just(&hand, [1, 1, 0]);
    commit_in_block_0(&mut hand, 7, 20);
    just(&hand, [2, 1, 0]);
}

/// A commit that erases two blocks counts in both.
#[test]
fn two_erases_of_a_commit() {
    let (mut hand, pages) = (before_split(), split_pages());
    let mut operations = split_operations(&pages);
    operations.push(Operation::Erase(0));
    commit(&mut hand, &operations, [2, 4, 2]);
    just(&hand, [1, 1, 0]);
}

/// An erase that does not show was of a free block: either one, and the figures add up to the erases told.
#[test]
fn erase_that_does_not_show() {
    let mut hand = formatted();
    insert(&mut hand, 1, 1);
    let page = data(2, 0, 1, &units(0, 1, 1));
    commit(&mut hand, &write(1, &page), [1, 2, 1]);
    assert_eq!([figures(&hand, 0), figures(&hand, 1), figures(&hand, 2)], [vec![0], vec![0, 1], vec![0, 1]]);
    for figure in [0, 1] {
        let mut told = formatted();
        insert(&mut told, 1, 1);
        commit(&mut told, &write(1, &page), [1, 2, 1]);
        told.frame(Frame::Report(1), &report(&told, 1, figure));
        just(&told, [0, figure, 1 - figure]);
    }
}

/// A block that shows an erase may have been erased more than once, as often as is told, in a list with a cut: note 8 is not
/// about it.
#[test]
fn block_erased_again() {
    let (mut hand, pages) = (before_split(), split_pages());
    hand.set_torn(0, 255);
    cut(&mut hand, &split_operations(&pages), 0, NONE);
    hand.frame(Frame::Mount(255), &reply(0, NONE));
    insert(&mut hand, 17, 17);
    commit(&mut hand, &split_operations(&pages), [2, 4, 3]);
    just(&hand, [0, 3, 0]);
    insert(&mut hand, 18, 18);
    let page = data(5, 0, 1, &units(2, 18, 18));
    let mut operations = vec![Operation::Erase(0)];
    operations.extend(write(0, &page));
    commit(&mut hand, &operations, [1, 2, 2]);
    assert_eq!([figures(&hand, 0), figures(&hand, 1), figures(&hand, 2)], [vec![1, 2], vec![3, 4], vec![0]]);
    hand.frame(Frame::Report(0), &report(&hand, 0, 2));
    just(&hand, [2, 3, 0]);
}

/// A finished mount and a finished format start all figures at 0, also when the store was on.
#[test]
fn starts() {
    let mut hand = split();
    hand.frame(Frame::Mount(0), &reply(0, NONE));
    just(&hand, [0, 0, 0]);
    commit_in_block_0(&mut hand, 5, 18);
    just(&hand, [1, 0, 0]);
    let page = first_page();
    let mut operations = vec![Operation::Erase(0), Operation::Erase(1), Operation::Erase(2)];
    operations.extend(write(0, &page));
    let image = hand.after(&operations, 6);
    hand.call(Frame::Format(6), &reply(0, [1, 2, 3]), image);
    just(&hand, [0, 0, 0]);
}

/// A commit that is cut leaves the store off, whether its erase was whole or torn; the mount after it starts at 0.
#[test]
fn cut_commits() {
    let pages = split_pages();
    let mut operations = split_operations(&pages);
    operations.extend(obsolete(&[0]));
    for (allowance, counts) in [(6, [2, 4, 0]), (7, [2, 4, 1])] {
        let mut hand = before_split();
        cut(&mut hand, &operations, allowance, counts);
        assert!(hand.accepts(Frame::Report(1), "02", &hand.image));
        assert!(figures(&hand, 1).is_empty());
        hand.frame(Frame::Mount(255), &reply(0, NONE));
        just(&hand, [0, 0, 0]);
    }
}

/// A mount that is cut leaves the store off; the next one starts at 0.
#[test]
fn cut_mount() {
    let (mut hand, pages) = (split(), split_pages());
    let mut again = before_split();
    cut(&mut again, &split_operations(&pages), 4, [1, 3, 0]);
    hand.set_image(&again.image);
    let marks = obsolete(&[65]);
    let image = hand.after(&marks, 0);
    hand.call(Frame::Mount(0), &reply(10, NONE), image);
    assert!(hand.accepts(Frame::Report(1), "02", &hand.image));
    let image = hand.after(&marks, 1);
    hand.call(Frame::Mount(1), &reply(0, [0, 1, 0]), image);
    just(&hand, [0, 0, 0]);
}

/// Updates, look ups, commits with nothing pending and calls that are refused change no figure.
#[test]
fn calls_that_change_no_figure() {
    let mut hand = split();
    hand.frame(Frame::Commit(0), &reply(0, NONE));
    hand.frame(Frame::LookUp(10), "000000000A02");
    hand.frame(Frame::Delete(99), "04");
    hand.frame(Frame::Report(3), "04");
    insert(&mut hand, 18, 33);
    hand.frame(Frame::Insert(34, 34), "03");
    just(&hand, [0, 1, 0]);
    hand.frame(Frame::TornLength(TORN as u32 - 1), "00");
    hand.frame(Frame::Commit(ENOUGH), &reply(1, NONE));
    hand.frame(Frame::Mount(ENOUGH), &reply(1, NONE));
    hand.frame(Frame::Format(ENOUGH), &reply(1, NONE));
    just(&hand, [0, 1, 0]);
}

/// On a changed image the figure is open; set back, it is the one before.
#[test]
fn changed_image() {
    let mut hand = split();
    let (before, mut image) = (hand.image.clone(), hand.image.clone());
    image[70 * PAGE] = 7;
    hand.set_image(&image);
    assert_eq!(figures(&hand, 1).len(), 9);
    assert!(hand.accepts(Frame::Report(1), "001234000000000000ABCD", &image) && hand.accepts(Frame::Report(1), "04", &image));
    assert!(!hand.accepts(Frame::Report(1), "002000", &image) && !hand.accepts(Frame::Report(1), "0020000000000000000g01", &image));
    hand.set_image(&before);
    just(&hand, [0, 1, 0]);
}

/// A chip that no format began starts at 0 as well; its commits leave figures that are open, and that stay.
#[test]
fn foreign_chip() {
    let mut hand = Hand::with_pages(&[(0, first_page())]);
    hand.frame(Frame::Mount(255), &reply(0, NONE));
    just(&hand, [0, 0, 0]);
    insert(&mut hand, 1, 1);
    just(&hand, [0, 0, 0]);
    let page = data(2, 0, 1, &units(0, 1, 1));
    commit(&mut hand, &write(1, &page), [1, 2, 0]);
    assert_eq!(figures(&hand, 0).len(), 9);
    hand.frame(Frame::Report(0), &report(&hand, 0, 4));
    assert_eq!((figures(&hand, 0), figures(&hand, 1).len()), (vec![4], 9));
    hand.frame(Frame::Mount(255), &reply(0, NONE));
    just(&hand, [0, 0, 0]);
}
