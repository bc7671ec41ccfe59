//! Images after a rebuild that are not right.
use super::{leaf, operations, thin_chip, NEW, VOID};
use crate::hand::{data, obsolete, reply, write, Hand};
use model::model::chip::Operation;
use model::model::frame::Frame;
use model::model::unit::Deed;

/// Whether a finished rebuild of the thin chip with one page, of a number and units, passes.
fn one_page(number: u32, place: usize, units: &[(u16, Deed)]) -> bool {
    let (chip, page) = (thin_chip(), data(number, 0, 1, units));
    chip.accepts(Frame::Rebuild(2000), &reply(0, [1, 3, 0]), &chip.after(&operations(place, &page), 4))
}

/// Whether one with these operations and counts passes.
fn passes(chip: &Hand, operations: &[Operation], counts: [u32; 3]) -> bool {
    chip.accepts(Frame::Rebuild(2000), &reply(0, counts), &chip.after(operations, operations.len()))
}

/// The page may be anywhere in a free block; not in a block that is not wholly free.
#[test]
fn places() {
    for (place, right) in [(32, true), (63, true), (64, true), (95, true), (1, false), (31, false)] {
        assert_eq!(one_page(6, place, &leaf(&[1, 7])), right, "{place}");
    }
}

/// The number is the next one.
#[test]
fn numbers() {
    for (number, right) in [(6, true), (5, false), (7, false), (1, false)] {
        assert_eq!(one_page(number, NEW, &leaf(&[1, 7])), right, "{number}");
    }
}

/// Each number that the chip has and the new tree has not gets its reset 255: a node, and one that was freed before.
#[test]
fn resets() {
    assert!(!one_page(6, NEW, &leaf(&[1])));
    assert!(!one_page(6, NEW, &leaf(&[7])));
    assert!(one_page(6, NEW, &leaf(&[7, 1])) && one_page(6, NEW, &leaf(&[1, 7, 9])));
}

/// The records are the same, and the tree is not thin.
#[test]
fn trees() {
    let mut lost = leaf(&[1, 7]);
    lost.remove(2);
    assert!(!one_page(6, NEW, &lost));
    let mut more = leaf(&[1, 7]);
    more.push((0, Deed::Insert(9, 9)));
    assert!(!one_page(6, NEW, &more));
    let root = |entries: &[(u32, u32)]| {
        let inserts = entries.iter().map(|(key, value)| (0, Deed::Insert(*key, *value)));
        [(0, Deed::Reset(1))].into_iter().chain(inserts).collect::<Vec<_>>()
    };
    let leaves = [(1, Deed::Reset(0)), (1, Deed::Insert(4, 40)), (2, Deed::Reset(0)), (2, Deed::Insert(5, 50)), (2, Deed::Insert(6, 60))];
    let free = [(7, Deed::Reset(255))];
    assert!(one_page(6, NEW, &[root(&[(0, 1), (5, 2)]).as_slice(), &leaves, &free].concat()));
    let one = [(1, Deed::Reset(0)), (1, Deed::Insert(4, 40)), (1, Deed::Insert(5, 50)), (1, Deed::Insert(6, 60))];
    assert!(!one_page(6, NEW, &[root(&[(0, 1)]).as_slice(), &one, &free].concat()));
}

/// At most one block of three is written, and a node stands in one page.
#[test]
fn blocks_and_pages() {
    let (chip, units) = (thin_chip(), leaf(&[1, 7]));
    let two = |at: usize, second: usize| {
        let pages = [data(6, 0, 2, &units[..at]), data(6, 1, 2, &units[at..])];
        let operations: Vec<_> = obsolete(&[VOID]).into_iter().chain(write(NEW, &pages[0])).chain(write(second, &pages[1])).collect();
        passes(&chip, &operations, [2, 5, 0])
    };
    assert!(two(4, 90) && !two(4, 40) && !two(3, 90));
}

/// No erase, not even of a free block; the void page is marked; nothing else is written.
#[test]
fn other_operations() {
    let (chip, page) = (thin_chip(), data(6, 0, 1, &leaf(&[1, 7])));
    let right = operations(NEW, &page);
    assert!(passes(&chip, &right, [1, 3, 0]) && !passes(&chip, &right, [1, 3, 1]) && !passes(&chip, &right, [1, 4, 0]));
    let unmarked = write(NEW, &page);
    assert!(!passes(&chip, &unmarked, [1, 2, 0]) && !passes(&chip, &unmarked, [1, 3, 0]));
    let old: Vec<_> = operations(NEW, &page).into_iter().chain(obsolete(&[0])).collect();
    assert!(!passes(&chip, &old, [1, 4, 0]));
    let twice: Vec<_> = operations(NEW, &page).into_iter().chain(obsolete(&[NEW])).collect();
    assert!(!passes(&chip, &twice, [1, 4, 0]));
}
