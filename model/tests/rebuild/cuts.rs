//! A rebuild by hand, finished and cut at each operation.
use super::{leaf, operations, thin_chip, thin_pages, NEW, VOID};
use crate::hand::{data, obsolete, write, Hand};
use model::model::frame::Frame;
use model::model::unit::Deed;

/// Finished: the counts are the operations, and no others.
#[test]
fn finished() {
    let (chip, page) = (thin_chip(), data(6, 0, 1, &leaf(&[1, 7])));
    let image = chip.after(&operations(NEW, &page), 4);
    for allowance in [4, 5, 2000, u32::MAX] {
        assert_eq!(chip.accepted(Frame::Rebuild(allowance), 0, 4, &image), [[1, 3, 0]]);
        assert!(chip.accepted(Frame::Rebuild(allowance), 0, 3, &image).is_empty());
        assert!(chip.accepted(Frame::Rebuild(allowance), 10, 4, &image).is_empty());
    }
    assert!(chip.accepted(Frame::Rebuild(3), 0, 4, &image).is_empty());
}

/// The torn bytes 5A, 0 and 255 at the first place.
fn each_torn(test: impl Fn(u8)) {
    [0x5A, 0, 255].into_iter().for_each(test);
}

/// Cut at each operation, the counts are the operations before; the image of any other cut is refused.
#[test]
fn cut_at_each_operation() {
    each_torn(|byte| {
        let (mut chip, page) = (thin_chip(), data(6, 0, 1, &leaf(&[1, 7])));
        chip.set_torn(0, byte);
        let operations = operations(NEW, &page);
        let images: Vec<Vec<u8>> = (0..4).map(|allowance| chip.after(&operations, allowance)).collect();
        let counts = [[0, 0, 0], [0, 1, 0], [0, 2, 0], [1, 2, 0]];
        for allowance in 0..4 {
            for (other, image) in images.iter().enumerate() {
                let accepted = chip.accepted(Frame::Rebuild(allowance as u32), 10, allowance as u32, image);
                let right: &[[u32; 3]] = if *image == images[allowance] { &counts[allowance..=allowance] } else { &[] };
                assert_eq!(accepted, right, "torn {byte}, cut at {allowance}, image of {other}");
            }
        }
    });
}

/// Two void pages get their marks lowest first, and a page of the new commit does not come before them.
#[test]
fn marks_come_first() {
    let mut pages = thin_pages();
    pages[1].1[5] = 3;
    pages.push((9, data(6, 2, 3, &[(0, Deed::Reset(0))])));
    let mut chip = Hand::with_pages(&pages);
    chip.set_torn(0, 255);
    let (cut, page) = (Frame::Rebuild(1), data(6, 0, 1, &leaf(&[1, 7])));
    assert_eq!(chip.accepted(cut, 10, 1, &chip.after(&obsolete(&[VOID]), 1)), [[0, 1, 0]]);
    assert!(chip.accepted(cut, 10, 1, &chip.after(&obsolete(&[9]), 1)).is_empty());
    assert!(chip.accepted(cut, 10, 1, &chip.after(&write(NEW, &page), 1)).is_empty());
}

/// Of two pages the first is written first; cut after it, the old tree is there.
#[test]
fn pages_come_by_index() {
    let (mut chip, units) = (thin_chip(), leaf(&[1, 7]));
    chip.set_torn(0, 255);
    let pages = [data(6, 0, 2, &units[..4]), data(6, 1, 2, &units[4..])];
    let in_order: Vec<_> = obsolete(&[VOID]).into_iter().chain(write(NEW, &pages[0])).chain(write(70, &pages[1])).collect();
    let turned: Vec<_> = obsolete(&[VOID]).into_iter().chain(write(70, &pages[1])).chain(write(NEW, &pages[0])).collect();
    for allowance in 2..7 {
        let accepts =
            |operations| !chip.accepted(Frame::Rebuild(allowance), 10, allowance, &chip.after(operations, allowance as usize)).is_empty();
        assert!(accepts(&in_order), "{allowance}");
        assert_eq!(accepts(&turned), allowance < 3, "{allowance}");
    }
    let image = chip.after(&in_order, 7);
    assert_eq!(chip.accepted(Frame::Rebuild(7), 0, 7, &image), [[2, 5, 0]]);
}
