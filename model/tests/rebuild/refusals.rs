//! The refusals of a rebuild, in their order, and what they change.
use super::{leaf, operations, thin_chip, thin_pages, BLOCK, NEW};
use crate::hand::{data, reply, Hand};
use model::model::frame::Frame;
use model::model::unit::Deed;

/// The answers of a rebuild that does no operation.
const ANSWERS: [u32; 10] = [0, 1, 2, 5, 6, 7, 8, 9, 10, 12];

/// Of all refusals without an operation, a rebuild of a chip gives one alone.
fn gives(chip: &Hand, refusal: u32) {
    for allowance in [0, 2000] {
        for answer in ANSWERS {
            let accepted = chip.accepts(Frame::Rebuild(allowance), &reply(answer, [0; 3]), &chip.image);
            assert_eq!(accepted, answer == refusal, "{answer} with {allowance}, {refusal} expected");
        }
    }
}

/// The thin chip with a byte of each of the last two blocks set.
fn no_free_block() -> Hand {
    let mut chip = thin_chip();
    let mut image = chip.image.clone();
    image[2 * BLOCK - 1] = 254;
    image[2 * BLOCK] = 0;
    chip.set_image(&image);
    chip
}

/// The thin chip with the last number.
fn last_number(mut chip: Hand) -> Hand {
    let mut image = chip.image.clone();
    image[..4].fill(255);
    image[super::VOID * super::SMALL.page() + super::SMALL.data + 2] = 0;
    chip.set_image(&image);
    chip
}

/// 5 where no block of three is wholly free, 6 at the last number, 6 before 5.
#[test]
fn five_and_six() {
    gives(&no_free_block(), 5);
    gives(&last_number(thin_chip()), 6);
    gives(&last_number(no_free_block()), 6);
}

/// 7, 8 and 9 as mount says them, with and without free blocks.
#[test]
fn seven_to_nine() {
    gives(&Hand::new(), 7);
    gives(&Hand::with_pages(&[(0, data(5, 0, 2, &[(0, Deed::Reset(0))]))]), 7);
    gives(&Hand::with_pages(&[(0, data(5, 0, 1, &[(0, Deed::Insert(1, 1))]))]), 8);
    gives(&Hand::with_pages(&[(0, data(u32::MAX, 0, 1, &[(1, Deed::Reset(0))]))]), 9);
}

/// 1 for image and torn lengths, before what the image says.
#[test]
fn sizes() {
    let mut chip = thin_chip();
    chip.frame(Frame::TornLength(527), "00");
    gives(&chip, 1);
    let mut chip = Hand::new();
    chip.image.truncate(2 * BLOCK);
    chip.frame(Frame::Length(2 * BLOCK as u32), "00");
    gives(&chip, 1);
    let mut chip = thin_chip();
    chip.frame(Frame::Name(1), "00");
    gives(&chip, 1);
}

/// A chip on which a store is on, with an update pending, and no block is wholly free.
fn on() -> Hand {
    let units = [(0, Deed::Reset(0)), (0, Deed::Insert(4, 40))];
    let mut pages = vec![(0, data(5, 0, 1, &units))];
    pages.extend([32, 64].map(|place| (place, data(3, 0, 1, &[(9, Deed::Reset(255))]))));
    pages[2].1[0] = 4;
    let mut chip = Hand::with_pages(&pages);
    chip.frame(Frame::Mount(0), &reply(0, [0; 3]));
    chip.frame(Frame::Insert(8, 80), "00");
    chip
}

/// Refused with 5 or 1, the state and its pending update stay; refused with 7, 8 or 9 it is off.
#[test]
fn what_they_change() {
    let mut chip = on();
    chip.frame(Frame::Rebuild(2000), &reply(5, [0; 3]));
    chip.frame(Frame::TornLength(5), "00");
    chip.frame(Frame::Rebuild(2000), &reply(1, [0; 3]));
    chip.frame(Frame::LookUp(8), "000000005001");
    chip.judge();
    let mut chip = on();
    chip.set_image(&vec![255; 3 * BLOCK]);
    chip.frame(Frame::Rebuild(2000), &reply(7, [0; 3]));
    chip.frame(Frame::LookUp(8), "02");
    chip.judge();
}

/// A rebuild that is not refused asks for one block of eight at least, rounded up: 9 blocks need two.
#[test]
fn nine_blocks() {
    let mut chip = Hand::new();
    chip.image = vec![255; 9 * BLOCK];
    chip.frame(Frame::Blocks(9), "00");
    for (place, data) in thin_pages() {
        let image = chip.after(&crate::hand::write(place, &data), 3);
        chip.set_image(&image);
    }
    let mut image = chip.image.clone();
    (1..7).for_each(|block| image[block * BLOCK + 77] = 0);
    chip.set_image(&image);
    let page = data(6, 0, 1, &leaf(&[1, 7]));
    let place = NEW + 5 * 32;
    assert!(chip.accepts(Frame::Rebuild(4), &reply(0, [1, 3, 0]), &chip.after(&operations(place, &page), 4)));
    image[7 * BLOCK + 77] = 0;
    chip.set_image(&image);
    gives(&chip, 5);
}
