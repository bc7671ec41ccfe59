//! The store after a rebuild: the list that a finished one starts, and what a cut one leaves.
use super::{leaf, operations, thin_chip, NEW};
use crate::hand::{data, obsolete, reply, write, Hand};
use model::model::chip::Operation;
use model::model::frame::Frame;
use model::model::unit::Deed;

/// The thin chip after a finished rebuild into one page.
fn rebuilt() -> Hand {
    let (mut chip, page) = (thin_chip(), data(6, 0, 1, &leaf(&[1, 7])));
    let image = chip.after(&operations(NEW, &page), 4);
    chip.call(Frame::Rebuild(4), &reply(0, [1, 3, 0]), image);
    chip
}

/// On, with the new tree, its lists, nothing pending and figures of 0; a list goes on from it.
#[test]
fn a_list_starts() {
    let mut chip = rebuilt();
    assert!(chip.judge().all_fixed());
    for (key, found) in [(4, "000000002801"), (5, "000000003201"), (6, "000000003C01"), (7, "0401")] {
        chip.frame(Frame::LookUp(key), found);
    }
    chip.frame(Frame::Report(2), "001F010000000000000000");
    chip.frame(Frame::Forecast, &reply(0, [0; 3]));
    chip.frame(Frame::Commit(0), &reply(0, [0; 3]));
    chip.frame(Frame::Insert(9, 90), "00");
    let page = data(7, 0, 1, &[(0, Deed::Insert(9, 90))]);
    let image = chip.after(&write(NEW + 1, &page), 3);
    assert!(!chip.accepts(Frame::Commit(2000), &reply(6, [0; 3]), &chip.image));
    chip.call(Frame::Commit(2000), &reply(0, [1, 2, 0]), image);
    chip.frame(Frame::Mount(0), &reply(0, [0; 3]));
    chip.frame(Frame::LookUp(9), "000000005A02");
    assert!(chip.judge().all_fixed());
}

/// The first number taken is the least that the new tree does not have.
#[test]
fn numbers_are_free_again() {
    let mut chip = rebuilt();
    for key in 10..23 {
        chip.frame(Frame::Insert(key, 1), "00");
    }
    chip.frame(Frame::Insert(30, 1), "00");
    let judge = chip.judge();
    let numbers: Vec<usize> = (0..24).filter(|number| judge.store().present.nodes[*number].is_some()).collect();
    assert_eq!(numbers, [0, 1, 2]);
}

/// An erase on record before is not counted after a rebuild.
#[test]
fn figures_start_anew() {
    let mut chip = Hand::new();
    let reset = data(1, 0, 1, &[(0, Deed::Reset(0))]);
    let format: Vec<_> = (0..3).map(Operation::Erase).chain(write(0, &reset)).collect();
    chip.call(Frame::Format(2000), &reply(0, [1, 2, 3]), chip.after(&format, 6));
    chip.frame(Frame::Insert(1, 1), "00");
    let page = data(2, 0, 1, &[(0, Deed::Reset(0)), (0, Deed::Insert(1, 1))]);
    let commit: Vec<_> = write(32, &page).into_iter().chain([Operation::Erase(0)]).collect();
    chip.call(Frame::Commit(2000), &reply(0, [1, 2, 1]), chip.after(&commit, 4));
    chip.frame(Frame::Report(0), "0020000000000000000001");
    chip.frame(Frame::Insert(2, 2), "00");
    let anew = data(3, 0, 1, &[(0, Deed::Reset(0)), (0, Deed::Insert(1, 1))]);
    chip.call(Frame::Rebuild(3), &reply(0, [1, 2, 0]), chip.after(&write(5, &anew), 3));
    assert!(!chip.accepts(Frame::Report(0), "001F000000000000000001", &chip.image));
    chip.frame(Frame::Report(0), "001F000000000000000000");
    chip.frame(Frame::LookUp(2), "0401");
    assert!(chip.judge().all_fixed());
}

/// Cut at the last mark with a torn byte of 0, the new tree is there; the store is off until a mount.
#[test]
fn cut_with_the_new_tree() {
    let (mut chip, page) = (thin_chip(), data(6, 0, 1, &leaf(&[1, 7])));
    chip.set_torn(0, 0);
    let image = chip.after(&operations(NEW, &page), 3);
    chip.call(Frame::Rebuild(3), &reply(10, [1, 2, 0]), image);
    chip.frame(Frame::LookUp(4), "02");
    chip.frame(Frame::Mount(0), &reply(0, [0; 3]));
    chip.frame(Frame::LookUp(4), "000000002801");
    assert!(!chip.judge().all_fixed());
}

/// Cut before, the old tree is there: mount says 12, and a rebuild can be called again, in another block.
#[test]
fn cut_with_the_old_tree() {
    let (mut chip, page) = (thin_chip(), data(6, 0, 1, &leaf(&[1, 7])));
    let image = chip.after(&operations(NEW, &page), 3);
    chip.call(Frame::Rebuild(3), &reply(10, [1, 2, 0]), image);
    chip.frame(Frame::Mount(255), &reply(12, [0; 3]));
    assert!(!chip.accepts(Frame::Rebuild(9), &reply(0, [1, 2, 0]), &chip.after(&write(NEW + 1, &page), 3)));
    let image = chip.after(&write(32, &page), 3);
    chip.call(Frame::Rebuild(9), &reply(0, [1, 2, 0]), image);
    assert!(chip.judge().all_fixed());
}

/// Two pages, cut after the first: it is void, and the next rebuild marks it first. With no free block left it gives 5.
#[test]
fn again_after_a_page() {
    let (mut chip, units) = (thin_chip(), leaf(&[1, 7]));
    let pages = [data(6, 0, 2, &units[..4]), data(6, 1, 2, &units[4..])];
    let first: Vec<_> = operations(NEW, &pages[0]).into_iter().chain(write(NEW + 1, &pages[1])).collect();
    let image = chip.after(&first, 4);
    chip.call(Frame::Rebuild(4), &reply(10, [1, 3, 0]), image);
    let again: Vec<_> = obsolete(&[NEW]).into_iter().chain(write(32, &pages[0])).chain(write(33, &pages[1])).collect();
    assert!(chip.accepts(Frame::Rebuild(7), &reply(0, [2, 5, 0]), &chip.after(&again, 7)));
    let image = chip.after(&again, 4);
    chip.call(Frame::Rebuild(4), &reply(10, [1, 3, 0]), image);
    chip.frame(Frame::Rebuild(2000), &reply(5, [0; 3]));
    chip.judge();
}

/// Two rebuilds of one image have the same counts and leave the same image; a cut one had less than their sum.
#[test]
fn rebuilds_of_one_image_agree() {
    let mut chip = thin_chip();
    let (before, page) = (chip.image.clone(), data(6, 0, 1, &leaf(&[1, 7])));
    let image = chip.after(&operations(NEW, &page), 4);
    chip.call(Frame::Rebuild(4), &reply(0, [1, 3, 0]), image.clone());
    chip.set_image(&before);
    assert!(chip.accepts(Frame::Rebuild(2000), &reply(0, [1, 3, 0]), &image));
    assert!(!chip.accepts(Frame::Rebuild(2000), &reply(0, [1, 3, 0]), &chip.after(&operations(32, &page), 4)));
    let units = leaf(&[1, 7]);
    let pages = [data(6, 0, 2, &units[..4]), data(6, 1, 2, &units[4..])];
    let two: Vec<_> = operations(NEW, &pages[0]).into_iter().chain(write(NEW + 1, &pages[1])).collect();
    assert!(!chip.accepts(Frame::Rebuild(2000), &reply(0, [2, 5, 0]), &chip.after(&two, 7)));
    assert!(!chip.accepts(Frame::Rebuild(5), &reply(10, [1, 4, 0]), &chip.after(&two, 5)));
}
