//! A commit that reclaims leaves a page free.
use super::List;
use crate::hand::{data, reply, write, Hand};
use crate::{first_page, BLOCK, ENOUGH, PAGES, SMALL};
use model::model::chip::{self, Operation};
use model::model::frame::Frame;
use model::model::tree::{Node, Tree};
use model::model::unit::Deed;

/// Blocks of the chip.
const BLOCKS: usize = 4;

/// A list whose commits erase the next block and write all nodes into it, each into a page of its own.
struct Snapshots {
    hand: Hand,
    tree: Tree,
    number: u32,
    keys: u32,
}

/// The units of a node written anew.
fn units(number: usize, node: &Node) -> Vec<(u16, Deed)> {
    let inserts = node.entries.iter().map(|entry| (number as u16, Deed::Insert(entry.0, entry.1)));
    [(number as u16, Deed::Reset(node.level))].into_iter().chain(inserts).collect()
}

impl Snapshots {
    /// A finished format.
    fn new() -> Snapshots {
        let mut hand = Hand::new();
        hand.image = vec![255; BLOCKS * BLOCK];
        hand.frame(Frame::Blocks(BLOCKS as u32), "00");
        let page = first_page();
        let image = hand.after(&write(0, &page), 3);
        hand.call(Frame::Format(ENOUGH), &reply(0, [1, 2, BLOCKS as u32]), image);
        Snapshots { hand, tree: Tree::leaf(BLOCKS), number: 1, keys: 0 }
    }

    /// The nodes of the tree.
    fn nodes(&self) -> usize {
        self.tree.nodes.iter().flatten().count()
    }

    /// Adds inserts of rising keys while there are fewer than 32 nodes, 16 at most, else of one that is there.
    fn update(&mut self) {
        let grows = self.nodes() < PAGES;
        for _ in 0..if grows { 16 } else { 1 } {
            let key = if self.nodes() < PAGES { self.keys + 1 } else { 1 };
            self.keys = self.keys.max(key);
            assert!(self.tree.insert(key, self.number));
            self.hand.frame(Frame::Insert(key, self.number), "00");
        }
    }

    /// The data of the next commit's pages: a node each, or the first two nodes in one.
    fn pages(&self, two: bool) -> Vec<Vec<u8>> {
        let nodes = self.tree.nodes.iter().enumerate().filter_map(|(number, node)| Some(units(number, node.as_ref()?)));
        let mut parts: Vec<Vec<(u16, Deed)>> = nodes.collect();
        if two {
            let first = parts.remove(0);
            parts[0].splice(0..0, first);
        }
        let count = parts.len() as u8;
        parts.iter().enumerate().map(|(index, units)| data(self.number + 1, index as u8, count, units)).collect()
    }

    /// The reply to a commit of these pages, and the image that it leaves.
    fn commit(&self, pages: &[Vec<u8>]) -> (String, Vec<u8>) {
        let block = self.number as usize % BLOCKS;
        let used = chip::free_pages(SMALL, &self.hand.image, block).0 < PAGES;
        let mut operations: Vec<Operation> = used.then_some(Operation::Erase(block)).into_iter().collect();
        for (index, page) in pages.iter().enumerate() {
            operations.extend(write(block * PAGES + index, page));
        }
        let count = pages.len() as u32;
        (reply(0, [count, 2 * count, used as u32]), self.hand.after(&operations, operations.len()))
    }

    /// Adds a commit of updates.
    fn round(&mut self, two: bool) {
        self.update();
        let (reply, image) = self.commit(&self.pages(two));
        self.hand.call(Frame::Commit(ENOUGH), &reply, image);
        self.number += 1;
    }
}

/// Free pages of an image.
fn free(image: &[u8]) -> usize {
    (0..image.len() / BLOCK).map(|block| chip::free_pages(SMALL, image, block).0).sum()
}

/// A commit of 32 pages that fills the block it erased, and with it the chip; one page less passes.
#[test]
fn no_page_left() {
    let mut list = Snapshots::new();
    while list.nodes() < PAGES {
        list.round(false);
    }
    for _ in 0..2 {
        list.round(false);
    }
    list.update();
    let [(told, full), (less_told, less)] = [false, true].map(|two| list.commit(&list.pages(two)));
    assert_eq!((free(&full), free(&less)), (0, 1));
    assert!(told.ends_with('1') && less_told.ends_with('1'));
    assert!(!list.hand.accepts(Frame::Commit(ENOUGH), &told, &full));
    assert!(list.hand.accepts(Frame::Commit(ENOUGH), &less_told, &less));
}

/// The same after a cut call, where nothing of note 8 is said.
#[test]
fn no_page_left_after_a_cut() {
    let mut list = Snapshots::new();
    list.hand.frame(Frame::Insert(1, 1), "00");
    let operations = [Operation::Mark(1, chip::USED)];
    let image = list.hand.after(&operations, 0);
    list.hand.call(Frame::Commit(0), &reply(10, [0, 0, 0]), image);
    list.hand.frame(Frame::Mount(255), &reply(0, [0, 0, 0]));
    while list.nodes() < PAGES || free(&list.hand.image) > 0 {
        list.round(false);
    }
    assert!(list.number > 4);
    list.hand.judge();
}

/// A commit that erases nothing may take the last free page, and the next one reclaims.
#[test]
fn no_page_left_without_an_erase() {
    let mut list = List::new(3);
    for place in 1..3 * PAGES {
        list.commit((&[], place, &[]));
    }
    assert_eq!(free(&list.hand.image), 0);
    list.commit((&[0], 0, &[]));
    assert_eq!(list.figures(0), [1]);
}
