//! Lists of calls that note 8 of document 02 is about, worked by hand: an erase has to pay.
mod ends;
mod free;
mod hidden;

use super::{first_page, BLOCK, ENOUGH, NONE, PAGES, SMALL, TORN};
use crate::hand::{data, reply, write, Hand};
use model::model::chip::{self, Operation};
use model::model::frame::Frame;
use model::model::unit::Deed;

/// The reply of a finished commit of one page with erases.
fn told(erases: usize) -> String {
    reply(0, [1, 2, erases as u32])
}

/// A list on a chip of some blocks whose commits write one page each, with node 0 anew, and erase blocks before and after that.
struct List {
    hand: Hand,
    number: u32,
}

/// What a commit erases before its page, the place of the page, and what it erases after it.
type Commit<'a> = (&'a [usize], usize, &'a [usize]);

impl List {
    /// A finished format.
    fn new(blocks: usize) -> List {
        let mut hand = Hand::new();
        hand.image = vec![255; blocks * BLOCK];
        hand.frame(Frame::Blocks(blocks as u32), "00");
        let mut list = List { hand, number: 1 };
        list.format();
        list
    }

    /// A finished format, at the start or later.
    fn format(&mut self) {
        let (page, blocks) = (first_page(), self.hand.image.len() / BLOCK);
        self.hand.image.fill(255);
        let image = self.hand.after(&write(0, &page), 3);
        self.hand.call(Frame::Format(ENOUGH), &reply(0, [1, 2, blocks as u32]), image);
        self.number = 1;
    }

    /// Adds an update.
    fn update(&mut self) {
        self.hand.frame(Frame::Insert(7, self.number), "00");
    }

    /// The image that a commit of the update leaves, and how many blocks it erases.
    fn image(&self, (before, place, after): Commit) -> (Vec<u8>, usize) {
        let page = data(self.number + 1, 0, 1, &[(0, Deed::Reset(0)), (0, Deed::Insert(7, self.number))]);
        let mut operations: Vec<Operation> = before.iter().map(|block| Operation::Erase(*block)).collect();
        operations.extend(write(place, &page));
        operations.extend(after.iter().map(|block| Operation::Erase(*block)));
        (self.hand.after(&operations, operations.len()), before.len() + after.len())
    }

    /// Adds an update and its commit, which the judge has to accept; further erases that do not show are told.
    fn commit_with(&mut self, commit: Commit, hidden: usize) {
        self.update();
        let (image, erases) = self.image(commit);
        self.hand.call(Frame::Commit(ENOUGH), &told(erases + hidden), image);
        self.number += 1;
    }

    /// Adds an update and its commit, which the judge has to accept.
    fn commit(&mut self, commit: Commit) {
        self.commit_with(commit, 0);
    }

    /// Whether the judge accepts a commit of one more update, with further erases told that do not show.
    fn accepts_with(&mut self, commit: Commit, hidden: usize) -> bool {
        self.update();
        let (image, erases) = self.image(commit);
        self.hand.accepts(Frame::Commit(ENOUGH), &told(erases + hidden), &image)
    }

    /// Whether the judge accepts a commit of one more update.
    fn accepts(&mut self, commit: Commit) -> bool {
        self.accepts_with(commit, 0)
    }

    /// The report of a block with a figure.
    fn report(&self, block: usize, figure: u64) -> String {
        let (free, first) = chip::free_pages(SMALL, &self.hand.image, block);
        format!("00{free:02X}{first:02X}{figure:016X}")
    }

    /// Adds the report of a block.
    fn reported(&mut self, block: usize, figure: u64) {
        let reply = self.report(block, figure);
        self.hand.frame(Frame::Report(block as u32), &reply);
    }

    /// The figures below 9 that the judge accepts for a block.
    fn figures(&self, block: usize) -> Vec<u64> {
        let accepted = |figure: &u64| self.hand.accepts(Frame::Report(block as u32), &self.report(block, *figure), &self.hand.image);
        (0..9).filter(accepted).collect()
    }

    /// Adds a finished mount.
    fn mount(&mut self) {
        self.hand.frame(Frame::Mount(255), &reply(0, NONE));
    }

    /// Adds calls that change nothing: refused ones, a look up, a report, a commit with nothing pending.
    fn quiet(&mut self, figure: u64) {
        self.hand.frame(Frame::Commit(ENOUGH), &reply(0, NONE));
        self.hand.frame(Frame::LookUp(9), "0401");
        self.hand.frame(Frame::Delete(9), "04");
        self.reported(0, figure);
        self.hand.frame(Frame::TornLength(TORN as u32 - 1), "00");
        self.refused();
        self.hand.frame(Frame::TornLength(TORN as u32), "00");
        let image = self.hand.image.clone();
        self.hand.image.truncate(BLOCK);
        self.hand.frame(Frame::Length(BLOCK as u32), "00");
        self.refused();
        self.hand.image = image;
        self.hand.frame(Frame::Length(self.hand.image.len() as u32), "00");
    }

    /// Adds a commit, a mount and a format that are refused with 1.
    fn refused(&mut self) {
        for frame in [Frame::Commit(ENOUGH), Frame::Mount(ENOUGH), Frame::Format(ENOUGH)] {
            self.hand.frame(frame, &reply(1, NONE));
        }
    }
}

/// A list whose last commit erased block 0 and wrote into it; the other pages are in block 1.
fn erased() -> List {
    let mut list = List::new(3);
    list.commit((&[], PAGES, &[]));
    list.commit((&[0], 0, &[]));
    list
}

/// The commit that leads out of block 0 and erases it.
const AGAIN: Commit = (&[], PAGES + 1, &[0]);

/// A block is erased by two commits one right after the other.
#[test]
fn right_after() {
    assert!(!erased().accepts(AGAIN));
    assert!(erased().accepts((&[], PAGES + 1, &[])));
}

/// One commit between the two is enough; the same again and again.
#[test]
fn every_second_commit() {
    let mut list = erased();
    for round in 0..6 {
        list.commit((&[], PAGES + 1 + round, &[]));
        list.commit((&[0], 0, &[]));
    }
    assert_eq!(list.figures(0), [7]);
    assert!(!list.accepts((&[], PAGES + 9, &[0])));
}

/// The format's own erases are not in the list: the first commit may erase any block.
#[test]
fn first_commit() {
    assert!(List::new(3).accepts((&[], PAGES, &[0])));
    assert!(List::new(3).accepts((&[1, 2], PAGES, &[0])));
}
