//! The twin held by the judge in long lists that note 8 of document 02 is about: no cut, no format, all blocks reported after each commit.
use model::model::chip;
use model::model::erases;
use model::model::frame::{hexadecimal, line, Frame};
use model::model::geometry::Geometry;
use model::model::judge::Judge;
use model::probe::Probe;
use model::random::Random;
use model::{runner, scripts};

/// The small part.
const SMALL: Geometry = Geometry::SMALL;
/// The large part.
const LARGE: Geometry = Geometry::LARGE;

/// Which keys a list uses.
#[derive(Clone, Copy, Debug)]
enum Keys {
    /// Any of a number of them.
    Random(u64),
    /// Each above the last one, and when no more fits, from the start again.
    Rising,
    /// A few, and seldom another.
    Hot,
}

/// A list under way: the part, the twin, the judge, and for each block the number of the last commit that erased it and its erases in all.
struct List {
    part: Geometry,
    twin: Probe,
    judge: Judge,
    blocks: usize,
    commits: u64,
    last: Vec<u64>,
    erases: Vec<u64>,
    figures: Vec<u64>,
    key: u32,
}

impl List {
    /// A finished format of a chip of a part.
    fn new(part: Geometry, blocks: usize) -> List {
        let (twin, judge, none) = (Probe::new(), Judge::new(), vec![0; blocks]);
        let mut list = List { part, twin, judge, blocks, commits: 10, last: none.clone(), erases: none.clone(), figures: none, key: 0 };
        list.frame(Frame::Name((part == LARGE) as u8));
        list.frame(Frame::TornLength(part.torn as u32));
        list.frame(Frame::Blocks(blocks as u32));
        list.frame(Frame::Format(part.never_cut));
        list
    }

    /// One frame.
    fn frame(&mut self, frame: Frame) -> String {
        let text = line(&frame);
        let reply = self.twin.line(text.as_bytes());
        self.judge.line(text.as_bytes(), &reply, self.twin.image()).unwrap();
        reply
    }

    /// An update; tells whether it was accepted.
    fn update(&mut self, random: &mut Random, keys: Keys) -> bool {
        let key = match keys {
            Keys::Random(range) => random.below(range) as u32 * 1_000_003,
            Keys::Rising => self.key + 1,
            Keys::Hot if random.once_in(12) => random.below(500) as u32,
            Keys::Hot => random.below(4) as u32,
        };
        let deletes = !matches!(keys, Keys::Rising) && random.once_in(5);
        let reply = self.frame(if deletes { Frame::Delete(key) } else { Frame::Insert(key, random.next() as u32) });
        self.key = if reply == "05" { 0 } else { key };
        reply == "00"
    }

    /// The reports after a commit: a figure that rose is of a block that neither this commit erased before nor the one before it.
    fn reports(&mut self) {
        for block in 0..self.blocks {
            let reply = self.frame(Frame::Report(block as u32));
            let figure = erases::read(&reply.as_bytes()[6..]).unwrap();
            let more = figure - self.figures[block];
            self.figures[block] = figure;
            if more > 0 {
                assert!(more == 1 && self.commits - self.last[block] >= 2, "block {block}");
                (self.last[block], self.erases[block]) = (self.commits, self.erases[block] + 1);
            }
        }
    }

    /// Updates and a commit, reports of all blocks, and at times a mount or calls that change nothing.
    fn round(&mut self, random: &mut Random, keys: Keys) {
        for _ in 0..[1, 2, 16, 16][random.index(4)] {
            self.update(random, keys);
        }
        self.commits += (self.judge.store().pending > 0) as u64;
        let (part, reply) = (self.part, self.frame(Frame::Commit(self.part.never_cut)));
        let free = (0..self.blocks * part.pages).any(|place| chip::free(chip::page(part, self.twin.image(), place)));
        assert!(free || hexadecimal(&reply.as_bytes()[18..]) == Some(0));
        self.reports();
        match random.below(12) {
            0 => drop(self.frame(Frame::Commit(2000))),
            1 | 2 => {
                self.frame(Frame::Mount(255));
                self.figures.fill(0);
            }
            3 => self.refused(),
            _ => {}
        }
    }

    /// Calls that are refused since another length is lent.
    fn refused(&mut self) {
        self.frame(Frame::Length((self.blocks * self.part.block()) as u32 - 1));
        for frame in [Frame::Insert(1, 1), Frame::Commit(2000), Frame::Mount(255), Frame::Format(2000)] {
            assert!(self.frame(frame).starts_with("01"));
        }
        self.frame(Frame::Length((self.blocks * self.part.block()) as u32));
    }
}

/// Lists on a chip of a part with kinds of keys; in each of them every block is erased so often at least.
fn lists(seed: u64, (part, blocks): (Geometry, usize), rounds: usize, kinds: &[Keys], least: u64) {
    let mut random = Random::new(seed);
    for keys in kinds {
        let mut list = List::new(part, blocks);
        for _ in 0..rounds {
            list.round(&mut random, *keys);
        }
        println!("{blocks} blocks, {keys:?}: erases {:?}", list.erases);
        assert!(list.erases.iter().all(|erases| *erases >= least), "{keys:?}: {:?}", list.erases);
    }
}

/// Chips of 3 blocks.
#[test]
fn three_blocks() {
    lists(61, (SMALL, 3), 1500, &[Keys::Random(60), Keys::Random(300), Keys::Rising, Keys::Hot], 10);
}

/// Chips of 8 blocks.
#[test]
fn eight_blocks() {
    lists(62, (SMALL, 8), 1200, &[Keys::Random(60), Keys::Random(800), Keys::Rising, Keys::Hot], 3);
}

/// Chips of 32 blocks.
#[test]
fn thirty_two_blocks() {
    lists(63, (SMALL, 32), 2200, &[Keys::Random(3200), Keys::Rising], 1);
}

/// Chips of 3 large blocks.
#[test]
fn three_large_blocks() {
    lists(64, (LARGE, 3), 800, &[Keys::Random(60), Keys::Random(300), Keys::Rising, Keys::Hot], 2);
}

/// Fresh scripts of lists without a cut pass, and their commits erase often.
#[test]
fn scripts() {
    for seed in 0..6 {
        let (part, least) = [(SMALL, 8), (LARGE, 4)][seed as usize % 2];
        let script = scripts::pays::make(&mut Random::new(seed), part);
        let replies = runner::probe_replies(&script);
        runner::judge(&script, &replies).unwrap();
        let commits = script.iter().zip(&replies).filter(|(line, _)| line.starts_with(b"04"));
        let erases: u32 = commits.map(|(_, reply)| hexadecimal(&reply[18..]).unwrap()).sum();
        println!("seed {seed}: {} lines, {erases} erases", script.len());
        assert!(erases > least && !replies.iter().any(|reply| reply.starts_with(b"0A")));
    }
}
