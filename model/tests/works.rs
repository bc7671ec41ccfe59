//! What four workloads wear off chips of both parts: pages and erases a commit of 16 events.
use model::random::Random;
use model::twin::geometry::{Geometry, LARGE, SMALL};
use model::twin::state::State;

/// Commits that are counted.
const COMMITS: u32 = 1000;
/// Keys that stay with rising keys.
const KEPT: usize = 64;

/// A workload: rising keys with the oldest deleted; on a full tree other values for random keys or for the 10 least, or a mix with deletes.
#[derive(Clone, Copy, Debug, PartialEq, Eq)]
enum Work {
    Rising,
    Random,
    Hot,
    Mix,
}

/// A workload under way: the store, its keys, and what was counted.
struct Run {
    state: State,
    image: Vec<u8>,
    keys: Vec<u32>,
    next: u32,
    random: Random,
    commits: u32,
    pages: u32,
    erases: u32,
}

impl Run {
    /// A chip of so many blocks, formatted.
    fn new(part: Geometry, blocks: usize) -> Run {
        let (mut state, mut image) = (State::new(), vec![255; blocks * part.block()]);
        assert_eq!(state.format(part, &mut image, &vec![0x5A; part.page()], u32::MAX).refusal, 0);
        let random = Random::new(blocks as u64 + 100);
        Run { state, image, keys: Vec::new(), next: 0, random, commits: 0, pages: 0, erases: 0 }
    }

    /// What follows is counted.
    fn measure(&mut self) {
        (self.commits, self.pages, self.erases) = (0, 0, 0);
    }

    /// An event; the 16th accepted is followed by a commit. Whether it was accepted.
    fn event(&mut self, refusal: u32) -> bool {
        if self.state.pending == 16 {
            let torn = vec![0x5A; self.state.geometry.page()];
            let told = self.state.commit(&mut self.image, &torn, 2000);
            assert_eq!(told.refusal, 0);
            self.commits += 1;
            self.pages += told.counts.programs;
            self.erases += told.counts.erases;
        }
        refusal == 0
    }

    /// An insert of a random value.
    fn insert(&mut self, key: u32) -> bool {
        let refusal = self.state.insert(&self.image, key, self.random.next() as u32);
        self.event(refusal)
    }

    /// A delete.
    fn delete(&mut self, key: u32) -> bool {
        let refusal = self.state.delete(&self.image, key);
        self.event(refusal)
    }

    /// Random keys until one is refused with 5; they are kept in order.
    fn fill(&mut self) {
        let mut key = self.random.next() as u32;
        while self.insert(key) {
            self.keys.push(key);
            key = self.random.next() as u32;
        }
        self.keys.sort_unstable();
        self.keys.dedup();
    }

    /// The next key, and the delete of the oldest of more than 64.
    fn rise(&mut self) {
        self.next += 1;
        assert!(self.insert(self.next));
        self.keys.push(self.next);
        if self.keys.len() > KEPT {
            let oldest = self.keys.remove(0);
            assert!(self.delete(oldest));
        }
    }

    /// One of three: another value for a key, a key deleted, another key inserted where the tree takes it.
    fn mix(&mut self) {
        match self.random.below(3) {
            0 if !self.keys.is_empty() => self.again(self.keys.len()),
            1 if !self.keys.is_empty() => {
                let at = self.random.index(self.keys.len());
                let key = self.keys.swap_remove(at);
                assert!(self.delete(key));
            }
            _ => {
                let key = self.random.next() as u32;
                if !self.keys.contains(&key) && self.insert(key) {
                    self.keys.push(key);
                }
            }
        }
    }

    /// Another value for one of the first keys.
    fn again(&mut self, of: usize) {
        let key = self.keys[self.random.index(of)];
        assert!(self.insert(key));
    }

    /// The next event of a workload.
    fn step(&mut self, work: Work) {
        match work {
            Work::Rising => self.rise(),
            Work::Random => self.again(self.keys.len()),
            Work::Hot => self.again(10),
            Work::Mix => self.mix(),
        }
    }
}

/// Pages a commit and erases for 1,000 commits of a workload on a chip, both counted after the first commit that erases. All but rising keys
/// begin with a full tree.
fn wear(work: Work, part: Geometry, blocks: usize) -> (f64, f64) {
    let mut run = Run::new(part, blocks);
    if work != Work::Rising {
        run.fill();
    }
    while run.erases == 0 {
        run.step(work);
    }
    run.measure();
    while run.commits < COMMITS {
        run.step(work);
    }
    let commits = f64::from(run.commits);
    let (pages, erases) = (f64::from(run.pages) / commits, 1000.0 * f64::from(run.erases) / commits);
    println!("{work:?}, B = {blocks}, pages of {} bytes: {pages:.3} pages a commit, {erases:.0} erases for 1,000 commits", part.page());
    (pages, erases)
}

/// A workload on chips of a part: at most so many pages a commit; the commits erase as many blocks as their pages fill.
fn held(work: Work, part: Geometry, most: f64) {
    for blocks in [3, 8, 32] {
        let (pages, erases) = wear(work, part, blocks);
        assert!((1.0..=most).contains(&pages));
        assert!((erases - 1000.0 * pages / part.pages as f64).abs() < 2.0);
    }
}

/// The small part.
#[test]
fn small() {
    held(Work::Rising, SMALL, 1.5);
    held(Work::Random, SMALL, 1.8);
    held(Work::Hot, SMALL, 1.0);
    held(Work::Mix, SMALL, 2.0);
}

/// The large part: one page a commit.
#[test]
fn large() {
    for work in [Work::Rising, Work::Random, Work::Hot, Work::Mix] {
        held(work, LARGE, 1.0);
    }
}
