//! Workloads: lists of events that the index accepts, and what they wear off the flash.

use crate::both::{Both, BLOCK, DATA, PAGE, PENDING};
use crate::random::Random;
use crate::reference::Reference;

/// An event; `Measured` says that what follows is counted.
#[derive(Clone, Copy, PartialEq, Eq, Debug)]
pub enum Event {
    Insert(u32, u32),
    Delete(u32),
    Measured,
}

/// What a workload did: its events; of those that count the pages programmed, the blocks erased, and the pages that the two references
/// would write.
pub struct Wear {
    pub work: &'static str,
    pub blocks: usize,
    pub keys: usize,
    pub events: Vec<Event>,
    pub counted: usize,
    pub commits: usize,
    pub pages: u64,
    pub erases: u64,
    pub reference: Reference,
}

pub const WORKS: [&str; 4] = ["rising keys, the oldest deleted", "random keys, full tree", "hot set of 10 keys", "mix with deletes"];

/// How many keys stay with rising keys.
const KEPT: u32 = 64;

/// Whether a block was erased: a page of it that was used is not, or has other data.
fn was_erased(before: &[u8], after: &[u8], block: usize) -> bool {
    let pages = |image: &'_ [u8]| image[block * BLOCK..(block + 1) * BLOCK].chunks(PAGE).map(<[u8]>::to_vec).collect::<Vec<_>>();
    pages(before).iter().zip(pages(after)).any(|(x, y)| x[DATA] == 0 && (y[DATA] != 0 || x[..DATA] != y[..DATA]))
}

/// A run of a workload: both stores, the keys in the tree, and what was done so far.
struct Run {
    both: Both,
    keys: Vec<u32>,
    random: Random,
    wear: Wear,
}

impl Run {
    /// A commit, counted; the pages and the blocks erased that it tells are those found on the image. Behind an erase the reports of
    /// library and twin are compared.
    fn commit(&mut self) {
        if self.both.pending == 0 {
            return;
        }
        self.wear.reference.commit(self.both.twin.buffered());
        let before = self.both.image.clone();
        let counts = self.both.commit().counts;
        let erased = (0..self.wear.blocks).filter(|&b| was_erased(&before, &self.both.image, b)).count();
        assert_eq!(self.both.last_pages(), counts.programs, "the pages programmed");
        assert_eq!(erased, counts.erases as usize, "the blocks erased");
        if erased > 0 {
            self.both.block_reports();
        }
        self.wear.commits += 1;
        self.wear.pages += u64::from(counts.programs);
        self.wear.erases += u64::from(counts.erases);
    }

    /// An event on both stores; true where it is accepted, and then it is kept, and the 16th is followed by a commit.
    fn event(&mut self, event: Event) -> bool {
        let answer = match event {
            Event::Insert(key, value) => self.both.insert(key, value),
            Event::Delete(key) => self.both.delete(key),
            _ => panic!("no call"),
        };
        if answer != 0 {
            return false;
        }
        self.wear.events.push(event);
        self.wear.counted += 1;
        if self.both.pending == PENDING {
            self.commit();
        }
        true
    }

    /// The next key, and the delete of the oldest of more than 64.
    fn rise(&mut self, next: &mut u32) {
        *next += 1;
        assert!(self.event(Event::Insert(*next, self.wear.counted as u32)));
        self.keys.push(*next);
        if self.keys.len() > KEPT as usize {
            let oldest = self.keys.remove(0);
            assert!(self.event(Event::Delete(oldest)));
        }
    }

    /// One of three: another value for a key, a key deleted, another key inserted where the tree takes it.
    fn mix(&mut self) {
        let value = self.random.next() as u32;
        match self.random.below(3) {
            0 => drop(self.event(Event::Insert(self.keys[value as usize % self.keys.len()], value))),
            1 => {
                let at = self.random.below(self.keys.len());
                let key = self.keys.swap_remove(at);
                assert!(self.event(Event::Delete(key)));
            }
            _ => {
                let key = self.random.next() as u32;
                if !self.keys.contains(&key) && self.event(Event::Insert(key, value)) {
                    self.keys.push(key);
                }
            }
        }
    }

    /// A key of the first `of` in the tree with another value.
    fn again(&mut self, of: usize) {
        let key = self.keys[self.random.below(of)];
        let value = self.random.next() as u32;
        assert!(self.event(Event::Insert(key, value)));
    }

    /// The next event of the workload.
    fn step(&mut self, next: &mut u32) {
        match WORKS.iter().position(|w| *w == self.wear.work).unwrap() {
            0 => self.rise(next),
            1 => self.again(self.keys.len()),
            2 => self.again(10),
            _ => self.mix(),
        }
    }

    /// What follows is counted.
    fn measure(&mut self) {
        self.commit();
        self.wear.events.push(Event::Measured);
        let events = std::mem::take(&mut self.wear.events);
        let reference = self.wear.reference.counted_anew();
        self.wear = Wear { counted: 0, commits: 0, pages: 0, erases: 0, reference, events, ..self.wear };
    }
}

/// A workload of `events` events on a chip of `blocks` blocks, after as many as it takes until a block is erased. Rising keys start on a
/// formatted chip, the others on a full tree.
pub fn run(work: &'static str, blocks: usize, events: usize) -> Wear {
    let mut random = Random::new(blocks as u64 + 100);
    let rising = work == WORKS[0];
    let (both, keys) = if rising { (Both::formatted(blocks), Vec::new()) } else { Both::filled(blocks, usize::MAX, &mut random) };
    let list: Vec<Event> = keys.iter().map(|&k| Event::Insert(k, 0)).collect();
    let count = if rising { KEPT as usize } else { keys.len() };
    let wear = Wear { work, blocks, keys: count, events: list, counted: 0, commits: 0, pages: 0, erases: 0, reference: Reference::new() };
    let mut run = Run { both, keys, random, wear };
    let mut next = 0;
    while run.wear.erases == 0 {
        run.step(&mut next);
    }
    run.measure();
    while run.wear.counted < events {
        run.step(&mut next);
    }
    run.commit();
    run.wear
}
