//! The proved library and the twin side by side: each call is made on both, and answers and images are compared byte for byte.

use crate::library::Library;
use crate::random::Random;
use crate::twin::{self, State};
use model::twin::told::Told;

pub const PAGE: usize = 528;
pub const DATA: usize = 512;
pub const BLOCK: usize = 32 * PAGE;

/// Power enough for any call, and the torn bytes, which no call with power enough reads.
pub const ALLOWANCE: u32 = 2000;
pub const TORN: [u8; PAGE] = [90; PAGE];

/// The most updates that may be pending.
pub const PENDING: usize = 16;

#[derive(Clone)]
pub struct Both {
    pub library: Library,
    pub image: Vec<u8>,
    pub twin: State,
    pub twin_image: Vec<u8>,
    pub pending: usize,
}

/// A page whose valid mark is set and whose obsolete mark is not.
fn is_live(page: &[u8]) -> bool {
    page[DATA + 1] == 0 && page[DATA + 2] != 0
}

/// The commit number of a page.
fn commit_of(page: &[u8]) -> u32 {
    u32::from_le_bytes(page[..4].try_into().unwrap())
}

impl Both {
    /// Both formatted on a chip of `blocks` blocks of 255.
    pub fn formatted(blocks: usize) -> Both {
        let image = vec![255; blocks * BLOCK];
        let mut both = Both { library: Library::new(), twin_image: image.clone(), image, twin: State::default(), pending: 0 };
        both.format();
        both
    }

    /// Both formatted as they are.
    pub fn format(&mut self) -> Told {
        let told = self.library.format(&mut self.image, &TORN, ALLOWANCE);
        let twin = twin::format(&mut self.twin, &mut self.twin_image, &TORN, ALLOWANCE);
        assert_eq!(told, twin, "format");
        assert_eq!(told.refusal, 0);
        assert!(self.image == self.twin_image, "the images differ after a format");
        self.pending = 0;
        told
    }

    /// A tree filled with random keys, `limit` of them or until an insert is refused with 5, and its keys.
    pub fn filled(blocks: usize, limit: usize, random: &mut Random) -> (Both, Vec<u32>) {
        let mut both = Both::formatted(blocks);
        let mut keys = Vec::new();
        while keys.len() < limit {
            let key = random.next() as u32;
            match both.insert(key, random.next() as u32) {
                0 => keys.push(key),
                5 => break,
                n => panic!("an insert was refused with {n}"),
            }
            if both.pending == PENDING {
                both.commit();
            }
        }
        both.commit();
        both.block_reports();
        keys.sort();
        keys.dedup();
        (both, keys)
    }

    /// `commits` commits of 16 events, each a random key of the tree with another value.
    pub fn churn(&mut self, keys: &[u32], commits: usize, random: &mut Random) {
        for _ in 0..commits {
            self.events(keys, random);
            self.commit();
        }
    }

    /// 16 events, each a random key of the tree with another value.
    pub fn events(&mut self, keys: &[u32], random: &mut Random) {
        for _ in 0..PENDING {
            assert_eq!(self.insert(random.pick(keys), random.next() as u32), 0);
        }
    }

    pub fn insert(&mut self, key: u32, value: u32) -> u32 {
        let answer = self.library.insert(&self.image, key, value);
        assert_eq!(self.twin.insert(&self.twin_image, key, value), answer, "insert");
        self.pending += usize::from(answer == 0);
        answer
    }

    pub fn delete(&mut self, key: u32) -> u32 {
        let answer = self.library.delete(&self.image, key);
        assert_eq!(self.twin.delete(&self.twin_image, key), answer, "delete");
        self.pending += usize::from(answer == 0);
        answer
    }

    /// What a commit made now would tell, compared.
    fn forecast(&self) -> Told {
        let told = self.library.forecast(&self.image);
        assert_eq!(self.twin.forecast(&self.twin_image), told, "forecast");
        told
    }

    /// A commit, which tells what was forecast.
    pub fn commit(&mut self) -> Told {
        let forecast = self.forecast();
        let told = self.library.commit(&mut self.image, &TORN, ALLOWANCE);
        let twin = self.twin.commit(&mut self.twin_image, &TORN, ALLOWANCE);
        assert_eq!(told, twin, "commit");
        assert_eq!(told, forecast, "a commit and its forecast");
        assert_eq!(told.refusal, 0);
        assert!(self.image == self.twin_image, "the images differ after a commit");
        self.pending = 0;
        told
    }

    /// Look ups on both, compared.
    pub fn look_ups(&self, keys: &[u32]) {
        for &key in keys {
            assert_eq!(self.library.look_up(&self.image, key), twin::look_up(&self.twin, &self.twin_image, key), "look up");
        }
    }

    /// The report of a block: its free pages, the first free one and its erases on record, compared; else the refusal.
    fn block_report(&self, block: u32) -> Result<(u32, u32, u64), u32> {
        let report = self.library.block_report(&self.image, block);
        assert_eq!(twin::block_report(&self.twin, &self.twin_image, block), report, "block report");
        report
    }

    /// The report of each block; that of one past the last is refused.
    pub fn block_reports(&self) -> Vec<(u32, u32, u64)> {
        let blocks = (self.image.len() / BLOCK) as u32;
        assert!(self.block_report(blocks).is_err());
        (0..blocks).map(|block| self.block_report(block).unwrap()).collect()
    }

    pub fn live_pages(&self) -> usize {
        self.image.chunks(PAGE).filter(|p| is_live(p)).count()
    }

    /// The pages of the greatest commit number.
    pub fn last_pages(&self) -> u32 {
        let pages = || self.image.chunks(PAGE).filter(|p| is_live(p));
        let last = pages().map(commit_of).max().unwrap_or(0);
        pages().filter(|p| commit_of(p) == last).count() as u32
    }

    /// The level of node 0, by its last reset.
    pub fn root_level(&self) -> u32 {
        let mut found = (0, 0, 0);
        for page in self.image.chunks(PAGE).filter(|p| is_live(p)) {
            let count = usize::from(page[6]) | usize::from(page[7]) << 8;
            for u in page[8..8 + 12 * count].chunks(12).filter(|u| u[0] == 3 && u[2] == 0 && u[3] == 0) {
                found = found.max((commit_of(page), page[4], u[8]));
            }
        }
        u32::from(found.2)
    }
}
