//! Stores of the twin on the large part, each beside the maps of its records.
mod cuts;
mod lists;
mod other;
mod reports;
mod sizes;
mod snapshot;

use model::random::Random;
use model::twin::geometry::LARGE;
use model::twin::state::State;
use model::twin::told::Counts;
use std::collections::BTreeMap;

/// The torn bytes of calls that have power enough.
pub const TORN: [u8; LARGE.page()] = [0x5A; LARGE.page()];

/// The allowance with which no format and no commit of the large part is cut, and that of a mount.
pub const ENOUGH: u32 = 4000;
pub const MOUNT: u32 = 255;

/// The records by key.
pub type Map = BTreeMap<u32, u32>;

/// A store on its image, the records of its last commit, and those with the pending updates.
#[derive(Clone)]
pub struct Store {
    pub state: State,
    pub image: Vec<u8>,
    pub kept: Map,
    pub present: Map,
}

/// A key of a range, spread over all keys.
pub fn key(random: &mut Random, range: u64) -> u32 {
    random.below(range) as u32 * 1_000_003
}

impl Store {
    /// A store formatted on a chip of this many blocks.
    pub fn formatted(blocks: usize) -> Store {
        let (mut state, mut image) = (State::new(), vec![0; blocks * LARGE.block()]);
        let told = state.format(LARGE, &mut image, &TORN, ENOUGH);
        assert_eq!((told.refusal, told.counts.total()), (0, blocks as u32 + 3));
        Store { state, image, kept: Map::new(), present: Map::new() }
    }

    /// A random insert or, once in five, delete. It is refused with 3, 4 or 5 as it has to be.
    pub fn update(&mut self, random: &mut Random, range: u64) {
        let (key, value, full) = (key(random, range), random.next() as u32, self.state.pending == 16);
        if random.once_in(5) {
            let refusal = self.state.delete(&self.image, key);
            let expected = if self.present.contains_key(&key) { 0 } else { 4 };
            assert_eq!(refusal, if full { 3 } else { expected });
            if refusal == 0 {
                self.present.remove(&key);
            }
            return;
        }
        match self.state.insert(&self.image, key, value) {
            0 => drop(self.present.insert(key, value)),
            3 => assert!(full),
            refusal => assert_eq!((refusal, full, self.present.contains_key(&key)), (5, false, false)),
        }
    }

    /// Updates until this many are pending; fewer where most are refused.
    pub fn updates(&mut self, random: &mut Random, range: u64, count: u32) {
        for _ in 0..40 {
            if self.state.pending < count {
                self.update(random, range);
            }
        }
    }

    /// A commit with power enough, which does what was forecast.
    pub fn commit(&mut self) -> Counts {
        let forecast = self.state.forecast(&self.image);
        let told = self.state.commit(&mut self.image, &TORN, ENOUGH);
        assert_eq!((told.refusal, told), (0, forecast));
        self.kept.clone_from(&self.present);
        told.counts
    }

    /// A mount, which drops the pending updates.
    pub fn mount(&mut self) {
        assert_eq!(self.state.mount(LARGE, &mut self.image, &TORN, MOUNT).refusal, 0);
        self.present.clone_from(&self.kept);
    }

    /// Whether look ups of these keys find the records of a map. No look up reads more than 16 pages.
    pub fn holds<'a>(&self, map: &Map, keys: impl IntoIterator<Item = &'a u32>) -> bool {
        keys.into_iter().all(|&key| {
            let look = self.state.look_up(&self.image, key);
            assert!(look.pages <= 16);
            map.get(&key).map_or((4, 0), |&value| (0, value)) == (look.refusal, look.value)
        })
    }

    /// Look ups of all records and of some other keys find what the map has.
    pub fn compare(&self, random: &mut Random, range: u64) {
        let others: Vec<u32> = (0..20).map(|_| key(random, range)).chain([0, 1, u32::MAX]).collect();
        assert!(self.holds(&self.present, self.present.keys().chain(&others)));
    }
}
