//! A box on day hire: rising keys with the oldest deleted, 64 live, on a chip of 3 blocks of each part. No insert is refused with 5.
mod tables;

use model::twin::geometry::{Geometry, LARGE, SMALL};
use model::twin::state::State;
use model::twin::told::Counts;
use std::collections::BTreeMap;
use tables::{is_thick, records, table_of};

/// Events, inserts and deletes together.
const EVENTS: u32 = 100_000;
/// Records that stay.
const LIVE: usize = 64;
/// Blocks of the chip.
const BLOCKS: usize = 3;

/// A box: its store, its records, and what its commits did.
struct Hire {
    state: State,
    image: Vec<u8>,
    map: BTreeMap<u32, u32>,
    commits: u32,
    counts: Counts,
    nodes: u32,
    numbers: u32,
}

impl Hire {
    /// A chip formatted.
    fn new(part: Geometry) -> Hire {
        let (mut state, mut image) = (State::new(), vec![255; BLOCKS * part.block()]);
        assert_eq!(state.format(part, &mut image, &vec![0x5A; part.page()], 2000).refusal, 0);
        Hire { state, image, map: BTreeMap::new(), commits: 0, counts: Counts::default(), nodes: 0, numbers: 0 }
    }

    /// An event was accepted; the 16th is followed by a commit.
    fn accepted(&mut self, refusal: u32) {
        assert_eq!(refusal, 0);
        self.nodes = self.nodes.max(self.state.in_use().count() as u32);
        self.numbers = self.numbers.max(self.state.in_use().last().unwrap_or(0));
        if self.state.pending == 16 {
            self.commit();
        }
    }

    /// A commit, counted; at times a look at all nodes, and a mount.
    fn commit(&mut self) {
        let torn = vec![0x5A; self.state.geometry.page()];
        let told = self.state.commit(&mut self.image, &torn, 2000);
        assert_eq!(told.refusal, 0);
        self.commits += 1;
        self.counts.programs += told.counts.programs;
        self.counts.erases += told.counts.erases;
        if self.commits % 50 == 0 {
            let table = table_of(&self.state, &self.image);
            assert!(is_thick(&table) && records(&table).into_iter().eq(self.map.iter().map(|(&key, &value)| (key, value))));
        }
        if self.commits % 170 == 0 {
            assert_eq!(self.state.mount(self.state.geometry, &mut self.image, &torn, 0).refusal, 0);
        }
    }

    /// The event of this number: the delete of the oldest of more than 64 records, else the next key.
    fn event(&mut self, event: u32) {
        match self.map.first_key_value() {
            Some((&oldest, _)) if self.map.len() > LIVE => {
                self.map.remove(&oldest);
                let refusal = self.state.delete(&self.image, oldest);
                self.accepted(refusal);
            }
            _ => {
                self.map.insert(event, event ^ 0x5555);
                let refusal = self.state.insert(&self.image, event, event ^ 0x5555);
                self.accepted(refusal);
            }
        }
    }
}

/// All events on a part: at most so many pages a commit, and as many erases as these fill blocks.
fn hire(part: Geometry, most: f64) {
    let mut hire = Hire::new(part);
    (1..=EVENTS).for_each(|event| hire.event(event));
    let commits = f64::from(hire.commits);
    let (pages, erases) = (f64::from(hire.counts.programs) / commits, f64::from(hire.counts.erases) / commits);
    println!(
        "pages of {} bytes: {} commits, {pages:.3} pages and {erases:.4} erases a commit, at most {} nodes and number {}",
        part.page(),
        hire.commits,
        hire.nodes,
        hire.numbers
    );
    assert!(pages <= most && (erases - pages / part.pages as f64).abs() < 0.002);
}

/// The small part.
#[test]
fn small() {
    hire(SMALL, 1.5);
}

/// The large part: one page a commit.
#[test]
fn large() {
    hire(LARGE, 1.0);
}
