//! What two other ways to keep the same tree would write, in pages: BFTL as the source document's 4.2.2 describes it, and a B+ tree that
//! writes each changed node as a page of its own. Neither reclaims pages here.

use model::twin::unit::{node_of, UNIT};

/// Units of a page, and the longest list of pages that BFTL leaves as it is.
const UNITS: usize = 42;
const LONGEST: usize = 4;

/// The lists of BFTL's node translation table, and the pages written so far.
#[derive(Clone)]
pub struct Reference {
    lists: [usize; 256],
    pub bftl: u64,
    pub nodes: u64,
}

impl Reference {
    /// No page written.
    pub fn new() -> Reference {
        Reference { lists: [0; 256], bftl: 0, nodes: 0 }
    }

    /// The same lists, and no page counted.
    pub fn counted_anew(&self) -> Reference {
        Reference { bftl: 0, nodes: 0, ..self.clone() }
    }

    /// A page for a list that is written anew because it is too long.
    fn compact(&mut self, n: usize) {
        if self.lists[n] > LONGEST {
            self.lists[n] = 1;
            self.bftl += 1;
        }
    }

    /// The units of a node put into the first page that has room for them, else into a new one.
    fn store(&mut self, n: usize, count: usize, rooms: &mut Vec<usize>) {
        self.compact(n);
        self.lists[n] += 1;
        match rooms.iter_mut().find(|room| **room >= count) {
            Some(room) => *room -= count,
            None => rooms.push(UNITS.saturating_sub(count)),
        }
    }

    /// A commit of these buffered units.
    pub fn commit(&mut self, units: &[[u8; UNIT]]) {
        let mut counts = [0; 256];
        units.iter().for_each(|unit| counts[node_of(unit) as usize] += 1);
        let mut rooms = Vec::new();
        for n in (0..256).filter(|&n| counts[n] > 0) {
            self.store(n, counts[n], &mut rooms);
            self.nodes += 1;
        }
        self.bftl += rooms.len() as u64;
    }
}
