//! The twin's inserts and deletes beside their definitions on tables and beside a map: units, nodes, records and refusals.
mod tables;

use model::random::Random;
use model::twin::geometry::{Geometry, LARGE, SMALL};
use model::twin::state::State;
use model::twin::tree::is_tree;
use model::twin::unit::{decode, node_of};
use model::twin::view::View;
use std::collections::BTreeMap;
use tables::steps::{insert, remove};
use tables::units::{after, brief_units, insert_units, remove_units, Unit};
use tables::{is_thick, is_thin, random_tree, records, store_of, table_of, Sizes, Table};

/// The most units of a delete, and of an insert.
const DELETE: usize = 57;
const INSERT: usize = 60;

/// A store under way: its table, its records, those of the last commit, and what was seen.
struct Run {
    part: Geometry,
    state: State,
    image: Vec<u8>,
    table: Table,
    map: BTreeMap<u32, u32>,
    seen: Seen,
}

/// The most units of a delete and of an insert, of a delete that writes joined nodes first, freed nodes, new nodes, and refusals 5.
#[derive(Default, Debug)]
struct Seen {
    delete: usize,
    insert: usize,
    first: usize,
    freed: usize,
    new: usize,
    fives: usize,
}

/// The units of the buffer from one on.
fn pushed(state: &State, from: usize) -> Vec<Unit> {
    let unit = |unit| (node_of(unit), decode(unit, state.limit()).unwrap());
    state.buffered()[from..].iter().map(unit).collect()
}

impl Run {
    /// A store on its image.
    fn new(part: Geometry, (state, image): (State, Vec<u8>)) -> Run {
        let table = table_of(&state, &image);
        let map = records(&table).into_iter().collect();
        Run { part, state, image, table, map, seen: Seen::default() }
    }

    /// The store has the nodes of a table and the records of the map, and is a tree.
    fn compare(&mut self, table: Table) {
        assert!(table_of(&self.state, &self.image) == table);
        let views: Vec<View> = (0..self.state.limit()).map(|n| self.state.view(&self.image, n)).collect();
        assert!(is_tree(&views));
        assert!(records(&table) == self.map.iter().map(|(&key, &value)| (key, value)).collect::<Vec<_>>());
        self.table = table;
    }

    /// A delete: 4 where the key is absent, else the units and the nodes that are defined.
    fn delete(&mut self, key: u32) {
        let count = self.state.count;
        let refusal = self.state.delete(&self.image, key);
        if self.map.remove(&key).is_none() {
            assert_eq!((refusal, self.state.count), (4, count));
            return;
        }
        let (units, table) = (pushed(&self.state, count), remove(&self.table, key));
        assert_eq!((refusal, &units), (0, &brief_units(&self.table, key)));
        assert!(after(&self.table, &units) == table && units.len() <= DELETE);
        let first = remove_units(&self.table, key);
        assert!(after(&self.table, &first) == table);
        self.seen.delete = self.seen.delete.max(units.len());
        self.seen.first = self.seen.first.max(first.len());
        self.seen.freed += self.table.len() - table.len();
        self.compare(table);
    }

    /// An insert: 5 as it is defined, else the units and the nodes that are defined.
    fn insert(&mut self, key: u32, value: u32) {
        let count = self.state.count;
        let refusal = self.state.insert(&self.image, key, value);
        let Some(table) = insert(&self.table, self.state.limit(), (key, value)) else {
            assert_eq!((refusal, self.state.count), (5, count));
            self.seen.fives += 1;
            return;
        };
        let units = pushed(&self.state, count);
        assert_eq!((refusal, &units), (0, &insert_units(&self.table, (key, value))));
        assert!(after(&self.table, &units) == table && units.len() <= INSERT);
        self.seen.insert = self.seen.insert.max(units.len());
        self.seen.new += table.len() - self.table.len();
        self.map.insert(key, value);
        self.compare(table);
    }

    /// A random update, a delete in `deletes` of 8 cases; of a key that is there, or of any.
    fn update(&mut self, random: &mut Random, deletes: u64) {
        let any = random.next() as u32;
        let own = self.map.range(any..).next().or(self.map.iter().next()).map_or(any, |record| *record.0);
        match random.below(8) < deletes {
            true => self.delete(if random.once_in(12) { any } else { own }),
            false => self.insert(if random.once_in(8) { own } else { any }, random.next() as u32),
        }
    }

    /// A commit, at times a mount behind it, which is refused where the tree is thin; both leave the nodes. Whether the commit was accepted.
    fn commit(&mut self, random: &mut Random) -> bool {
        let torn = vec![0x5A; self.part.page()];
        if self.state.commit(&mut self.image, &torn, 4000).refusal != 0 {
            return false;
        }
        assert!(self.state.lens.iter().all(|&len| len <= 4));
        if random.once_in(5) {
            let mut read = State::new();
            let refusal = read.mount(self.part, &mut self.image, &torn, 0).refusal;
            assert_eq!(refusal, if is_thin(&self.table) { 12 } else { 0 });
            if refusal == 0 {
                assert!(read.free == self.state.free && (0..256).all(|n| read.list(n) == self.state.list(n)));
                self.state = read;
            }
        }
        self.compare(self.table.clone());
        true
    }

    /// Updates with commits between them, until one is refused, which a chip that no format began leads to.
    fn updates(&mut self, random: &mut Random, count: usize, deletes: u64) {
        for _ in 0..count {
            self.update(random, deletes);
            if self.state.pending == 16 && !self.commit(random) {
                return;
            }
        }
    }
}

/// Stores that a format began: turns of mostly inserts and of mostly deletes. Every node but node 0 has 8 entries or more.
fn begun(part: Geometry, blocks: usize, turns: usize, long: usize) {
    let mut random = Random::new(blocks as u64);
    let (mut state, mut image) = (State::new(), vec![255; blocks * part.block()]);
    state.format(part, &mut image, &vec![0x5A; part.page()], u32::MAX);
    let mut run = Run::new(part, (state, image));
    for turn in 0..turns {
        let deletes = [0, 5, 3, 8, 2, 7][turn % 6];
        for _ in 0..long {
            run.updates(&mut random, 16, deletes);
            assert!(is_thick(&run.table));
        }
    }
    println!("B = {blocks}, pages of {} bytes: {:?}, {} nodes at the end", part.page(), run.seen, run.table.len());
    assert!(run.seen.freed > 20 && run.seen.new > 20);
}

/// Stores of three blocks that a format began.
#[test]
fn begun_small() {
    begun(SMALL, 3, 24, 30);
    begun(LARGE, 3, 12, 30);
}

/// Larger ones.
#[test]
fn begun_wide() {
    begun(SMALL, 8, 12, 40);
    begun(SMALL, 32, 6, 150);
}

/// Trees that no insert made: nodes of any size, thin ones, and ones with the fewest and the most entries.
#[test]
fn foreign() {
    let mut random = Random::new(7);
    let mut most = Seen::default();
    for turn in 0..4000 {
        let blocks = [3, 4, 8, 32][turn % 4];
        let sizes = [Sizes::Any, Sizes::Thin, Sizes::Ends][turn % 3];
        let tree = random_tree(&mut random, blocks, (turn / 12 % 4) as u32, sizes);
        let mut run = Run::new(SMALL, store_of(SMALL, blocks as usize, &tree));
        run.updates(&mut random, 24, 7);
        most.delete = most.delete.max(run.seen.delete);
        most.insert = most.insert.max(run.seen.insert);
        most.first = most.first.max(run.seen.first);
        most.freed += run.seen.freed;
        most.new += run.seen.new;
        most.fives += run.seen.fives;
    }
    println!("{most:?}");
    assert!(most.freed > 3000 && most.new > 200);
}
