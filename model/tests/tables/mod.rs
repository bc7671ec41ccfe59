//! Trees as tables of nodes by number, for tests of the twin: a table put on a chip, and that of a store.
#![allow(dead_code)]
pub mod steps;
pub mod units;

use model::random::Random;
use model::twin::geometry::{Geometry, PLACES};
use model::twin::state::State;
use model::twin::unit::{encode, put_header, Header, Update, UNIT};
use model::twin::view::{key_of, value_of, Stage, View};
use std::collections::{BTreeMap, BTreeSet};

/// A key and a value, or the number of a child.
pub type Entry = (u32, u32);

/// A node: its level and its entries.
#[derive(Clone, PartialEq, Eq, Debug)]
pub struct Node {
    pub level: u32,
    pub entries: Vec<Entry>,
}

/// The nodes by number. A number that is freed or unused has none.
pub type Table = BTreeMap<u32, Node>;

/// A node of this level with these entries.
pub fn node(level: u32, entries: &[Entry]) -> Node {
    Node { level, entries: entries.to_vec() }
}

/// A leaf whose keys are those of a range, each with itself as value.
pub fn leaf(keys: std::ops::Range<u32>) -> Node {
    Node { level: 0, entries: keys.map(|key| (key, key)).collect() }
}

/// The entries of a node; none where it is not there.
pub fn entries(table: &Table, number: u32) -> &[Entry] {
    table.get(&number).map_or(&[], |node| &node.entries)
}

/// The level of node 0.
pub fn root_level(table: &Table) -> u32 {
    table.get(&0).map_or(0, |node| node.level)
}

/// The records in key order.
pub fn records(table: &Table) -> Vec<Entry> {
    let leaves = table.values().filter(|node| node.level == 0);
    let mut records: Vec<Entry> = leaves.flat_map(|leaf| leaf.entries.clone()).collect();
    records.sort_unstable();
    records
}

/// Whether every node but node 0 has 8 entries or more, and node 0 above level 0 two or more.
pub fn is_thick(table: &Table) -> bool {
    let fewest = |number| if number > 0 { 8 } else { 2 };
    table.iter().all(|(&number, node)| number == 0 && node.level == 0 || node.entries.len() >= fewest(number))
}

/// Whether an interior node other than node 0 has fewer than 8 entries, or node 0 above level 0 fewer than 2.
pub fn is_thin(table: &Table) -> bool {
    let fewest = |number| if number > 0 { 8 } else { 2 };
    table.iter().any(|(&number, node)| node.level > 0 && node.entries.len() < fewest(number))
}

/// The table that a store has in P.
pub fn table_of(state: &State, image: &[u8]) -> Table {
    let mut table = Table::new();
    for number in 0..state.limit() {
        let view = state.view(image, number);
        assert!(view.stage != Stage::Broken);
        assert_eq!(!state.free.has(number), view.stage == Stage::Full);
        if view.stage == Stage::Full {
            let entries = view.entries().iter().map(|&e| (key_of(e), value_of(e))).collect();
            table.insert(number, Node { level: view.level, entries });
        }
    }
    table
}

/// The updates of a node written anew.
fn anew(node: &Node) -> Vec<Update> {
    [Update::Reset(node.level)].into_iter().chain(node.entries.iter().map(|&(key, value)| Update::Insert(key, value))).collect()
}

/// The pages of a table's nodes, each written anew, one behind the other.
fn pages_of(part: Geometry, table: &Table) -> Vec<Vec<[u8; UNIT]>> {
    let mut pages: Vec<Vec<[u8; UNIT]>> = vec![Vec::new()];
    for (&number, node) in table {
        let units: Vec<_> = anew(node).into_iter().map(|update| encode(number, update)).collect();
        if pages.last().unwrap().len() + units.len() > part.units {
            pages.push(Vec::new());
        }
        pages.last_mut().unwrap().extend(units);
    }
    pages
}

/// A page of a commit put on a chip.
pub fn put_page(part: Geometry, image: &mut [u8], place: usize, header: Header, units: &[[u8; UNIT]]) {
    let page = &mut image[place * part.page()..][..part.page()];
    put_header(page, header, units.len());
    page[8..8 + UNIT * units.len()].copy_from_slice(units.as_flattened());
    page[part.area..part.area + 2].fill(0);
}

/// A chip whose commit 1 is this table.
pub fn image_of(part: Geometry, blocks: usize, table: &Table) -> Vec<u8> {
    let (mut image, pages) = (vec![255; blocks * part.block()], pages_of(part, table));
    for (index, units) in pages.iter().enumerate() {
        let header = Header { commit: 1, index: index as u8, count: pages.len() as u8 };
        put_page(part, &mut image, index, header, units);
    }
    image
}

/// A store on a chip whose commit 1 is this table, thin or not.
pub fn store_of(part: Geometry, blocks: usize, table: &Table) -> (State, Vec<u8>) {
    let mut state = State { on: true, geometry: part, blocks, commit: 1, ..State::new() };
    let image = image_of(part, blocks, table);
    assert!(state.read(&image, state.limit(), &mut [0; PLACES], &mut [View::UNTOUCHED; 256]).is_ok());
    assert!(table_of(&state, &image) == *table);
    (state, image)
}

/// The sizes of nodes that a tree is made of: any, few entries, the fewest and the most, or few in interior nodes alone.
#[derive(Clone, Copy)]
pub enum Sizes {
    Any,
    Thin,
    Ends,
    Slim,
}

impl Sizes {
    /// How many entries a node has, at least `least`.
    fn pick(self, random: &mut Random, least: u64) -> u64 {
        match self {
            Sizes::Any => least + random.below(17 - least),
            Sizes::Thin => least + random.below(3),
            Sizes::Slim if least > 0 => least + random.below(3),
            Sizes::Slim => random.below(17),
            Sizes::Ends => [least, least, least + 1, 8, 15, 16][random.index(6)],
        }
    }
}

/// A random tree under way: the numbers left for its nodes, and the sizes of these.
struct Maker<'a> {
    random: &'a mut Random,
    numbers: Vec<u32>,
    sizes: Sizes,
    table: Table,
}

impl Maker<'_> {
    /// A node of a level with keys from `lo` to below `hi`, and those below it, for which there are so many numbers.
    fn make(&mut self, number: u32, level: u32, lo: u64, hi: u64, numbers: u64) {
        let entries = match level {
            0 => self.records(lo, hi),
            _ => self.children(level, lo, hi, numbers),
        };
        self.table.insert(number, Node { level, entries });
    }

    /// Records of random keys and values.
    fn records(&mut self, lo: u64, hi: u64) -> Vec<Entry> {
        let count = self.sizes.pick(self.random, 0);
        let keys: BTreeSet<u64> = (0..count).map(|_| lo + self.random.below(hi - lo)).collect();
        keys.into_iter().map(|key| (key as u32, self.random.next() as u32)).collect()
    }

    /// The children of a node of a level. Each takes as many numbers as its level asks for, and some of those left.
    fn children(&mut self, level: u32, lo: u64, hi: u64, numbers: u64) -> Vec<Entry> {
        let own = u64::from(level);
        let count = self.sizes.pick(self.random, 1).min(numbers / own);
        let (mut left, mut entries) = (numbers - own * count, Vec::new());
        for i in 0..count {
            let more = if self.random.once_in(2) { left } else { self.random.below(left + 1) };
            left -= more;
            let (key, child) = (lo + (hi - lo) * i / count, self.numbers.pop().unwrap());
            self.make(child, level - 1, key, lo + (hi - lo) * (i + 1) / count, own - 1 + more);
            entries.push((key as u32, child));
        }
        entries
    }
}

/// A random tree of a level with numbers below 8 * `blocks`, and nodes of some sizes.
pub fn random_tree(random: &mut Random, blocks: u32, level: u32, sizes: Sizes) -> Table {
    let mut numbers: Vec<u32> = (1..8 * blocks).collect();
    for i in (1..numbers.len()).rev() {
        numbers.swap(i, random.index(i + 1));
    }
    let count = numbers.len() as u64;
    let mut maker = Maker { random, numbers, sizes, table: Table::new() };
    maker.make(0, level, 0, 1 << 32, count);
    maker.table
}
