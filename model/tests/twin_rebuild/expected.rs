//! A rebuild as it is defined: the new table, its pages and places, the operations, and what an allowance makes of them.
use super::eighth;
use super::reader::Meaning;
use super::tables::{put_page, records, Entry, Node, Table};
use model::twin::geometry::Geometry;
use model::twin::told::{Counts, Kind};
use model::twin::unit::{encode, Header, Update, FREED, UNIT};
use std::collections::BTreeSet;

/// The tree of these records.
pub fn rebuilt(mut entries: Vec<Entry>) -> Table {
    let (mut table, mut level, mut next) = (Table::new(), 0, 1);
    while entries.len() > 16 {
        let (nodes, mut at, mut above) = (entries.len().div_ceil(16), 0, Vec::new());
        for left in (1..=nodes).rev() {
            let end = at + (entries.len() - at) / left;
            above.push((if at == 0 { 0 } else { entries[at].0 }, next));
            table.insert(next, Node { level, entries: entries[at..end].to_vec() });
            (at, next) = (end, next + 1);
        }
        (entries, level) = (above, level + 1);
    }
    table.insert(0, Node { level, entries });
    table
}

/// The numbers that have units on the chip or a node in the new table.
pub fn numbers(old: &Meaning, new: &Table) -> BTreeSet<u32> {
    old.lists.keys().chain(new.keys()).copied().collect()
}

/// The units of each of these, the least number first: its node anew, or the reset that frees it.
fn units(old: &Meaning, new: &Table) -> Vec<Vec<[u8; UNIT]>> {
    let anew = |number| match new.get(&number) {
        Some(node) => {
            let inserts = node.entries.iter().map(|&(key, value)| encode(number, Update::Insert(key, value)));
            [encode(number, Update::Reset(node.level))].into_iter().chain(inserts).collect()
        }
        None => vec![encode(number, Update::Reset(FREED))],
    };
    numbers(old, new).into_iter().map(anew).collect()
}

/// These put into pages, each into the first one that has room.
fn pages(part: Geometry, groups: Vec<Vec<[u8; UNIT]>>) -> Vec<Vec<[u8; UNIT]>> {
    let mut pages: Vec<Vec<[u8; UNIT]>> = Vec::new();
    for group in groups {
        match pages.iter_mut().find(|page| page.len() + group.len() <= part.units) {
            Some(page) => page.extend(group),
            None => pages.push(group),
        }
    }
    pages
}

/// The wholly free blocks.
pub fn free_blocks(part: Geometry, image: &[u8]) -> Vec<usize> {
    let blocks = image.chunks_exact(part.block()).enumerate();
    blocks.filter(|(_, block)| block.iter().all(|&byte| byte == 255)).map(|(block, _)| block).collect()
}

/// An operation: a mark of a page by its spare byte, or a page's data.
pub enum Op {
    Mark(usize, usize),
    Program(usize, Vec<u8>),
}

/// The operations of a rebuild.
pub fn ops(part: Geometry, image: &[u8], old: &Meaning) -> Vec<Op> {
    let mut ops: Vec<Op> = old.voids.iter().map(|&place| Op::Mark(place, 2)).collect();
    let free = free_blocks(part, image);
    let blocks = free[..eighth(image.len() / part.block())].iter();
    let places: Vec<usize> = blocks.flat_map(|block| block * part.pages..(block + 1) * part.pages).collect();
    let pages = pages(part, units(old, &rebuilt(records(&old.table))));
    for (index, units) in pages.iter().enumerate() {
        let mut page = vec![255; part.page()];
        let header = Header { commit: old.number + 1, index: index as u8, count: pages.len() as u8 };
        put_page(part, &mut page, 0, header, units);
        let place = places[index];
        ops.extend([Op::Mark(place, 0), Op::Program(place, page[..part.area].to_vec()), Op::Mark(place, 1)]);
    }
    ops
}

/// The operations done on an image with power for so many, the next one torn: what is counted.
pub fn run(part: Geometry, image: &mut [u8], torn: &[u8], allowance: usize, ops: &[Op]) -> Counts {
    let mut counts = Counts::default();
    for (i, op) in ops.iter().enumerate().take(allowance.saturating_add(1)) {
        let whole = i < allowance;
        let kind = match op {
            Op::Mark(place, mark) => {
                image[place * part.page() + part.area + mark] = if whole { 0 } else { torn[0] };
                Kind::Mark
            }
            Op::Program(place, data) => {
                image[place * part.page()..][..part.area].copy_from_slice(if whole { data } else { &torn[..part.area] });
                Kind::Program
            }
        };
        counts.take(whole.then_some(kind));
    }
    counts
}

/// Whether a rebuild of so many operations takes effect.
pub fn takes_effect(torn: &[u8], allowance: usize, ops: usize) -> bool {
    allowance >= ops || torn[0] == 0 && allowance + 1 == ops
}
