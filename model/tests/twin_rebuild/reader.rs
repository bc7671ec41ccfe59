//! What a chip means, read with maps: the nodes, the freed numbers, the lists, the greatest standing number, and the void pages.
use super::tables::{Node, Table};
use model::twin::geometry::Geometry;
use std::collections::{BTreeMap, BTreeSet};

/// An image read.
#[derive(Clone, PartialEq, Eq, Debug, Default)]
pub struct Meaning {
    pub number: u32,
    pub table: Table,
    pub freed: BTreeSet<u32>,
    pub lists: BTreeMap<u32, Vec<usize>>,
    pub voids: Vec<usize>,
}

/// The little-endian number of some bytes.
fn number(bytes: &[u8]) -> u32 {
    bytes.iter().rev().fold(0, |sum, &byte| sum << 8 | u32::from(byte))
}

/// A live page: commit number, index, count, place.
type Live = (u32, u8, u8, usize);

/// The live pages by commit number and index.
fn live(part: Geometry, image: &[u8]) -> Vec<Live> {
    let pages = image.chunks_exact(part.page()).enumerate();
    let live = pages.filter(|(_, page)| page[part.area + 1] == 0 && page[part.area + 2] != 0);
    let mut live: Vec<Live> = live.map(|(place, page)| (number(&page[..4]), page[4], page[5], place)).collect();
    live.sort_unstable();
    live
}

impl Meaning {
    /// One unit of a standing page. What stands before the first reset of its node counts nothing: a later one follows.
    fn unit(&mut self, unit: &[u8], place: usize) {
        let (node, key, value) = (number(&unit[2..4]), number(&unit[4..8]), number(&unit[8..]));
        let list = self.lists.entry(node).or_default();
        if unit[0] == 3 {
            list.clear();
            self.table.remove(&node);
            self.freed.remove(&node);
            match value {
                255 => drop(self.freed.insert(node)),
                level => drop(self.table.insert(node, Node { level, entries: Vec::new() })),
            }
        }
        if list.last() != Some(&place) {
            list.push(place);
        }
        if let (1 | 2, Some(Node { entries, .. })) = (unit[0], self.table.get_mut(&node)) {
            entries.retain(|entry| entry.0 != key);
            if unit[0] == 1 {
                entries.push((key, value));
                entries.sort_unstable();
            }
        }
    }
}

/// What an image means that obeys the layout.
pub fn read(part: Geometry, image: &[u8]) -> Meaning {
    let mut standing = live(part, image);
    let (last, _, count, _) = *standing.last().unwrap();
    let mut meaning = Meaning::default();
    if standing.iter().filter(|page| page.0 == last).count() < usize::from(count) {
        meaning.voids = standing.iter().filter(|page| page.0 == last).map(|page| page.3).collect();
        meaning.voids.sort_unstable();
        standing.retain(|page| page.0 < last);
    }
    for &(commit, _, _, place) in &standing {
        let page = &image[place * part.page()..];
        let units = number(&page[6..8]) as usize;
        page[8..8 + 12 * units].chunks_exact(12).for_each(|unit| meaning.unit(unit, place));
        meaning.number = commit;
    }
    meaning
}
