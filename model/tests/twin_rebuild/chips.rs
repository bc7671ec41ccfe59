//! Chips that no format began: a tree over several commits, freed numbers, void pages, pages that do not count, and so many free blocks.
use super::tables::{put_page, random_tree, Node, Sizes, Table};
use model::random::Random;
use model::twin::geometry::Geometry;
use model::twin::unit::{encode, Header, Update, FREED, UNIT};
use std::collections::BTreeSet;

/// A chip under way, and the places left on it.
struct Maker<'a> {
    random: &'a mut Random,
    part: Geometry,
    image: Vec<u8>,
    places: Vec<usize>,
}

/// What a chip is made of: its table, how many other numbers are freed, its greatest standing number, how many pages are void, and how many
/// blocks are wholly free.
pub struct Plan {
    pub table: Table,
    pub freed: usize,
    pub number: u32,
    pub voids: usize,
    pub free: usize,
}

/// The units of a number in each of two commits.
type Halves = [Vec<[u8; UNIT]>; 2];

impl Maker<'_> {
    /// A node in one of two commits, or begun in the first and ended in the second.
    fn halves(&mut self, number: u32, node: &Node) -> Halves {
        let inserts = node.entries.iter().map(|&(key, value)| Update::Insert(key, value));
        let mut updates: Vec<Update> = [Update::Reset(node.level)].into_iter().chain(inserts).collect();
        let cut = [0, updates.len(), 1 + self.random.index(updates.len())][self.random.index(3)];
        let later = updates.split_off(cut);
        if let (false, Some(&Update::Insert(key, value))) = (updates.is_empty(), later.first()) {
            updates.push(Update::Insert(key, !value));
        }
        [updates, later].map(|updates| updates.into_iter().map(|update| encode(number, update)).collect())
    }

    /// A number freed: in one of two commits, or in the second after a leaf in the first.
    fn freed(&mut self, number: u32) -> Halves {
        let free = vec![encode(number, Update::Reset(FREED))];
        match self.random.below(3) {
            0 => [free, Vec::new()],
            1 => [Vec::new(), free],
            _ => [vec![encode(number, Update::Reset(0)), encode(number, Update::Insert(7, 7))], free],
        }
    }

    /// A place that is left, any one.
    fn place(&mut self) -> usize {
        let at = self.random.index(self.places.len());
        self.places.swap_remove(at)
    }

    /// A commit of these units, each group in one page; `missing` pages more are counted.
    fn commit(&mut self, number: u32, groups: impl Iterator<Item = Vec<[u8; UNIT]>>, missing: usize) {
        let mut pages: Vec<Vec<[u8; UNIT]>> = Vec::new();
        for group in groups.filter(|group| !group.is_empty()) {
            match pages.last_mut() {
                Some(page) if page.len() + group.len() <= self.part.units && !self.random.once_in(8) => page.extend(group),
                _ => pages.push(group),
            }
        }
        for (index, units) in pages.iter().enumerate() {
            let header = Header { commit: number, index: index as u8, count: (pages.len() + missing) as u8 };
            let place = self.place();
            put_page(self.part, &mut self.image, place, header, units);
        }
    }

    /// Pages of a commit that lacks some.
    fn voids(&mut self, number: u32, pages: usize) {
        let missing = 1 + self.random.index(5);
        let full = (0..pages).map(|_| vec![encode(0, Update::Reset(0)); self.part.units]).collect::<Vec<_>>();
        self.commit(number, full.into_iter(), missing);
    }

    /// A page that is not free and does not count: one byte, a used mark, or an obsolete page.
    fn soil(&mut self, place: usize) {
        let (at, area, kind) = (self.random.index(self.part.area), self.part.area, self.random.below(3));
        let page = &mut self.image[place * self.part.page()..][..self.part.page()];
        match kind {
            0 => page[at] = self.random.byte() & 254,
            1 => page[area] = 0,
            _ => {
                page[at] = 0;
                page[area..area + 3].fill(0);
            }
        }
    }

    /// Such a page in every block that is not to be free, and some more.
    fn dirty(&mut self) {
        let mut seen = BTreeSet::new();
        while let Some(place) = self.places.pop() {
            if seen.insert(place / self.part.pages) || self.random.once_in(20) {
                self.soil(place);
            }
        }
    }
}

/// A chip of so many blocks.
pub fn chip(random: &mut Random, part: Geometry, blocks: usize, plan: &Plan) -> Vec<u8> {
    let mut order: Vec<usize> = (0..blocks).collect();
    random.shuffle(&mut order);
    let places = order[plan.free..].iter().flat_map(|block| block * part.pages..(block + 1) * part.pages).collect();
    let mut maker = Maker { random, part, image: vec![255; blocks * part.block()], places };
    let mut others: Vec<u32> = (0..8 * blocks as u32).filter(|number| !plan.table.contains_key(number)).collect();
    maker.random.shuffle(&mut others);
    let freed: Vec<Halves> = others.iter().take(plan.freed).map(|&number| maker.freed(number)).collect();
    let mut all: Vec<Halves> = plan.table.iter().map(|(&number, node)| maker.halves(number, node)).chain(freed).collect();
    maker.random.shuffle(&mut all);
    if all.iter().all(|[_, second]| second.is_empty()) {
        all[0].swap(0, 1);
    }
    let (first, second): (Vec<_>, Vec<_>) = all.into_iter().map(|[first, second]| (first, second)).unzip();
    maker.commit(plan.number - 1, first.into_iter(), 0);
    maker.commit(plan.number, second.into_iter(), 0);
    if plan.voids > 0 {
        let above = plan.number + 1 + maker.random.below(3.min(u64::from(u32::MAX - plan.number))) as u32;
        maker.voids(above, plan.voids);
    }
    maker.dirty();
    maker.image
}

/// What a random chip is made of, with a tree of some height and sizes and so many free blocks.
pub fn any_plan(random: &mut Random, blocks: usize, level: u32, sizes: Sizes, free: usize) -> Plan {
    let table = random_tree(random, blocks as u32, level, sizes);
    let left = 8 * blocks - table.len();
    let freed = if random.once_in(3) { 0 } else { random.index(left + 1) };
    let voids = if random.once_in(3) { 0 } else { 1 + random.index(12) };
    Plan { table, freed, number: 2 + random.below(1 << 31) as u32, voids, free }
}
