//! Large trees: node 0 splits at level 2, roots of level 3 are deleted to level 2 and grown again, up to the last number; on chips that a
//! format began, on images with a full path, and after rebuilds.

use super::torn::tear;
use super::writer::Writer;
use crate::model::chip::{USED, VALID};
use crate::model::foreign;
use crate::model::geometry::Geometry;
use crate::model::image::meaning;
use crate::model::tree::Tree;
use crate::model::unit::{encode, page_data, Deed, Unit, UNIT};
use crate::random::Random;
use std::collections::BTreeSet;

/// The most inserts in a row, and the most deletes.
const INSERTS: u32 = 3000;
const DELETES: u32 = 300;

/// A script under way, the keys of its store, and the way that new ones go: rising, falling, or neither.
struct Heights {
    writer: Writer,
    keys: BTreeSet<u32>,
    way: u64,
    next: u32,
}

impl Heights {
    /// A script whose store is on.
    fn new(random: &mut Random, writer: Writer) -> Heights {
        let mut heights = Heights { writer, keys: BTreeSet::new(), way: random.below(3), next: 0 };
        heights.read();
        heights
    }

    /// The keys as the image has them.
    fn read(&mut self) {
        let (geometry, image) = (self.writer.geometry(), self.writer.probe().image());
        if let Ok(means) = meaning(geometry, image, image.len() / geometry.block()) {
            self.keys = means.tree.records().into_iter().map(|record| record.0).collect();
        }
    }

    /// The level of node 0.
    fn level(&self) -> u32 {
        let probe = self.writer.probe();
        probe.state().view(probe.image(), 0).level
    }

    /// The next key to insert.
    fn fresh(&mut self, random: &mut Random) -> u32 {
        self.next += 1;
        match self.way {
            0 => self.next * 3,
            1 => u32::MAX - self.next * 3,
            _ => random.next() as u32,
        }
    }

    /// A commit, one in so many with any allowance and then mounted.
    fn commit(&mut self, random: &mut Random, cuts: u64) {
        let cut = random.once_in(cuts);
        if cut {
            tear(random, &mut self.writer);
        }
        let allowance = if cut { self.writer.allowance(random, 4) } else { self.writer.enough() };
        self.writer.commit(allowance);
        if cut {
            self.writer.mount(255);
            self.read();
        }
    }

    /// Inserts until node 0 is at a level or one is refused with 5.
    fn grow(&mut self, random: &mut Random, level: u32) {
        for at in 0..INSERTS {
            let key = self.fresh(random);
            match self.writer.insert(key, at) {
                3 => self.commit(random, 60),
                5 => return,
                _ => drop(self.keys.insert(key)),
            }
            if self.level() >= level {
                return;
            }
        }
    }

    /// Deletes of the greatest keys or of the least until node 0 is at a lower level.
    fn shrink(&mut self, random: &mut Random) {
        let (level, greatest) = (self.level(), random.once_in(2));
        for _ in 0..DELETES {
            let key = if greatest { self.keys.last() } else { self.keys.first() }.copied().unwrap_or(0);
            match self.writer.delete(key) {
                3 => self.commit(random, 12),
                _ => drop(self.keys.remove(&key)),
            }
            if self.level() < level {
                return;
            }
        }
    }

    /// Look ups of some keys, and a commit that is cut at times; or a mount that drops what is pending.
    fn look(&mut self, random: &mut Random) {
        let some: Vec<u32> = self.keys.iter().copied().step_by(60).collect();
        for key in some {
            self.writer.look_up(key.wrapping_add(random.below(2) as u32));
        }
        match random.below(5) {
            0 => {
                self.writer.mount(255);
                self.read();
            }
            _ => self.commit(random, 3),
        }
        self.writer.check();
    }
}

/// A chip that a format began, at times with too few numbers for a root at level 3.
fn begun(random: &mut Random, geometry: Geometry) -> Heights {
    let mut writer = Writer::new(geometry);
    writer.lend([20, 21, 22, 24, 28, 32][random.index(6)]);
    writer.format(writer.enough());
    Heights::new(random, writer)
}

/// An image of a tree as one commit, each node written once.
fn image_of(geometry: Geometry, blocks: usize, tree: &Tree) -> Vec<u8> {
    let mut pages: Vec<Vec<[u8; UNIT]>> = vec![Vec::new()];
    for (number, node) in tree.nodes.iter().enumerate().filter_map(|(number, node)| Some((number as u16, node.as_ref()?))) {
        let deeds = [Deed::Reset(node.level)].into_iter().chain(node.entries.iter().map(|entry| Deed::Insert(entry.0, entry.1)));
        let units: Vec<[u8; UNIT]> = deeds.map(|deed| encode(&Unit { node: number, deed })).collect();
        if pages.last().is_some_and(|page| page.len() + units.len() > geometry.room) {
            pages.push(Vec::new());
        }
        pages.last_mut().into_iter().for_each(|page| page.extend(&units));
    }
    let mut image = vec![255; blocks * geometry.block()];
    for (index, (page, units)) in image.chunks_exact_mut(geometry.page()).zip(&pages).enumerate() {
        let (data, spare) = page.split_at_mut(geometry.data);
        data.copy_from_slice(&page_data(geometry, 1, index as u8, pages.len() as u8, units));
        spare[USED] = 0;
        spare[VALID] = 0;
    }
    image
}

/// A chip that no format began, full on the path of a key, which is inserted; in half of the cases rebuilt before.
fn foreign(random: &mut Random, geometry: Geometry) -> Heights {
    let mut writer = Writer::new(geometry);
    let blocks = [20, 24, 28, 32][random.index(4)];
    let (tree, key) = foreign::steep_tree(random, blocks);
    writer.bring(&image_of(geometry, blocks, &tree));
    writer.mount(255);
    if random.once_in(2) {
        writer.rebuild(writer.enough());
    }
    writer.insert(key, 1);
    Heights::new(random, writer)
}

/// A large tree that grows to level 3, is deleted to level 2 and grows again; at its end inserts up to the last number or a rebuild.
fn heights(random: &mut Random, mut heights: Heights) -> Vec<Vec<u8>> {
    heights.grow(random, 3);
    for _ in 0..1 + random.below(3) {
        heights.look(random);
        heights.shrink(random);
        heights.look(random);
        heights.grow(random, 3);
    }
    match random.below(3) {
        0 => heights.grow(random, 4),
        1 => drop(heights.writer.rebuild(heights.writer.enough())),
        _ => {}
    }
    heights.look(random);
    heights.writer.mount(255);
    heights.look(random);
    heights.writer.lines()
}

/// A script on a chip that a format began.
pub fn formatted(random: &mut Random, geometry: Geometry) -> Vec<Vec<u8>> {
    let begun = begun(random, geometry);
    heights(random, begun)
}

/// A script on a chip that a format began or, once in four times, one that none began.
pub fn make(random: &mut Random, geometry: Geometry) -> Vec<Vec<u8>> {
    if random.once_in(4) {
        let foreign = foreign(random, geometry);
        return heights(random, foreign);
    }
    formatted(random, geometry)
}
