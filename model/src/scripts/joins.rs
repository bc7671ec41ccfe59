//! Lists of calls with many deletes, on chips that a format began or not: joins and moves each way, parents that join, node 0 taking
//! over, numbers taken again within one commit and after it.

use super::blocks;
use super::images::{slim_image, valid_image};
use super::torn::tear;
use super::writer::Writer;
use crate::model::geometry::Geometry;
use crate::model::image::meaning;
use crate::model::tree::{Tree, FULL};
use crate::random::Random;

/// Entries up to which a delete brings a leaf below half full.
const HALF: usize = 8;
/// Updates of a commit at most.
const UPDATES: u32 = 16;

/// What an update is for.
#[derive(Clone, Copy)]
enum Aim {
    /// An insert of the next key in order, of one of a range, or of any.
    Grow,
    /// A delete of the least key, of the greatest, or of any.
    Shrink,
    /// A delete that joins two leaves.
    Join,
    /// A delete that moves an entry between two leaves.
    Move,
    /// An insert that splits a leaf.
    Split,
}

/// The aims of the updates of a commit: one for all, or two in turn.
const AIMS: [(Aim, Aim); 8] = [
    (Aim::Shrink, Aim::Shrink),
    (Aim::Shrink, Aim::Shrink),
    (Aim::Join, Aim::Join),
    (Aim::Join, Aim::Split),
    (Aim::Move, Aim::Join),
    (Aim::Move, Aim::Move),
    (Aim::Join, Aim::Grow),
    (Aim::Split, Aim::Shrink),
];

/// A leaf: its keys, and how many entries the neighbour has that it would look at; none for an only child.
struct Leaf {
    keys: Vec<u32>,
    beside: Option<usize>,
}

/// The leaves of a tree, parent by parent.
fn leaves(tree: &Tree) -> Vec<Leaf> {
    let keys = |number: u32| tree.node(number).entries.iter().map(|entry| entry.0).collect::<Vec<u32>>();
    if tree.node(0).level == 0 {
        return vec![Leaf { keys: keys(0), beside: None }];
    }
    let mut all = Vec::new();
    for parent in tree.nodes.iter().flatten().filter(|node| node.level == 1) {
        let counts: Vec<usize> = parent.entries.iter().map(|entry| tree.node(entry.1).entries.len()).collect();
        for (at, entry) in parent.entries.iter().enumerate() {
            let beside = counts.get(at + 1).or(counts.get(at.wrapping_sub(1)));
            all.push(Leaf { keys: keys(entry.1), beside: beside.copied() });
        }
    }
    all
}

/// A script under way, the tree that its updates are aimed by, and the way its keys go: rising, falling, or neither.
struct Aimed {
    writer: Writer,
    tree: Tree,
    way: u64,
    next: u32,
}

impl Aimed {
    /// A script whose store is on, aimed by what its image means.
    fn new(random: &mut Random, writer: Writer) -> Aimed {
        let mut aimed = Aimed { writer, tree: Tree::leaf(3), way: random.below(4), next: 0 };
        aimed.read();
        aimed
    }

    /// The tree as the image has it.
    fn read(&mut self) {
        let (geometry, image) = (self.writer.geometry(), self.writer.probe().image());
        if let Ok(means) = meaning(geometry, image, image.len() / geometry.block()) {
            self.tree = means.tree;
        }
    }

    /// Insert.
    fn insert(&mut self, key: u32, value: u32) -> u32 {
        let refusal = self.writer.insert(key, value);
        if refusal == 0 {
            self.tree.insert(key, value);
        }
        refusal
    }

    /// Delete.
    fn delete(&mut self, key: u32) {
        if self.writer.delete(key) == 0 {
            self.tree.delete(key);
        }
    }

    /// The next key to insert: in order, of a range, or any.
    fn fresh(&mut self, random: &mut Random) -> u32 {
        self.next += 1;
        match self.way {
            0 => self.next * 3,
            1 => u32::MAX - self.next * 3,
            2 => random.below(4000) as u32 * 9,
            _ => random.next() as u32,
        }
    }

    /// One of the keys present: the least, the greatest or any.
    fn stale(&self, random: &mut Random) -> u32 {
        let mut keys: Vec<u32> = leaves(&self.tree).into_iter().flat_map(|leaf| leaf.keys).collect();
        keys.sort_unstable();
        let at = match (self.way, random.below(8)) {
            (0, 1..) => 0,
            (1, 1..) => keys.len().saturating_sub(1),
            _ => random.index(keys.len()),
        };
        keys.get(at).copied().unwrap_or(0)
    }

    /// A key of a leaf that a delete brings below half full and whose entries, then, with the neighbour's pass a test; of the leaf with the
    /// fewest where there is none.
    fn beside(&self, random: &mut Random, test: impl Fn(usize) -> bool) -> u32 {
        let all: Vec<Leaf> = leaves(&self.tree).into_iter().filter(|leaf| !leaf.keys.is_empty()).collect();
        let passes = |leaf: &&Leaf| leaf.keys.len() <= HALF && leaf.beside.is_some_and(|beside| test(leaf.keys.len() - 1 + beside));
        let fit: Vec<&Leaf> = all.iter().filter(passes).collect();
        let leaf = fit.get(random.index(fit.len())).copied().or(all.iter().min_by_key(|leaf| leaf.keys.len()));
        leaf.map_or(0, |leaf| leaf.keys[random.index(leaf.keys.len())])
    }

    /// A key between two of the fullest leaf; any where there is none between.
    fn between(&self, random: &mut Random) -> u32 {
        let all = leaves(&self.tree);
        let fullest = all.iter().max_by_key(|leaf| leaf.keys.len());
        let gap = fullest.and_then(|leaf| leaf.keys.windows(2).max_by_key(|pair| pair[1] - pair[0]));
        match gap {
            Some(pair) if pair[1] - pair[0] > 1 => pair[0] + 1 + random.below(u64::from(pair[1] - pair[0] - 1)) as u32,
            _ => random.next() as u32,
        }
    }

    /// An update with an aim, and at times look ups of its key and of another.
    fn update(&mut self, random: &mut Random, aim: Aim) {
        let key = match aim {
            Aim::Grow => self.fresh(random),
            Aim::Shrink => self.stale(random),
            Aim::Join => self.beside(random, |sum| sum <= FULL),
            Aim::Move => self.beside(random, |sum| sum > FULL),
            Aim::Split => self.between(random),
        };
        match aim {
            Aim::Grow | Aim::Split => drop(self.insert(key, random.next() as u32)),
            _ => self.delete(key),
        }
        if random.once_in(2) {
            self.writer.look_up(key);
            let other = self.stale(random);
            self.writer.look_up(other.wrapping_add(random.below(2) as u32));
        }
    }

    /// A commit, one in four with any allowance, at times forecast before it; a store that is off is mounted.
    fn commit(&mut self, random: &mut Random) {
        if random.once_in(6) {
            self.writer.forecast();
        }
        let cut = random.once_in(4);
        if cut {
            tear(random, &mut self.writer);
        }
        let allowance = if cut { self.writer.allowance(random, 4) } else { self.writer.enough() };
        self.writer.commit(allowance);
        if random.once_in(6) {
            self.writer.check();
        }
        if !self.writer.is_on() || random.once_in(12) {
            self.writer.mount(255);
        }
        self.read();
    }

    /// Up to 16 updates with aims in turn, and a commit; at times a mount in its place.
    fn round(&mut self, random: &mut Random) {
        let (one, two) = AIMS[random.index(AIMS.len())];
        let updates = [1, 2, 4, UPDATES, UPDATES][random.index(5)];
        for at in 0..updates {
            self.update(random, if at % 2 == 0 { one } else { two });
        }
        if random.once_in(25) {
            self.writer.mount(255);
            self.read();
            return;
        }
        self.commit(random);
    }

    /// The nodes of the tree.
    fn nodes(&self) -> usize {
        self.tree.nodes.iter().flatten().count()
    }

    /// Commits of inserts until the tree has so many nodes or an insert is refused with 5.
    fn grow(&mut self, random: &mut Random, nodes: usize) {
        for at in 0..2500 {
            let key = if self.way < 2 || random.once_in(3) { self.fresh(random) } else { self.between(random) };
            let refusal = self.insert(key, at);
            if refusal == 3 || random.once_in(20) {
                self.writer.commit(self.writer.enough());
            }
            if refusal == 5 || self.nodes() >= nodes {
                break;
            }
        }
        self.commit(random);
    }
}

/// A list on a chip that a format began: it grows and is deleted again, twice or more.
fn formatted(random: &mut Random, geometry: Geometry) -> Writer {
    let mut writer = Writer::new(geometry);
    let blocks = blocks(random, geometry, &[3, 3, 3, 3, 4, 5, 8, 8, 16, 32]);
    writer.lend(blocks);
    writer.format(writer.enough());
    let mut aimed = Aimed::new(random, writer);
    let limit = 8 * blocks as usize;
    for _ in 0..1 + random.below(3) {
        let nodes = if random.once_in(2) { limit + 1 } else { 3 + random.index(limit) };
        aimed.grow(random, nodes);
        aimed.way = random.below(4);
        for _ in 0..20 + random.below(60) {
            aimed.round(random);
        }
    }
    aimed.writer
}

/// Lists on images that no format began: with few entries a node, or with freed numbers.
fn foreign(random: &mut Random, geometry: Geometry) -> Writer {
    let mut writer = Writer::new(geometry);
    for _ in 0..1 + random.below(5) {
        let image = if random.once_in(3) { valid_image(random, geometry) } else { slim_image(random, geometry) };
        writer.bring(&image);
        writer.mount(255);
        let mut aimed = Aimed::new(random, writer);
        for _ in 0..2 + random.below(12) {
            aimed.round(random);
        }
        writer = aimed.writer;
    }
    writer
}

/// A list of either kind; at its end a mount, a checksum and look ups.
pub fn make(random: &mut Random, geometry: Geometry) -> Vec<Vec<u8>> {
    let mut writer = if random.once_in(3) { foreign(random, geometry) } else { formatted(random, geometry) };
    writer.mount(255);
    writer.check();
    for key in 0..40 {
        writer.look_up(key * 3);
    }
    writer.reports();
    writer.lines()
}
