//! Random trees that obey step 6: any levels, any keys, node numbers in any order and with gaps.
use crate::model::tree::thin::{INNER, ROOT};
use crate::model::tree::{Node, Tree, FULL};
use crate::random::Random;
use std::collections::BTreeSet;

/// Entries of a leaf of a tree with few of them at most.
const FEW: usize = 9;

/// Entries that the nodes of a tree have: node 0 above level 0 and the other interior nodes at least, interior nodes and leaves at most.
#[derive(Clone, Copy)]
pub struct Measure {
    pub root: usize,
    pub inner: usize,
    pub children: usize,
    pub entries: usize,
}

impl Measure {
    /// Any tree.
    const ANY: Measure = Measure { root: 1, inner: 1, children: FULL, entries: FULL };
    /// Any tree that is not thin.
    pub const THICK: Measure = Measure { root: ROOT, inner: INNER, children: FULL, entries: FULL };

    /// The nodes of the smallest tree below and at a node of a level other than node 0.
    pub fn least(self, level: u32) -> usize {
        1 + if level == 0 { 0 } else { self.inner * self.least(level - 1) }
    }

    /// The nodes below node 0 at a level at least.
    pub fn below(self, level: u32) -> usize {
        if level == 0 {
            return 0;
        }
        self.root * self.least(level - 1)
    }

    /// The highest level of a root, where so many nodes may be below it.
    pub fn highest(self, most: usize) -> u32 {
        (0..4).rev().find(|level| self.below(*level) <= most).unwrap_or(0)
    }
}

/// An interior node of a level that gets so many entries, fewer than the others.
#[derive(Clone, Copy)]
pub struct Lack {
    pub level: u32,
    pub entries: usize,
}

/// A tree under way: the nodes so far and the numbers that are left.
struct Growth<'a> {
    random: &'a mut Random,
    tree: Tree,
    numbers: Vec<u32>,
    measure: Measure,
    lack: Option<Lack>,
}

/// A random tree on a chip of a number of blocks, thin or not.
pub fn tree(random: &mut Random, blocks: usize) -> Tree {
    let most = if random.once_in(3) { 8 * blocks - 1 } else { random.index(8 * blocks) };
    let level = random.below(4).min(most as u64) as u32;
    measured(random, blocks, Measure::ANY, level, most, None)
}

/// A random tree that is not thin.
pub fn thick(random: &mut Random, blocks: usize) -> Tree {
    grown(random, blocks, Measure::THICK, 0)
}

/// A random tree above level 0 that is not thin and whose nodes have few entries each.
pub fn slim(random: &mut Random, blocks: usize) -> Tree {
    let children = INNER + random.index(3);
    grown(random, blocks, Measure { children, entries: FEW, ..Measure::THICK }, 1)
}

/// A random tree of a measure and of a level that is not below one, of few nodes or of many.
fn grown(random: &mut Random, blocks: usize, measure: Measure, lowest: u32) -> Tree {
    let highest = measure.highest(8 * blocks - 1);
    let level = lowest + random.below((highest - lowest) as u64 + 1) as u32;
    let least = measure.below(level);
    let most = if random.once_in(3) { 8 * blocks - 1 } else { least + random.index(8 * blocks - least) };
    measured(random, blocks, measure, level, most, None)
}

/// A tree of a measure and a level, so many nodes below node 0 at most; one node may lack entries.
pub fn measured(random: &mut Random, blocks: usize, measure: Measure, level: u32, most: usize, lack: Option<Lack>) -> Tree {
    let limit = 8 * blocks;
    let mut numbers: Vec<u32> = (1..limit as u32).collect();
    random.shuffle(&mut numbers);
    let mut growth = Growth { random, tree: Tree { nodes: vec![None; limit] }, numbers, measure, lack };
    growth.node(0, level, (0, 1 << 32), most);
    growth.tree
}

/// A random tree above level 0 whose nodes have few entries each, inner ones often one.
pub fn few(random: &mut Random, blocks: usize, level: u32) -> Tree {
    let children = 2 + random.index(3);
    measured(random, blocks, Measure { children, entries: FEW, ..Measure::ANY }, level, 8 * blocks - 1, None)
}

impl Growth<'_> {
    /// Grows the node of a number at a level with keys in a range; at most a number of nodes, its least or more, below it.
    fn node(&mut self, number: u32, level: u32, range: (u64, u64), most: usize) {
        if level == 0 {
            let most = self.measure.entries;
            let count = if self.random.once_in(4) { most } else { self.random.index(most + 1) };
            let keys = pick(self.random, range, count);
            let entries = keys.into_iter().map(|key| (key, self.random.next() as u32)).collect();
            self.tree.nodes[number as usize] = Some(Node { level, entries });
            return;
        }
        let each = self.measure.least(level - 1);
        let keys: Vec<u32> = self.keys(number, level, range, most / each).into_iter().collect();
        let shares = self.shares(keys.len(), each, most);
        let mut entries = Vec::new();
        for (at, key) in keys.iter().enumerate() {
            let end = keys.get(at + 1).map_or(range.1, |next| *next as u64);
            let child = self.numbers.pop().expect("a number for each node");
            entries.push((*key, child));
            self.node(child, level - 1, (*key as u64, end), shares[at] - 1);
        }
        self.tree.nodes[number as usize] = Some(Node { level, entries });
    }

    /// The keys of an interior node, at most a number of them: the low bound, and others in its range. Where its children need
    /// entries of their own, they lie apart.
    fn keys(&mut self, number: u32, level: u32, range: (u64, u64), most: usize) -> BTreeSet<u32> {
        let least = if number == 0 { self.measure.root } else { self.measure.inner };
        let here = self.lack.is_some_and(|lack| lack.level == level) && (number == 0 || self.random.once_in(3));
        let (least, count) = match self.lack.take_if(|_| here) {
            Some(lack) => (lack.entries, lack.entries),
            None => (least, least + self.random.index(self.measure.children.min(most) - least + 1)),
        };
        if level > 1 && self.measure.inner > 1 {
            return apart(self.random, range, count);
        }
        loop {
            let mut keys = pick(self.random, (range.0 + 1, range.1), count - 1);
            keys.insert(range.0 as u32);
            if keys.len() >= least {
                return keys;
            }
        }
    }

    /// Shares a number of nodes among children: each at least as many as it needs.
    fn shares(&mut self, children: usize, least: usize, most: usize) -> Vec<usize> {
        let mut shares = vec![least; children];
        let mut left = most.saturating_sub(children * least);
        while left > 0 {
            let part = 1 + self.random.index(left);
            let at = self.random.index(children);
            shares[at] += part;
            left -= part;
        }
        shares
    }
}

/// So many keys of a wide range, the first its low bound, with room between them.
pub fn apart(random: &mut Random, range: (u64, u64), count: usize) -> BTreeSet<u32> {
    let width = (range.1 - range.0) / count as u64;
    let key = |at: usize| (range.0 + at as u64 * width + if at == 0 { 0 } else { random.below(width / 2) }) as u32;
    (0..count).map(key).collect()
}

/// Up to a number of keys in a range: near its low bound, near its end, or anywhere.
pub fn pick(random: &mut Random, range: (u64, u64), count: usize) -> BTreeSet<u32> {
    let mut keys = BTreeSet::new();
    let (low, end) = range;
    for _ in 0..3 * count {
        if low >= end || keys.len() == count {
            break;
        }
        let near = random.below(24).min(end - low - 1);
        let key = match random.below(6) {
            0 => low + near,
            1 => end - 1 - near,
            _ => low + random.below(end - low),
        };
        keys.insert(key as u32);
    }
    keys
}
