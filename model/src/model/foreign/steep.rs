//! Trees that are not thin and whose nodes are full on the path of one key, with few numbers left: where inserts meet refusal 5.
use super::grow::{apart, pick, Measure};
use crate::model::tree::thin::{INNER, ROOT};
use crate::model::tree::{Node, Tree, FULL};
use crate::random::Random;

/// A tree under way, with the numbers left for its nodes, and how many leaves it may have besides those it needs.
struct Steep<'a> {
    random: &'a mut Random,
    tree: Tree,
    numbers: Vec<u32>,
    more: usize,
    key: u32,
}

/// Nodes at and below a node other than node 0 that is full on one path.
fn path(level: u32) -> usize {
    1 + if level == 0 { 0 } else { (FULL - 1) * Measure::THICK.least(level - 1) + path(level - 1) }
}

/// Nodes of a tree of a root level with so many entries in node 0, full below it on one path.
fn size(level: u32, root: usize) -> usize {
    1 + if level == 0 { 0 } else { (root - 1) * Measure::THICK.least(level - 1) + path(level - 1) }
}

/// The most entries of node 0 at a level, where so many numbers are there; none where there are too few.
fn most(level: u32, limit: usize) -> Option<usize> {
    (ROOT..=FULL).rev().find(|root| size(level, *root) <= limit)
}

/// A tree full, or almost full, on the path of a key that it does not have, and that key. Node 0 is as full as the numbers allow.
pub fn tree(random: &mut Random, blocks: usize) -> (Tree, u32) {
    let limit = 8 * blocks;
    let highest = (0..4).rev().find(|level| most(*level, limit).is_some()).unwrap_or(0);
    let level = if random.once_in(3) { random.below(highest as u64 + 1) as u32 } else { highest };
    let root = most(level, limit).unwrap_or(FULL);
    let spare = random.index(9).min(limit - size(level, root));
    let mut numbers: Vec<u32> = (1..limit as u32).collect();
    random.shuffle(&mut numbers);
    let more = limit - size(level, root) - spare;
    let mut steep = Steep { random, tree: Tree { nodes: vec![None; limit] }, numbers, more, key: 0 };
    steep.full(0, level, (0, 1 << 32), root);
    (steep.tree, steep.key)
}

impl Steep<'_> {
    /// A number for a node.
    fn number(&mut self) -> u32 {
        self.numbers.pop().expect("a number for each node")
    }

    /// So many keys of a leaf or of a node above leaves.
    fn keys(&mut self, range: (u64, u64), first: Option<u32>, count: usize) -> Vec<u32> {
        loop {
            let mut keys = pick(self.random, range, count - first.is_some() as usize);
            keys.extend(first);
            if keys.len() == count {
                return keys.into_iter().collect();
            }
        }
    }

    /// A node of a full path with so many entries, or one less once in six times; its widest child lies on the path too.
    fn full(&mut self, number: u32, level: u32, range: (u64, u64), count: usize) {
        let less = (count == FULL && self.random.once_in(6)) as usize;
        if level == 0 {
            let keys = self.keys(range, None, count - less);
            let absent = |key: &u32| !keys.contains(key);
            self.key = pick(self.random, range, FULL + 1).into_iter().find(absent).unwrap_or(range.0 as u32);
            let entries = keys.into_iter().map(|key| (key, key ^ 1)).collect();
            self.tree.nodes[number as usize] = Some(Node { level, entries });
            return;
        }
        let keys = match level {
            1 => self.keys((range.0 + 1, range.1), Some(range.0 as u32), count - less),
            _ => apart(self.random, range, count - less).into_iter().collect(),
        };
        let end = |at: usize| keys.get(at + 1).map_or(range.1, |key| *key as u64);
        let widest = (0..keys.len()).max_by_key(|at| end(*at) - keys[*at] as u64).unwrap_or(0);
        let mut entries = Vec::new();
        for (at, key) in keys.iter().enumerate() {
            let child = self.number();
            entries.push((*key, child));
            if at == widest {
                self.full(child, level - 1, (*key as u64, end(at)), FULL);
            } else {
                self.side(child, level - 1, (*key as u64, end(at)));
            }
        }
        self.tree.nodes[number as usize] = Some(Node { level, entries });
    }

    /// A node beside the path with 8 entries, a leaf with one; above leaves it takes some of the further leaves.
    fn side(&mut self, number: u32, level: u32, range: (u64, u64)) {
        if level == 0 {
            let value = self.random.next() as u32;
            self.tree.nodes[number as usize] = Some(Node { level, entries: vec![(range.0 as u32, value)] });
            return;
        }
        let more = if level == 1 { self.more.min(FULL - INNER) } else { 0 };
        self.more -= more;
        let keys = apart(self.random, range, INNER + more);
        let entries: Vec<(u32, u32)> = keys.into_iter().map(|key| (key, self.number())).collect();
        self.tree.nodes[number as usize] = Some(Node { level, entries: entries.clone() });
        for (at, (key, child)) in entries.iter().enumerate() {
            let end = entries.get(at + 1).map_or(range.1, |next| next.0 as u64);
            self.side(*child, level - 1, (*key as u64, end));
        }
    }
}
