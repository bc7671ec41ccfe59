//! Thin trees: document 02, note 6.
use super::grow::{self, Lack, Measure};
use crate::model::tree::Tree;
use crate::random::Random;

/// Entries of the interior node that has too few of them.
const LACKS: [usize; 3] = [1, 2, 7];

/// A thin tree with a root at a level from 1 to 3. Node 0 alone has one entry, one other interior node alone has fewer than 8, or all
/// have few; the last where the numbers of the chip do not allow another.
pub fn tree(random: &mut Random, blocks: usize, level: u32) -> Tree {
    loop {
        let tree = match random.below(5) {
            0 | 1 => root_of_one(random, blocks, level),
            2 | 3 => one_thin_node(random, blocks, level),
            _ => None,
        };
        let tree = tree.unwrap_or_else(|| grow::few(random, blocks, level));
        if tree.thin() {
            return tree;
        }
    }
}

/// A tree of a measure in which one node lacks entries, of few nodes or of many; none when the chip has too few numbers.
fn lacking(random: &mut Random, blocks: usize, measure: Measure, level: u32, lack: Lack) -> Option<Tree> {
    let (least, most) = (measure.below(level), 8 * blocks - 1);
    if least > most {
        return None;
    }
    let most = if random.once_in(4) { most } else { least + random.index((most - least + 1).min(24)) };
    Some(grow::measured(random, blocks, measure, level, most, Some(lack)))
}

/// A tree in which node 0 alone is thin.
fn root_of_one(random: &mut Random, blocks: usize, level: u32) -> Option<Tree> {
    lacking(random, blocks, Measure { root: 1, ..Measure::THICK }, level, Lack { level, entries: 1 })
}

/// A tree in which one interior node other than node 0 alone is thin.
fn one_thin_node(random: &mut Random, blocks: usize, level: u32) -> Option<Tree> {
    let lack = Lack { level: 1 + random.below(level as u64 - 1) as u32, entries: LACKS[random.index(3)] };
    lacking(random, blocks, Measure::THICK, level, lack).filter(|_| level > 1)
}
