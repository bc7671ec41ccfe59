//! Joins after deletes, note 1 of document 02: the tree step, images with freed nodes, numbers used again, and look up's lengths.
mod cases;
mod images;
mod numbers;

use model::model::tree::{Node, Tree};

/// A node given by number, level and entries.
type Given = (usize, u32, Vec<(u32, u32)>);

/// A tree of nodes given, on a chip of 3 blocks.
fn tree(nodes: &[Given]) -> Tree {
    let mut all = vec![None; 24];
    for (number, level, entries) in nodes {
        all[*number] = Some(Node { level: *level, entries: entries.clone() });
    }
    Tree { nodes: all }
}

/// So many entries of a leaf from a key on, with values above the keys by 1,000.
fn leaf(first: u32, count: u32) -> Vec<(u32, u32)> {
    (first..first + count).map(|key| (key, key + 1000)).collect()
}

/// The numbers of a tree's nodes.
fn numbers(tree: &Tree) -> Vec<usize> {
    (0..tree.nodes.len()).filter(|number| tree.nodes[*number].is_some()).collect()
}
