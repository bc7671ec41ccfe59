//! Thin trees and the records of a tree: document 02, note 6.
use super::Tree;

/// Entries of an interior node other than node 0 at least.
pub const INNER: usize = 8;
/// Entries of node 0 above level 0 at least.
pub const ROOT: usize = 2;

impl Tree {
    /// Whether an interior node other than node 0 has fewer than 8 entries, or node 0 above level 0 fewer than 2. Leaves may be thin.
    pub fn thin(&self) -> bool {
        let least = |number: usize| if number == 0 { ROOT } else { INNER };
        self.nodes.iter().enumerate().any(|(number, node)| {
            let interior = node.as_ref().filter(|node| node.level > 0);
            interior.is_some_and(|node| node.entries.len() < least(number))
        })
    }

    /// The records in key order: the entries of all leaves.
    pub fn records(&self) -> Vec<(u32, u32)> {
        let leaves = self.nodes.iter().flatten().filter(|node| node.level == 0);
        let mut records: Vec<(u32, u32)> = leaves.flat_map(|leaf| leaf.entries.iter().copied()).collect();
        records.sort_unstable();
        records
    }
}
