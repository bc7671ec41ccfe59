//! Step 6: the views are those of a tree whose root is node 0.

use super::view::{key_of, value_of, Stage, View};

/// The walk from node 0: the views of all nodes and which of them are reached.
struct Walk<'a> {
    views: &'a [View],
    seen: [bool; 256],
}

impl Walk<'_> {
    /// Whether node `number` is the top of a tree of level `level` with keys from `lo` to below `hi`, of nodes not reached before.
    fn visit(&mut self, level: u32, number: u32, lo: u32, hi: u64) -> bool {
        let views = self.views;
        let Some(view) = views.get(number as usize) else { return false };
        if view.stage != Stage::Full || view.level != level || self.seen[number as usize] {
            return false;
        }
        self.seen[number as usize] = true;
        let entries = view.entries();
        let (Some(&first), Some(&last)) = (entries.first(), entries.last()) else { return level == 0 };
        if key_of(first) < lo || u64::from(key_of(last)) >= hi {
            return false;
        }
        level == 0 || key_of(first) == lo && self.visit_all(level - 1, entries, hi)
    }

    /// Whether each entry leads to a tree of level `level` whose keys end where the next entry begins, the last one's at `hi`.
    fn visit_all(&mut self, level: u32, entries: &[u64], hi: u64) -> bool {
        entries.iter().enumerate().all(|(i, &e)| {
            let end = entries.get(i + 1).map_or(hi, |&next| u64::from(key_of(next)));
            self.visit(level, value_of(e), key_of(e), end)
        })
    }
}

/// Step 6 on the views of all nodes: each is reached from node 0 exactly once. What is freed is no node.
pub fn is_tree(views: &[View]) -> bool {
    let mut walk = Walk { views, seen: [false; 256] };
    let level = views[0].level;
    walk.visit(level, 0, 0, 1 << 32) && views.iter().zip(&walk.seen).all(|(v, &s)| s == (v.stage == Stage::Full))
}
