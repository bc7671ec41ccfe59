//! Delete with the joins of document 02, note 1: nodes below half full join a neighbour or take an entry of it.
use super::{Tree, FULL};

/// Entries below which a node looks at a neighbour.
const HALF: usize = 8;

/// Two neighbours under one parent, by number, and where the parent's entry of the right one is.
#[derive(Clone, Copy)]
struct Pair {
    parent: u32,
    left: u32,
    right: u32,
    entry: usize,
}

impl Tree {
    /// Deletes a key, with the joins that follow; tells whether it was there.
    pub fn delete(&mut self, key: u32) -> bool {
        let path = self.path(key);
        if !self.node_mut(path[path.len() - 1]).take(key) {
            return false;
        }
        self.fill(&path);
        self.lower();
        true
    }

    /// The rule for the last node of a path, which lost an entry: not node 0 and with fewer than 8 entries, it joins the neighbour
    /// or takes an entry of it. A parent that lost an entry follows the same rule.
    fn fill(&mut self, path: &[u32]) {
        let [above @ .., number] = path else { return };
        let Some(parent) = above.last() else { return };
        if self.node(*number).entries.len() >= HALF {
            return;
        }
        let Some(pair) = self.pair(*parent, *number) else { return };
        if self.node(pair.left).entries.len() + self.node(pair.right).entries.len() <= FULL {
            self.join(pair);
            self.fill(above);
        } else {
            self.shift(pair, pair.left == *number);
        }
    }

    /// A node and its right neighbour under its parent, or the left one if it is last; none without a neighbour.
    fn pair(&self, parent: u32, number: u32) -> Option<Pair> {
        let entries = &self.node(parent).entries;
        let at = entries.iter().position(|entry| entry.1 == number).expect("a child of its parent");
        let last = at + 1 == entries.len();
        let entry = if last { at } else { at + 1 };
        let left = entries.get(entry.checked_sub(1)?)?.1;
        Some(Pair { parent, left, right: entries[entry].1, entry })
    }

    /// Both go into the left one; the right number is freed, and the parent loses its entry.
    fn join(&mut self, pair: Pair) {
        let right = self.nodes[pair.right as usize].take().expect("a child of its parent");
        self.node_mut(pair.left).entries.extend(right.entries);
        self.node_mut(pair.parent).entries.remove(pair.entry);
    }

    /// The neighbour's nearest entry moves over, to the left or to the right one; the parent's key for the right one becomes that
    /// one's least key.
    fn shift(&mut self, pair: Pair, to_left: bool) {
        if to_left {
            let moved = self.node_mut(pair.right).entries.remove(0);
            self.node_mut(pair.left).entries.push(moved);
        } else {
            let moved = self.node_mut(pair.left).entries.pop().expect("a neighbour of 10 entries or more");
            self.node_mut(pair.right).entries.insert(0, moved);
        }
        let least = self.node(pair.right).entries[0].0;
        self.node_mut(pair.parent).entries[pair.entry].0 = least;
    }

    /// While node 0 is above level 0 with one entry, it takes over its child, which is freed.
    fn lower(&mut self) {
        while self.node(0).level > 0 && self.node(0).entries.len() == 1 {
            let child = self.node(0).entries[0].1;
            self.nodes[0] = self.nodes[child as usize].take();
        }
    }
}
