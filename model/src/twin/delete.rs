//! Delete: the entry is taken out of its leaf. A node with fewer than 8 entries joins its neighbour, or takes its nearest entry where both
//! have more than 16; node 0 takes over an only child.

use super::state::{State, BUFFER};
use super::unit::{Update, FREED};
use super::update::Spot;
use super::view::{key_of, value_of, View};

/// A node with fewer entries than this is thin.
const HALF: usize = 8;

/// Two neighbours with this many entries or fewer join.
const FULL: usize = 16;

/// Two neighbours under node `parent`: their entries there and their views.
struct Pair {
    parent: u32,
    left: u64,
    right: u64,
    xs: View,
    ys: View,
}

impl Pair {
    /// How many entries both have.
    fn both(&self) -> usize {
        self.xs.len + self.ys.len
    }
}

impl State {
    /// The entry of `key` taken out of P: the refusal, 2, 1, 3 or 4, 0 for none.
    pub fn delete(&mut self, image: &[u8], key: u32) -> u32 {
        if let Err(refusal) = self.admit_update(image) {
            return refusal;
        }
        if self.is_crowded() {
            return 4;
        }
        let mut way = self.way(image, key);
        let (leaf, view) = way.leaf();
        if view.lookup(key).is_none() {
            return 4;
        }
        view.delete(key);
        self.push_fitting(*leaf, Update::Delete(key));
        self.mend(image, way.spots(), key);
        self.pending += 1;
        0
    }

    /// The nodes of the way from the leaf upward: one that lost an entry and is thin looks at its neighbour. Then node 0 takes over an only child.
    fn mend(&mut self, image: &[u8], way: &mut [Spot], key: u32) {
        for i in (1..way.len()).rev() {
            if way[i].1.len >= HALF {
                break;
            }
            let (number, parent) = &mut way[i - 1];
            if i == 1 && parent.len == 2 {
                return self.merge_or_share(image, parent);
            }
            if !self.settle(image, *number, parent, key) {
                break;
            }
            parent.len -= 1;
        }
        let root = way[0].1;
        if root.len == 1 {
            self.take_over(image, root.level);
        }
    }

    /// The neighbours at `at` and behind it in the entries of node `number`.
    fn pair(&self, image: &[u8], number: u32, parent: &View, at: usize) -> Pair {
        let (left, right) = (parent.entries()[at], parent.entries()[at + 1]);
        let (xs, ys) = (self.view(image, value_of(left)), self.view(image, value_of(right)));
        Pair { parent: number, left, right, xs, ys }
    }

    /// The child for `key` and its right neighbour, or the left one if it is last: with 16 entries or fewer they join, with more one moves
    /// over. Whether the parent lost an entry.
    fn settle(&mut self, image: &[u8], number: u32, parent: &View, key: u32) -> bool {
        if parent.len < 2 {
            return false;
        }
        let pair = self.pair(image, number, parent, parent.place(key).min(parent.len - 2));
        if pair.both() > FULL {
            self.share(&pair);
            return false;
        }
        let fits = self.has_room(&pair, pair.ys.len + 2);
        if fits {
            self.join(&pair);
        }
        fits
    }

    /// Node 0 with two children, one of them thin: both into node 0 with 16 entries or fewer, with more one moves over.
    fn merge_or_share(&mut self, image: &[u8], root: &View) {
        let pair = self.pair(image, 0, root, 0);
        if pair.both() > FULL {
            self.share(&pair);
        } else if self.has_room(&pair, pair.both() + 3) {
            self.merge(root.level - 1, &pair);
        }
    }

    /// Whether so many units of these nodes have room, and their numbers fit in them.
    fn has_room(&self, pair: &Pair, units: usize) -> bool {
        let numbers = [pair.parent, value_of(pair.left), value_of(pair.right)];
        self.count + units <= BUFFER && numbers.iter().all(|&number| number < 65536)
    }

    /// Both go into the left one; the right one is freed, and the parent loses its entry.
    fn join(&mut self, pair: &Pair) {
        self.push_entries(value_of(pair.left), &pair.ys);
        self.release(value_of(pair.right));
        self.push(pair.parent, Update::Delete(key_of(pair.right)));
    }

    /// The nearest entry moves over, from the longer to the shorter; the parent's key for the right one becomes that one's least key.
    fn share(&mut self, pair: &Pair) {
        if !self.has_room(pair, 4) {
            return;
        }
        let (left, right) = (value_of(pair.left), value_of(pair.right));
        let (xs, ys) = (pair.xs.entries(), pair.ys.entries());
        let least = if xs.len() < ys.len() {
            self.push(left, Update::Insert(key_of(ys[0]), value_of(ys[0])));
            self.push(right, Update::Delete(key_of(ys[0])));
            key_of(ys[1])
        } else {
            let last = xs[xs.len() - 1];
            self.push(left, Update::Delete(key_of(last)));
            self.push(right, Update::Insert(key_of(last), value_of(last)));
            key_of(last)
        };
        self.push(pair.parent, Update::Delete(key_of(pair.right)));
        self.push(pair.parent, Update::Insert(least, right));
    }

    /// The only two children of node 0 join into node 0 itself, at their level; both are freed.
    fn merge(&mut self, level: u32, pair: &Pair) {
        self.push_node(0, level, pair.xs.entries());
        self.push_entries(0, &pair.ys);
        self.release(value_of(pair.left));
        self.release(value_of(pair.right));
    }

    /// While node 0 is above level 0 with one entry, it takes over level and entries of its child, which is freed.
    fn take_over(&mut self, image: &[u8], level: u32) {
        for _ in 0..level {
            let root = self.view(image, 0);
            let child = root.child(0);
            let view = self.view(image, child);
            if root.len != 1 || self.count + view.len + 2 > BUFFER || child >= 65536 {
                return;
            }
            self.push_node(0, view.level, view.entries());
            self.release(child);
        }
    }

    /// An insert of each entry of a view into node `number`.
    fn push_entries(&mut self, number: u32, view: &View) {
        for &e in view.entries() {
            self.push(number, Update::Insert(key_of(e), value_of(e)));
        }
    }

    /// Node `number` freed.
    fn release(&mut self, number: u32) {
        self.push(number, Update::Reset(FREED));
        self.free.put(number);
    }
}
