//! Insert: the entry goes to its leaf, and a node with 17 entries splits. New nodes take the least numbers that are not in use.

use super::state::{State, BUFFER};
use super::unit::Update;
use super::update::Spot;
use super::view::{entry, key_of, View};

/// How many numbers a node and those above it take, where it is to hold `len` entries and those above it take `need` if it splits.
fn needs(need: u32, number: u32, len: usize) -> u32 {
    match (len, number) {
        (0..=16, _) => 0,
        (_, 0) => 2,
        _ => need + 1,
    }
}

/// How many numbers the nodes of the way take, whose leaf holds the entry already.
fn all_needs(way: &[Spot]) -> u32 {
    let height = way.len() - 1;
    way.iter().enumerate().fold(0, |need, (i, (number, view))| needs(need, *number, view.len + usize::from(i < height)))
}

impl State {
    /// (key, value) inserted into P: the refusal, 2, 1, 3 or 5, 0 for none.
    pub fn insert(&mut self, image: &[u8], key: u32, value: u32) -> u32 {
        if let Err(refusal) = self.admit_update(image) {
            return refusal;
        }
        if self.is_crowded() {
            return 5;
        }
        let mut way = self.way(image, key);
        way.leaf().1.insert(key, value);
        if self.free.count() < all_needs(way.spots()) {
            return 5;
        }
        self.rise(way.spots(), key, value);
        self.pending += 1;
        0
    }

    /// The nodes of the way from the leaf upward: the leaf holds the entry, and each node above gains what its child gave up.
    fn rise(&mut self, way: &mut [Spot], key: u32, value: u32) {
        let mut gain = (key, value);
        for (level, (number, view)) in way.iter_mut().rev().enumerate() {
            if level > 0 {
                view.insert(gain.0, gain.1);
            }
            match self.hold(level as u32, *number, view, gain) {
                Some(next) => gain = next,
                None => return,
            }
        }
    }

    /// Node `number` is to hold the entries of `view`, with `gain` among them. Returns the entry that its parent gains, if any.
    fn hold(&mut self, level: u32, number: u32, view: &View, gain: (u32, u32)) -> Option<(u32, u32)> {
        if view.len <= 16 {
            self.push_fitting(number, Update::Insert(gain.0, gain.1));
            return None;
        }
        if number == 0 {
            self.raise(level, view);
            return None;
        }
        self.halve(level, number, view)
    }

    /// Node 0 splits: the 9 go to the least number, the 8 to the next least, and node 0 becomes one level higher.
    fn raise(&mut self, level: u32, view: &View) {
        if self.count > BUFFER - 22 {
            return;
        }
        let (low, high) = (self.free.take_least(), self.free.take_least());
        let (first, second) = view.entries().split_at(9);
        self.push_node(low, level, first);
        self.push_node(high, level, second);
        self.push_node(0, level + 1, &[entry(0, low), entry(key_of(second[0]), high)]);
    }

    /// Another node splits: the 9 stay, and the 8 go to the least number. Returns the entry that its parent gains.
    fn halve(&mut self, level: u32, number: u32, view: &View) -> Option<(u32, u32)> {
        if number >= 65536 || self.count > BUFFER - 19 {
            return None;
        }
        let least = self.free.take_least();
        let (first, second) = view.entries().split_at(9);
        self.push_node(number, level, first);
        self.push_node(least, level, second);
        Some((key_of(second[0]), least))
    }
}
