//! Delete and insert on a table, as they are defined.
use super::{entries, root_level, Entry, Node, Table};

/// The child of a node for a key.
pub fn child(table: &Table, number: u32, key: u32) -> u32 {
    entries(table, number).iter().rev().find(|entry| entry.0 <= key).map_or(0, |entry| entry.1)
}

/// Two neighbours under one parent: the place of the left one among the parent's entries, and both entries.
#[derive(Clone, Copy)]
pub struct Two {
    pub at: usize,
    pub left: Entry,
    pub right: Entry,
}

/// The child of a key and its right neighbour, or the left one if it is last; none where it is alone.
pub fn neighbours(key: u32, entries: &[Entry]) -> Option<Two> {
    let last = entries.len().checked_sub(2)?;
    let at = (0..last).find(|&at| key < entries[at + 1].0).unwrap_or(last);
    Some(Two { at, left: entries[at], right: entries[at + 1] })
}

/// The entries of both neighbours.
pub fn both(table: &Table, two: &Two) -> Vec<Entry> {
    [entries(table, two.left.1), entries(table, two.right.1)].concat()
}

/// A table with another node for a number.
fn put(table: &mut Table, number: u32, level: u32, entries: Vec<Entry>) {
    table.insert(number, Node { level, entries });
}

/// Neighbours of a level under a parent join. Whether the parent lost an entry.
pub fn settle(table: &mut Table, level: u32, parent: u32, two: Option<Two>) -> bool {
    let Some(two) = two else { return false };
    let (all, mut above) = (both(table, &two), entries(table, parent).to_vec());
    let (x, y) = (entries(table, two.left.1).len(), entries(table, two.right.1).len());
    if x + y <= 16 {
        put(table, two.left.1, level, all);
        table.remove(&two.right.1);
        above.remove(two.at + 1);
        put(table, parent, level + 1, above);
        return true;
    }
    let stay = if x < y { x + 1 } else { x - 1 };
    put(table, two.left.1, level, all[..stay].to_vec());
    put(table, two.right.1, level, all[stay..].to_vec());
    above[two.at + 1] = (all[stay].0, two.right.1);
    put(table, parent, level + 1, above);
    false
}

/// A key taken out below a node of a level. Whether that node lost an entry.
pub fn remove_at(table: &mut Table, level: u32, number: u32, key: u32) -> bool {
    if level == 0 {
        let left = entries(table, number).iter().copied().filter(|entry| entry.0 != key).collect();
        put(table, number, 0, left);
        return true;
    }
    let below = child(table, number, key);
    if !remove_at(table, level - 1, below, key) || entries(table, below).len() >= 8 {
        return false;
    }
    let two = neighbours(key, entries(table, number));
    settle(table, level - 1, number, two)
}

/// While node 0 is above level 0 with one entry, it takes over its child.
pub fn crown(table: &mut Table, level: u32) {
    if level > 0 && entries(table, 0).len() == 1 {
        let below = child(table, 0, 0);
        let taken = table.remove(&below).unwrap();
        table.insert(0, taken);
        crown(table, level - 1);
    }
}

/// A delete.
pub fn remove(table: &Table, key: u32) -> Table {
    let (mut after, level) = (table.clone(), root_level(table));
    remove_at(&mut after, level, 0, key);
    crown(&mut after, level);
    after
}

/// The least number without a node.
pub fn least(table: &Table) -> u32 {
    (0..).find(|number| !table.contains_key(number)).unwrap()
}

/// A node of a level gains an entry. What its parent gains, if anything.
pub fn gain(table: &mut Table, level: u32, number: u32, entry: Entry) -> Option<Entry> {
    let mut all = entries(table, number).to_vec();
    match all.binary_search_by_key(&entry.0, |e| e.0) {
        Ok(at) => all[at] = entry,
        Err(at) => all.insert(at, entry),
    }
    if all.len() <= 16 {
        put(table, number, level, all);
        return None;
    }
    let (low, middle) = (if number == 0 { least(table) } else { number }, all[9].0);
    put(table, low, level, all[..9].to_vec());
    let high = least(table);
    put(table, high, level, all[9..].to_vec());
    if number == 0 {
        put(table, 0, level + 1, vec![(0, low), (middle, high)]);
        return None;
    }
    Some((middle, high))
}

/// An entry inserted below a node of a level. What the parent of that node gains, if anything.
pub fn insert_at(table: &mut Table, level: u32, number: u32, entry: Entry) -> Option<Entry> {
    if level == 0 {
        return gain(table, 0, number, entry);
    }
    let below = child(table, number, entry.0);
    let gains = insert_at(table, level - 1, below, entry)?;
    gain(table, level, number, gains)
}

/// An insert; none where a number of `limit` or more is needed.
pub fn insert(table: &Table, limit: u32, entry: Entry) -> Option<Table> {
    let mut after = table.clone();
    insert_at(&mut after, root_level(table), 0, entry);
    let fits = after.keys().all(|&number| number < limit);
    fits.then_some(after)
}
