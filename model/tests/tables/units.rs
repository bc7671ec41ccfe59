//! The units of delete and insert on a table, as they are defined.
use super::steps::{both, child, crown, gain, insert_at, least, neighbours, remove_at, settle, Two};
use super::{anew, entries, root_level, Entry, Node, Table};
use model::twin::unit::{Update, FREED};

/// A node number and an update.
pub type Unit = (u32, Update);

/// An entry inserted into a node.
fn inserted(number: u32, entry: Entry) -> Unit {
    (number, Update::Insert(entry.0, entry.1))
}

/// A node written anew.
fn written(number: u32, level: u32, entries: &[Entry]) -> Vec<Unit> {
    let node = Node { level, entries: entries.to_vec() };
    anew(&node).into_iter().map(|update| (number, update)).collect()
}

/// A node freed.
fn freed(number: u32) -> Unit {
    (number, Update::Reset(FREED))
}

/// Neighbours join, or an entry moves over.
fn settle_units(table: &Table, parent: u32, two: &Two) -> Vec<Unit> {
    let Two { left: (_, a), right: (key, b), .. } = *two;
    let (xs, ys) = (entries(table, a), entries(table, b));
    let lose = (parent, Update::Delete(key));
    if xs.len() + ys.len() <= 16 {
        return ys.iter().map(|&entry| inserted(a, entry)).chain([freed(b), lose]).collect();
    }
    let above = |least| (parent, Update::Insert(least, b));
    if xs.len() < ys.len() {
        return vec![inserted(a, ys[0]), (b, Update::Delete(ys[0].0)), lose, above(ys[1].0)];
    }
    let last = xs[xs.len() - 1];
    vec![(a, Update::Delete(last.0)), inserted(b, last), lose, above(last.0)]
}

/// The neighbours that a child looks at which lost an entry, if it does.
fn looks(table: &Table, parent: u32, child: u32, key: u32) -> Option<Two> {
    (entries(table, child).len() < 8).then(|| neighbours(key, entries(table, parent)))?
}

/// A key taken out below a node of a level.
fn remove_units_at(table: &Table, level: u32, number: u32, key: u32) -> Vec<Unit> {
    if level == 0 {
        return vec![(number, Update::Delete(key))];
    }
    let below = child(table, number, key);
    let (mut units, mut after) = (remove_units_at(table, level - 1, below, key), table.clone());
    if remove_at(&mut after, level - 1, below, key) {
        units.extend(looks(&after, number, below, key).into_iter().flat_map(|two| settle_units(&after, number, &two)));
    }
    units
}

/// Node 0 takes over its child, again and again.
fn crown_units(table: &Table, level: u32) -> Vec<Unit> {
    if level == 0 || entries(table, 0).len() != 1 {
        return Vec::new();
    }
    let (below, mut after) = (child(table, 0, 0), table.clone());
    let units = written(0, level - 1, entries(table, below));
    let taken = after.remove(&below).unwrap();
    after.insert(0, taken);
    units.into_iter().chain([freed(below)]).chain(crown_units(&after, level - 1)).collect()
}

/// What is done at node 0 behind a delete below it, which left `table`.
fn top_units(table: &Table, level: u32, below: u32, key: u32, lost: bool) -> Vec<Unit> {
    let two = if lost { looks(table, 0, below, key) } else { None };
    let Some(two) = two else { return crown_units(table, level + 1) };
    if entries(table, 0).len() == 2 && both(table, &two).len() <= 16 {
        return written(0, level, &both(table, &two)).into_iter().chain([freed(two.left.1), freed(two.right.1)]).collect();
    }
    let mut after = table.clone();
    settle(&mut after, level, 0, Some(two));
    settle_units(table, 0, &two).into_iter().chain(crown_units(&after, level + 1)).collect()
}

/// The units of a delete: where the two children of node 0 join, node 0 is written at once.
pub fn brief_units(table: &Table, key: u32) -> Vec<Unit> {
    let Some(level) = root_level(table).checked_sub(1) else { return remove_units_at(table, 0, 0, key) };
    let (below, mut after) = (child(table, 0, key), table.clone());
    let units = remove_units_at(table, level, below, key);
    let lost = remove_at(&mut after, level, below, key);
    units.into_iter().chain(top_units(&after, level, below, key, lost)).collect()
}

/// The units of a delete that writes each joined node first.
pub fn remove_units(table: &Table, key: u32) -> Vec<Unit> {
    let (level, mut after) = (root_level(table), table.clone());
    let units = remove_units_at(table, level, 0, key);
    remove_at(&mut after, level, 0, key);
    let crowned = crown_units(&after, level);
    crown(&mut after, level);
    units.into_iter().chain(crowned).collect()
}

/// A node of a level gains an entry.
fn gain_units(table: &Table, level: u32, number: u32, entry: Entry) -> Vec<Unit> {
    let mut after = table.clone();
    let new = least(table);
    let gains = gain(&mut after, level, number, entry);
    match (gains, number) {
        (Some((_, high)), _) => [written(number, level, entries(&after, number)), written(high, level, entries(&after, high))].concat(),
        (None, 0) if root_level(&after) > level => {
            let two = entries(&after, 0).to_vec();
            assert_eq!(new, two[0].1);
            let halves = two.iter().flat_map(|half| written(half.1, level, entries(&after, half.1)));
            halves.chain(written(0, level + 1, &two)).collect()
        }
        _ => vec![inserted(number, entry)],
    }
}

/// An entry inserted below a node of a level.
fn insert_units_at(table: &Table, level: u32, number: u32, entry: Entry) -> Vec<Unit> {
    if level == 0 {
        return gain_units(table, 0, number, entry);
    }
    let below = child(table, number, entry.0);
    let (mut units, mut after) = (insert_units_at(table, level - 1, below, entry), table.clone());
    if let Some(gains) = insert_at(&mut after, level - 1, below, entry) {
        units.extend(gain_units(&after, level, number, gains));
    }
    units
}

/// The units of an insert.
pub fn insert_units(table: &Table, entry: Entry) -> Vec<Unit> {
    insert_units_at(table, root_level(table), 0, entry)
}

/// A table after these units.
pub fn after(table: &Table, units: &[Unit]) -> Table {
    let mut after = table.clone();
    for &(number, update) in units {
        match update {
            Update::Reset(FREED) => drop(after.remove(&number)),
            Update::Reset(level) => drop(after.insert(number, Node { level, entries: Vec::new() })),
            Update::Delete(key) => after.get_mut(&number).unwrap().entries.retain(|entry| entry.0 != key),
            Update::Insert(key, value) => {
                let entries = &mut after.get_mut(&number).unwrap().entries;
                match entries.binary_search_by_key(&key, |entry| entry.0) {
                    Ok(at) => entries[at].1 = value,
                    Err(at) => entries.insert(at, (key, value)),
                }
                assert!(entries.len() <= 16);
            }
        }
    }
    after
}
