//! A tree rebuilt from its records: node 0 is the root, then come the leaves, then the interior nodes, each level's numbers rising from
//! left to right, with as few nodes as can be, as even as can be.

use super::view::{entry, key_of, value_of, Stage, View};

/// The most entries of a node.
const FULL: usize = 16;

/// The records of the tree under a node behind those that are there, in key order.
fn gather(views: &[View], number: u32, records: &mut Vec<u64>) {
    let view = &views[number as usize];
    match view.level {
        0 => records.extend(view.entries()),
        _ => view.entries().iter().for_each(|&e| gather(views, value_of(e), records)),
    }
}

/// The entries put into nodes of a level, numbered from `first` on. Returns the entries for these nodes one level higher: a node's key is
/// the least one under it, the first one's 0.
fn lay(views: &mut [View], level: u32, first: u32, entries: &[u64]) -> Vec<u64> {
    let (nodes, mut rest, mut above) = (entries.len().div_ceil(FULL), entries, Vec::new());
    for i in 0..nodes {
        let (own, others) = rest.split_at(rest.len() / (nodes - i));
        let (number, key) = (first + i as u32, if i == 0 { 0 } else { key_of(own[0]) });
        views[number as usize] = View::node(level, own);
        above.push(entry(key, number));
        rest = others;
    }
    above
}

/// The views of a tree made those of its records laid anew. Every other number that has units is freed.
pub fn lay_anew(views: &mut [View]) {
    let mut entries = Vec::new();
    gather(views, 0, &mut entries);
    views.iter_mut().filter(|view| view.stage != Stage::Untouched).for_each(|view| *view = View::FREED);
    let (mut level, mut first) = (0, 1);
    while entries.len() > FULL {
        entries = lay(views, level, first, &entries);
        first += entries.len() as u32;
        level += 1;
    }
    views[0] = View::node(level, &entries);
}
