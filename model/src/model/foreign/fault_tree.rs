//! Faults of the tree: step 6 of document 01, each with refusal 9.
use super::grow::pick;
use crate::model::tree::{Node, Tree, FULL};
use crate::random::Random;

/// A maker of a fault in a tree.
type Maker = fn(&mut Tree, &mut Random) -> bool;

/// Faults of step 6: name, maker.
pub const FAULTS: &[(&str, Maker)] = &[
    ("6: node 0 without a reset", no_root),
    ("6: empty root above level 0", empty_root),
    ("6: empty inner node", empty_inner),
    ("6: value without a reset", value_absent),
    ("6: value of 8 B or more", value_high),
    ("6: value 0", value_root),
    ("6: child's level too low", child_low),
    ("6: child's level equal", child_equal),
    ("6: leaf's level too high", leaf_high),
    ("6: root's first key not 0", root_first_key),
    ("6: first key above the low bound", first_above),
    ("6: first key below the low bound", first_below),
    ("6: leaf key below the low bound", leaf_below),
    ("6: leaf key at the end", leaf_at_end),
    ("6: last leaf's key at its parent's end", last_leaf_at_end),
    ("6: inner key at the end", inner_at_end),
    ("6: node reached twice", reached_twice),
    ("6: node reached twice from two parents", reached_from_two),
    ("6: node never reached", never_reached),
    ("6: inner node never reached", inner_never_reached),
];

/// A node's number and its keys' range.
#[derive(Clone, Copy)]
struct Place {
    number: usize,
    low: u64,
    end: u64,
    /// Whether the end is its parent's end too.
    last: bool,
}

/// All nodes of a valid tree with their ranges.
fn places(tree: &Tree) -> Vec<Place> {
    let mut all = vec![Place { number: 0, low: 0, end: 1 << 32, last: true }];
    let mut at = 0;
    while at < all.len() {
        let place = all[at];
        let node = tree.node(place.number as u32);
        for (i, (key, value)) in node.entries.iter().enumerate().filter(|_| node.level > 0) {
            let next = node.entries.get(i + 1).map(|entry| entry.0 as u64);
            all.push(Place { number: *value as usize, low: *key as u64, end: next.unwrap_or(place.end), last: next.is_none() });
        }
        at += 1;
    }
    all
}

/// A node drawn from those that pass a test on place and node.
fn drawn(tree: &Tree, random: &mut Random, test: impl Fn(&Place, &Node) -> bool) -> Option<Place> {
    let all: Vec<Place> = places(tree).into_iter().filter(|place| test(place, tree.node(place.number as u32))).collect();
    (!all.is_empty()).then(|| all[random.index(all.len())])
}

/// A number below 8 B without a reset.
fn unused(tree: &Tree, random: &mut Random) -> Option<usize> {
    let all: Vec<usize> = (1..tree.nodes.len()).filter(|number| tree.nodes[*number].is_none()).collect();
    (!all.is_empty()).then(|| all[random.index(all.len())])
}

/// The node of a number, to be changed.
fn node(tree: &mut Tree, number: usize) -> &mut Node {
    tree.nodes[number].as_mut().expect("a node of the tree")
}

/// Adds an entry to an inner node of a level or more that has room, as its last child; answers the key's place.
fn add_child(tree: &mut Tree, random: &mut Random, level: u32, value: usize) -> bool {
    let fits = |place: &Place, node: &Node| {
        let last = node.entries.last().map_or(0, |entry| entry.0 as u64);
        node.level >= level && node.entries.len() < FULL && last + 1 < place.end
    };
    let Some(place) = drawn(tree, random, fits) else { return false };
    let inner = node(tree, place.number);
    let last = inner.entries.last().map_or(0, |entry| entry.0 as u64);
    let child = inner.entries.last().map_or(0, |entry| entry.1 as usize);
    let Some(key) = pick(random, (last + 1, place.end), 1).into_iter().next() else { return false };
    inner.put(key, value as u32);
    // Keys of the former last child that lie above its end fall away when it is a leaf.
    let former = node(tree, child);
    let clean = former.entries.iter().all(|entry| entry.0 < key);
    if former.level == 0 {
        former.entries.retain(|entry| entry.0 < key);
    }
    clean || node(tree, child).level == 0
}

/// Adds a child of a level below an inner node of another level.
fn add_node(tree: &mut Tree, random: &mut Random, inner: u32, child: Node) -> bool {
    let Some(number) = unused(tree, random) else { return false };
    if !add_child(tree, random, inner, number) {
        return false;
    }
    tree.nodes[number] = Some(child);
    true
}

/// Fault of step 6: node 0 without a reset.
fn no_root(tree: &mut Tree, random: &mut Random) -> bool {
    let Some(number) = unused(tree, random) else { return false };
    tree.nodes[number] = tree.nodes[0].take();
    true
}

/// Fault of step 6: empty root above level 0.
fn empty_root(tree: &mut Tree, random: &mut Random) -> bool {
    tree.nodes.fill(None);
    tree.nodes[0] = Some(Node::empty(1 + random.below(3) as u32));
    true
}

/// An empty inner node below a root of level 2 made for it; the first child is whole.
fn empty_inner(tree: &mut Tree, _: &mut Random) -> bool {
    if tree.nodes[0].as_ref().is_some_and(|root| root.level != 2 || root.entries.len() == FULL) {
        return false;
    }
    let Some(number) = tree.nodes.iter().position(Option::is_none) else { return false };
    let last = node(tree, 0).entries.last().map_or(0, |entry| entry.0);
    let end = deepest_key(tree).max(last);
    if end == u32::MAX {
        return false;
    }
    node(tree, 0).put(end + 1, number as u32);
    tree.nodes[number] = Some(Node::empty(1));
    true
}

/// The greatest key of any node.
fn deepest_key(tree: &Tree) -> u32 {
    tree.nodes.iter().flatten().flat_map(|node| node.entries.iter().map(|entry| entry.0)).max().unwrap_or(0)
}

/// Adds an entry to an inner node whose value names no node.
fn value_absent(tree: &mut Tree, random: &mut Random) -> bool {
    unused(tree, random).is_some_and(|number| add_child(tree, random, 1, number))
}

/// Fault of step 6: value of 8 B or more.
fn value_high(tree: &mut Tree, random: &mut Random) -> bool {
    let limit = tree.nodes.len();
    let value = [limit, limit + 1, 65536, u32::MAX as usize, 1 << 16 | 1][random.index(5)];
    add_child(tree, random, 1, value)
}

/// Fault of step 6: value 0.
fn value_root(tree: &mut Tree, random: &mut Random) -> bool {
    add_child(tree, random, 1, 0)
}

/// A leaf directly below an inner node of level 2 or 3.
fn child_low(tree: &mut Tree, random: &mut Random) -> bool {
    add_node(tree, random, 2, Node::empty(0))
}

/// A child of the level of its parent, with an empty leaf of its own.
fn child_equal(tree: &mut Tree, random: &mut Random) -> bool {
    let Some(place) = drawn(tree, random, |place, node| node.level == 0 && place.number != 0) else { return false };
    let Some(leaf) = unused(tree, random) else { return false };
    tree.nodes[leaf] = Some(Node::empty(0));
    *node(tree, place.number) = Node { level: 1, entries: vec![(place.low as u32, leaf as u32)] };
    true
}

/// A leaf that tells a level above 0.
fn leaf_high(tree: &mut Tree, random: &mut Random) -> bool {
    let Some(place) = drawn(tree, random, |place, node| node.level == 0 && place.number != 0) else { return false };
    node(tree, place.number).level = 1 + random.below(3) as u32;
    true
}

/// Moves the first key of an inner node up by one, where its first child is a leaf that keeps its keys above.
fn raise_first(tree: &mut Tree, place: Place) -> bool {
    let (key, child) = node(tree, place.number).entries[0];
    let next = node(tree, place.number).entries.get(1).map_or(place.end, |entry| entry.0 as u64);
    if key as u64 + 1 >= next {
        return false;
    }
    node(tree, place.number).entries[0].0 = key + 1;
    node(tree, child as usize).take(key);
    true
}

/// Fault of step 6: root's first key not 0.
fn root_first_key(tree: &mut Tree, random: &mut Random) -> bool {
    drawn(tree, random, |place, node| node.level == 1 && place.number == 0).is_some_and(|place| raise_first(tree, place))
}

/// Fault of step 6: first key above the low bound.
fn first_above(tree: &mut Tree, random: &mut Random) -> bool {
    drawn(tree, random, |place, node| node.level == 1 && place.number != 0).is_some_and(|place| raise_first(tree, place))
}

/// Fault of step 6: first key below the low bound.
fn first_below(tree: &mut Tree, random: &mut Random) -> bool {
    let Some(place) = drawn(tree, random, |place, node| node.level == 1 && place.low > 0) else { return false };
    node(tree, place.number).entries[0].0 -= 1;
    true
}

/// Puts a key into a leaf, in place of one of its entries if it is full.
fn put_key(tree: &mut Tree, number: usize, key: u32) -> bool {
    let leaf = node(tree, number);
    if leaf.entries.len() == FULL {
        leaf.entries.remove(7);
    }
    leaf.put(key, 1);
    true
}

/// Fault of step 6: leaf key below the low bound.
fn leaf_below(tree: &mut Tree, random: &mut Random) -> bool {
    let Some(place) = drawn(tree, random, |place, node| node.level == 0 && place.low > 0) else { return false };
    let key = if random.once_in(2) { place.low - 1 } else { random.below(place.low) };
    put_key(tree, place.number, key as u32)
}

/// Puts a key at or above the end into a leaf that is, or is not, its parent's last child.
fn at_end(tree: &mut Tree, random: &mut Random, last: bool) -> bool {
    let fits = |place: &Place, node: &Node| node.level == 0 && place.end < 1 << 32 && place.last == last;
    let Some(place) = drawn(tree, random, fits) else { return false };
    put_key(tree, place.number, place.end as u32)
}

/// Fault of step 6: leaf key at the end.
fn leaf_at_end(tree: &mut Tree, random: &mut Random) -> bool {
    at_end(tree, random, false)
}

/// Fault of step 6: last leaf's key at its parent's end.
fn last_leaf_at_end(tree: &mut Tree, random: &mut Random) -> bool {
    at_end(tree, random, true)
}

/// An inner node of level 1 gains an empty leaf at its end.
fn inner_at_end(tree: &mut Tree, random: &mut Random) -> bool {
    let fits = |place: &Place, node: &Node| node.level == 1 && place.end < 1 << 32 && node.entries.len() < FULL;
    let (Some(place), Some(number)) = (drawn(tree, random, fits), unused(tree, random)) else { return false };
    node(tree, place.number).put(place.end as u32, number as u32);
    tree.nodes[number] = Some(Node::empty(0));
    true
}

/// An empty leaf that its parent names twice.
fn reached_twice(tree: &mut Tree, random: &mut Random) -> bool {
    let fits = |place: &Place, node: &Node| node.level == 1 && node.entries.len() < FULL && place.end - place.low > 40;
    let Some(place) = drawn(tree, random, fits) else { return false };
    let (last, child) = *node(tree, place.number).entries.last().expect("an entry of an inner node");
    if last as u64 + 1 >= place.end {
        return false;
    }
    node(tree, place.number).put(last + 1, child);
    node(tree, child as usize).entries.clear();
    true
}

/// An empty leaf that two parents name: the one that stood there becomes the first parent's.
fn reached_from_two(tree: &mut Tree, random: &mut Random) -> bool {
    let parents: Vec<Place> = places(tree).into_iter().filter(|place| tree.node(place.number as u32).level == 1).collect();
    if parents.len() < 2 {
        return false;
    }
    let one = parents[random.index(parents.len())];
    let two = parents[random.index(parents.len())];
    let child = node(tree, one.number).entries[0].1;
    let full = node(tree, two.number).entries.len() == FULL;
    let last = node(tree, two.number).entries.last().map_or(0, |entry| entry.0);
    if one.number == two.number || full || last as u64 + 1 >= two.end {
        return false;
    }
    node(tree, child as usize).entries.clear();
    let former = node(tree, two.number).entries.last().map_or(0, |entry| entry.1);
    node(tree, former as usize).entries.retain(|entry| entry.0 <= last);
    node(tree, two.number).put(last + 1, child);
    true
}

/// Fault of step 6: node never reached.
fn never_reached(tree: &mut Tree, random: &mut Random) -> bool {
    let Some(number) = unused(tree, random) else { return false };
    tree.nodes[number] = Some(Node::empty(0));
    true
}

/// An inner node with a leaf of its own that nothing reaches.
fn inner_never_reached(tree: &mut Tree, random: &mut Random) -> bool {
    let Some(leaf) = unused(tree, random) else { return false };
    tree.nodes[leaf] = Some(Node::empty(0));
    let Some(inner) = unused(tree, random) else { return false };
    tree.nodes[inner] = Some(Node { level: 1, entries: vec![(0, leaf as u32)] });
    true
}
