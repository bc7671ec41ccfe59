//! Deletes of the twin that join nodes, move an entry over or let node 0 take over its child: the nodes that they leave, by hand.
mod tables;

use model::twin::geometry::SMALL;
use model::twin::state::State;
use model::twin::unit::{decode, node_of, Update, FREED};
use tables::{leaf, node, store_of, table_of, Entry, Node, Table};

/// A table of these nodes.
fn table(nodes: &[(u32, Node)]) -> Table {
    nodes.iter().cloned().collect()
}

/// The units of the buffer.
fn pushed(state: &State) -> Vec<(u32, Update)> {
    state.buffered().iter().map(|unit| (node_of(unit), decode(unit, state.limit()).unwrap())).collect()
}

/// The units of a delete from a table, which leaves another one.
fn deleted(before: &Table, key: u32, after: &Table) -> Vec<(u32, Update)> {
    let (mut state, image) = store_of(SMALL, 32, before);
    assert_eq!(state.delete(&image, key), 0);
    assert_eq!(&table_of(&state, &image), after);
    pushed(&state)
}

/// Three leaves of 8 keys under node 0, the middle one with another number of keys.
fn three(middle: u32) -> Table {
    let root = node(1, &[(0, 1), (100, 2), (200, 3)]);
    table(&[(0, root), (1, leaf(0..8)), (2, leaf(100..100 + middle)), (3, leaf(200..208))])
}

/// Without some keys.
fn without(node: &Node, keys: &[u32]) -> Node {
    Node { level: node.level, entries: node.entries.iter().copied().filter(|entry| !keys.contains(&entry.0)).collect() }
}

/// With some entries at its end.
fn with(node: &Node, more: &[Entry]) -> Node {
    Node { level: node.level, entries: [&node.entries, more].concat() }
}

/// A leaf joins its right neighbour, which is freed.
#[test]
fn join_to_the_right() {
    let joined = without(&with(&leaf(0..8), &leaf(100..109).entries), &[3]);
    let after = table(&[(0, node(1, &[(0, 1), (200, 3)])), (1, joined), (3, leaf(200..208))]);
    let units = deleted(&three(9), 3, &after);
    assert_eq!((units[0], units[1]), ((1, Update::Delete(3)), (1, Update::Insert(100, 100))));
    assert_eq!(units[10..], [(2, Update::Reset(FREED)), (0, Update::Delete(100))]);
}

/// The last leaf joins its left neighbour and is freed itself.
#[test]
fn join_to_the_left() {
    let joined = without(&with(&leaf(100..109), &leaf(200..208).entries), &[207]);
    let after = table(&[(0, node(1, &[(0, 1), (100, 2)])), (1, leaf(0..8)), (2, joined)]);
    let units = deleted(&three(9), 207, &after);
    assert_eq!((units[0], units[1]), ((3, Update::Delete(207)), (2, Update::Insert(200, 200))));
    assert_eq!(units[8..], [(3, Update::Reset(FREED)), (0, Update::Delete(200))]);
}

/// The first entry of the right neighbour moves over, and the parent's key for it becomes its least key.
#[test]
fn move_from_the_right() {
    let first = without(&with(&leaf(0..8), &[(100, 100)]), &[7]);
    let after = table(&[(0, node(1, &[(0, 1), (101, 2), (200, 3)])), (1, first), (2, leaf(101..110)), (3, leaf(200..208))]);
    let units = deleted(&three(10), 7, &after);
    let moved = [(1, Update::Insert(100, 100)), (2, Update::Delete(100)), (0, Update::Delete(100)), (0, Update::Insert(101, 2))];
    assert_eq!((units[0], &units[1..]), ((1, Update::Delete(7)), &moved[..]));
}

/// The last entry of the left neighbour moves over, and the parent's key for the right one becomes that key.
#[test]
fn move_from_the_left() {
    let last = Node { level: 0, entries: [&[(109, 109)], &leaf(201..208).entries[..]].concat() };
    let after = table(&[(0, node(1, &[(0, 1), (100, 2), (109, 3)])), (1, leaf(0..8)), (2, leaf(100..109)), (3, last)]);
    let units = deleted(&three(10), 200, &after);
    let moved = [(2, Update::Delete(109)), (3, Update::Insert(109, 109)), (0, Update::Delete(200)), (0, Update::Insert(109, 3))];
    assert_eq!((units[0], &units[1..]), ((3, Update::Delete(200)), &moved[..]));
}

/// With 8 entries left nothing more happens, and nothing to an only child with fewer, where node 0 has two.
#[test]
fn nothing_more() {
    let mut after = three(9);
    after.insert(2, leaf(101..109));
    assert_eq!(deleted(&three(9), 100, &after), [(2, Update::Delete(100))]);
    let only = table(&[
        (0, node(2, &[(0, 1), (500, 2)])),
        (1, node(1, &[(0, 3)])),
        (2, node(1, &[(500, 4)])),
        (3, leaf(0..3)),
        (4, leaf(500..503)),
    ]);
    let mut after = only.clone();
    after.insert(3, leaf(0..2));
    assert_eq!(deleted(&only, 2, &after), [(3, Update::Delete(2))]);
}

/// Two leaves, of which the first is thin after a delete, join into node 0 at once; both are freed.
#[test]
fn two_leaves_become_node_0() {
    let before = table(&[(0, node(1, &[(0, 5), (100, 2)])), (5, leaf(0..8)), (2, leaf(100..108))]);
    let units = deleted(&before, 0, &table(&[(0, with(&leaf(1..8), &leaf(100..108).entries))]));
    assert_eq!((units[0], units[1]), ((5, Update::Delete(0)), (0, Update::Reset(0))));
    assert_eq!((units.len(), &units[17..]), (19, &[(5, Update::Reset(FREED)), (2, Update::Reset(FREED))][..]));
}

/// A node above the leaves with children of 8 keys each, from a key and a number on, and these.
fn stem(table: &mut Table, number: u32, children: u32) -> Entry {
    let key = |i| 1000 * number + 100 * i;
    table.insert(number, Node { level: 1, entries: (0..children).map(|i| (key(i), number + 1 + i)).collect() });
    (0..children).for_each(|i| drop(table.insert(number + 1 + i, leaf(key(i)..key(i) + 8))));
    (key(0), number)
}

/// A parent that lost an entry joins its neighbour too, here into node 0.
#[test]
fn parents_join() {
    let mut before = Table::new();
    let (first, second) = (stem(&mut before, 10, 8), stem(&mut before, 20, 8));
    before.get_mut(&10).unwrap().entries[0].0 = 0;
    before.insert(0, node(2, &[(0, first.1), second]));
    let mut after = before.clone();
    let entries = [&before[&10].entries[..1], &before[&10].entries[2..], &before[&20].entries].concat();
    after.insert(11, without(&with(&before[&11], &before[&12].entries), &[10005]));
    after.insert(0, Node { level: 1, entries });
    after.retain(|number, _| ![10, 12, 20].contains(number));
    let units = deleted(&before, 10005, &after);
    assert_eq!(units.len(), 1 + 10 + 1 + 15 + 2);
}

/// A parent that lost an entry takes one of its neighbour, with the child that it names.
#[test]
fn parents_share() {
    let mut before = Table::new();
    let (first, second) = (stem(&mut before, 10, 8), stem(&mut before, 20, 10));
    before.get_mut(&10).unwrap().entries[0].0 = 0;
    before.insert(0, node(2, &[(0, first.1), second]));
    let mut after = before.clone();
    after.insert(11, without(&with(&before[&11], &before[&12].entries), &[10005]));
    after.remove(&12);
    after.insert(10, with(&without(&before[&10], &[10100]), &before[&20].entries[..1]));
    after.insert(20, Node { level: 1, entries: before[&20].entries[1..].to_vec() });
    after.insert(0, node(2, &[(0, 10), (20100, 20)]));
    assert_eq!(deleted(&before, 10005, &after).len(), 1 + 10 + 4);
}

/// Node 0 takes over its child and then that one's, down to the leaf.
#[test]
fn node_0_takes_over_again_and_again() {
    let before = table(&[(0, node(3, &[(0, 3)])), (3, node(2, &[(0, 2)])), (2, node(1, &[(0, 1)])), (1, leaf(4..7))]);
    let units = deleted(&before, 5, &table(&[(0, without(&leaf(4..7), &[5]))]));
    let free = |number| (number, Update::Reset(FREED));
    let over = [(0, Update::Reset(2)), (0, Update::Insert(0, 2)), free(3), (0, Update::Reset(1)), (0, Update::Insert(0, 1)), free(2)];
    let last = [(0, Update::Reset(0)), (0, Update::Insert(4, 4)), (0, Update::Insert(6, 6)), free(1)];
    assert_eq!(units, [&[(1, Update::Delete(5))], &over[..], &last[..]].concat());
}

/// A tree whose delete has the most units, 57: leaves join, their parents join, and node 0 takes over two levels.
#[test]
fn most_units() {
    let mut before = Table::new();
    let second = stem(&mut before, 100, 15);
    before.insert(0, node(3, &[(0, 1)]));
    before.insert(1, node(2, &[(0, 2), second]));
    before.insert(2, node(1, &[(0, 3), (50, 4)]));
    before.insert(3, leaf(7..8));
    before.insert(4, leaf(50..66));
    let (mut after, upper) = (before.clone(), before[&100].entries.clone());
    after.retain(|number, _| ![1, 2, 4, 100].contains(number));
    after.insert(3, leaf(50..66));
    after.insert(0, Node { level: 1, entries: [&[(0, 3)], &upper[..]].concat() });
    assert_eq!(deleted(&before, 7, &after).len(), 57);
}
