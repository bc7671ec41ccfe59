//! Deletes on trees made by hand: joins and moves each way, parents, node 0 taking over, only children.
use super::{leaf, numbers, tree};
use model::model::tree::Tree;

/// A root of level 1 over leaves 1, 2 and 3 with entries from keys 0, 100 and 200 on.
fn three(counts: [u32; 3]) -> Tree {
    let root = vec![(0, 1), (100, 2), (200, 3)];
    tree(&[(0, 1, root), (1, 0, leaf(0, counts[0])), (2, 0, leaf(100, counts[1])), (3, 0, leaf(200, counts[2]))])
}

/// The keys of a node.
fn keys(tree: &Tree, number: u32) -> Vec<u32> {
    tree.node(number).entries.iter().map(|entry| entry.0).collect()
}

/// A leaf of 7 and its right neighbour of 9 go into the leaf; the right number is freed.
#[test]
fn join_to_the_right() {
    let mut tree = three([8, 9, 12]);
    assert!(tree.delete(3));
    assert_eq!(numbers(&tree), [0, 1, 3]);
    assert_eq!(tree.node(0).entries, [(0, 1), (200, 3)]);
    assert_eq!(tree.node(1).entries, [&leaf(0, 3)[..], &leaf(4, 4), &leaf(100, 9)].concat());
    assert_eq!(tree.node(3).entries, leaf(200, 12));
}

/// The first leaf looks to the right even if the other two would join.
#[test]
fn a_leaf_looks_at_its_right_neighbour_alone() {
    let mut tree = three([4, 8, 12]);
    assert!(tree.delete(107));
    assert_eq!(numbers(&tree), [0, 1, 2, 3]);
    assert_eq!(tree.node(2).entries, [leaf(100, 7), leaf(200, 1)].concat());
}

/// The last leaf and its left neighbour go into the left one; its own number is freed.
#[test]
fn join_to_the_left() {
    let mut tree = three([12, 9, 8]);
    assert!(tree.delete(207));
    assert_eq!(numbers(&tree), [0, 1, 2]);
    assert_eq!(tree.node(0).entries, [(0, 1), (100, 2)]);
    assert_eq!(tree.node(2).entries, [leaf(100, 9), leaf(200, 7)].concat());
}

/// Together 17: the right neighbour's least entry moves over, and the parent's key for it becomes its new least key.
#[test]
fn move_from_the_right() {
    let mut tree = three([8, 10, 12]);
    assert!(tree.delete(0));
    assert_eq!(numbers(&tree), [0, 1, 2, 3]);
    assert_eq!(tree.node(0).entries, [(0, 1), (101, 2), (200, 3)]);
    assert_eq!(tree.node(1).entries, [leaf(1, 7), leaf(100, 1)].concat());
    assert_eq!(tree.node(2).entries, leaf(101, 9));
}

/// Together 17: the left neighbour's greatest entry moves over to the last leaf, whose key in the parent becomes the moved one.
#[test]
fn move_from_the_left() {
    let mut tree = three([12, 10, 8]);
    assert!(tree.delete(200));
    assert_eq!(numbers(&tree), [0, 1, 2, 3]);
    assert_eq!(tree.node(0).entries, [(0, 1), (100, 2), (109, 3)]);
    assert_eq!(tree.node(2).entries, leaf(100, 9));
    assert_eq!(tree.node(3).entries, [leaf(109, 1), leaf(201, 7)].concat());
}

/// One entry moves even where the leaf has far fewer than 8 after it.
#[test]
fn one_entry_moves() {
    let mut tree = three([2, 16, 3]);
    assert!(tree.delete(0));
    assert_eq!((keys(&tree, 1), tree.node(2).entries.len()), (vec![1, 100], 15));
}

/// The key of a leaf's right neighbour becomes that one's least key, also where it was below it.
#[test]
fn the_key_becomes_the_least() {
    let root = vec![(0, 1), (50, 2)];
    let mut tree = tree(&[(0, 1, root), (1, 0, leaf(0, 8)), (2, 0, leaf(100, 16))]);
    assert!(tree.delete(7));
    assert_eq!(tree.node(0).entries, [(0, 1), (101, 2)]);
}

/// With 8 entries left nothing happens, nor after the delete of an absent key.
#[test]
fn eight_entries_stay() {
    let mut tree = three([9, 2, 3]);
    assert!(tree.delete(0));
    assert_eq!(numbers(&tree), [0, 1, 2, 3]);
    let before = tree.clone();
    assert!(!tree.delete(0) && !tree.delete(150));
    assert_eq!(tree, before);
}

/// An emptied leaf joins too, even a full neighbour.
#[test]
fn an_empty_leaf_joins() {
    let mut tree = three([9, 1, 16]);
    assert!(tree.delete(100));
    assert_eq!(numbers(&tree), [0, 1, 2]);
    assert_eq!(tree.node(0).entries, [(0, 1), (100, 2)]);
    assert_eq!(tree.node(2).entries, leaf(200, 16));
}

/// Node 0 as a leaf has no neighbour.
#[test]
fn node_0_as_a_leaf() {
    let mut tree = tree(&[(0, 0, leaf(5, 2))]);
    assert!(tree.delete(5) && tree.delete(6));
    assert_eq!(tree, Tree::leaf(3));
}

/// A level 2 root over nodes 1 and 2 with so many leaves each, of 8 entries; leaves are numbered from 3 on in key order.
fn two_parents(left: u32, right: u32) -> Tree {
    let children = |first: u32, count: u32| (first..first + count).map(|at| (at * 100, 3 + at)).collect::<Vec<_>>();
    let mut nodes = vec![(0, 2, vec![(0, 1), (left * 100, 2)]), (1, 1, children(0, left)), (2, 1, children(left, right))];
    nodes.extend((0..left + right).map(|at| (3 + at as usize, 0, leaf(at * 100, 8))));
    tree(&nodes)
}

/// Leaves join, their parent is left with 7 and joins its right neighbour, and node 0 takes over the one child left.
#[test]
fn a_parent_that_joins_too() {
    let mut tree = two_parents(8, 9);
    assert!(tree.delete(0));
    assert_eq!(tree.node(0).level, 1);
    assert_eq!(tree.node(0).entries.len(), 16);
    assert_eq!(tree.node(0).entries[..3], [(0, 3), (200, 5), (300, 6)]);
    assert_eq!(tree.nodes[1..3], [None, None]);
    assert_eq!(tree.nodes[4], None);
    assert_eq!(tree.node(3).entries, [leaf(1, 7), leaf(100, 8)].concat());
}

/// The last parent joins its left neighbour.
#[test]
fn a_last_parent_that_joins_too() {
    let mut tree = two_parents(9, 8);
    assert!(tree.delete(1600));
    assert_eq!(tree.node(0).level, 1);
    assert_eq!(tree.node(0).entries.len(), 16);
    assert_eq!(tree.node(0).entries[15], (1500, 18));
    assert_eq!(tree.nodes[19], None);
}

/// A parent of 7 takes the first entry of a right neighbour of 10; the key for that one in node 0 becomes its least.
#[test]
fn an_entry_moves_to_a_parent_from_the_right() {
    let mut tree = two_parents(8, 10);
    assert!(tree.delete(0));
    assert_eq!(tree.node(0).entries, [(0, 1), (900, 2)]);
    assert_eq!(tree.node(1).entries[6..], [(700, 10), (800, 11)]);
    assert_eq!(tree.node(2).entries[0], (900, 12));
}

/// A last parent of 7 takes the last entry of a left neighbour of 10.
#[test]
fn an_entry_moves_to_a_parent_from_the_left() {
    let mut tree = two_parents(10, 8);
    assert!(tree.delete(1700));
    assert_eq!(tree.node(0).entries, [(0, 1), (900, 2)]);
    assert_eq!(tree.node(1).entries.len(), 9);
    assert_eq!(tree.node(2).entries[..2], [(900, 12), (1000, 13)]);
}

/// A parent that lost no entry stays, even with fewer than 8 of them.
#[test]
fn a_parent_that_lost_nothing_stays() {
    let nodes = [
        (0, 2, vec![(0, 1), (1000, 2)]),
        (1, 1, vec![(0, 3), (100, 4)]),
        (2, 1, vec![(1000, 5)]),
        (3, 0, leaf(0, 8)),
        (4, 0, leaf(100, 12)),
        (5, 0, leaf(1000, 2)),
    ];
    let mut tree = tree(&nodes);
    assert!(tree.delete(0));
    assert_eq!(numbers(&tree), [0, 1, 2, 3, 4, 5]);
    assert_eq!(tree.node(1).entries, [(0, 3), (101, 4)]);
}

/// A leaf without a neighbour stays; its parent lost nothing.
#[test]
fn an_only_child_stays() {
    let nodes = [
        (0, 2, vec![(0, 1), (1000, 2)]),
        (1, 1, vec![(0, 3)]),
        (2, 1, vec![(1000, 5), (1500, 6)]),
        (3, 0, leaf(0, 2)),
        (5, 0, leaf(1000, 2)),
        (6, 0, leaf(1500, 2)),
    ];
    let mut tree = tree(&nodes);
    assert!(tree.delete(0) && tree.delete(1));
    assert_eq!(numbers(&tree), [0, 1, 2, 3, 5, 6]);
    assert!(tree.node(3).entries.is_empty());
}

/// A root of level 3 with chains of one entry below it, and at their end two leaves.
fn chain() -> Tree {
    let nodes = [(0, 3, vec![(0, 7)]), (7, 2, vec![(0, 4)]), (4, 1, vec![(0, 9), (50, 2)]), (9, 0, leaf(0, 3)), (2, 0, leaf(50, 3))];
    tree(&nodes)
}

/// Node 0 with one entry takes over its child, and that one's child, after any delete; also where the last join is below them.
#[test]
fn node_0_takes_over_until_it_has_two_entries_or_is_a_leaf() {
    let mut tree = chain();
    assert!(tree.delete(1));
    assert_eq!(numbers(&tree), [0]);
    assert_eq!((tree.node(0).level, keys(&tree, 0)), (0, vec![0, 2, 50, 51, 52]));
}

/// Node 0 takes over two levels where the leaves stay as they are.
#[test]
fn node_0_takes_over_two_levels_without_a_join() {
    let mut tree = chain();
    tree.nodes[9].as_mut().unwrap().entries = leaf(0, 12);
    assert!(!tree.delete(13));
    assert_eq!(tree.node(0).level, 3);
    assert!(tree.delete(11));
    assert_eq!(numbers(&tree), [0, 2, 9]);
    assert_eq!((tree.node(0).level, &tree.node(0).entries), (1, &vec![(0, 9), (50, 2)]));
}

/// Two parents of one leaf each join, and node 0 takes over two levels.
#[test]
fn a_join_of_parents_and_two_levels() {
    let nodes = [
        (0, 2, vec![(0, 1), (1000, 2)]),
        (1, 1, vec![(0, 3), (100, 4)]),
        (2, 1, vec![(1000, 5)]),
        (3, 0, leaf(0, 3)),
        (4, 0, leaf(100, 3)),
        (5, 0, leaf(1000, 9)),
    ];
    let mut tree = tree(&nodes);
    assert!(tree.delete(0));
    assert_eq!(numbers(&tree), [0, 3, 5]);
    assert_eq!((tree.node(0).level, &tree.node(0).entries), (1, &vec![(0, 3), (1000, 5)]));
    assert!(tree.delete(1000));
    assert_eq!(numbers(&tree), [0, 3, 5]);
    assert!(tree.delete(1));
    assert_eq!((numbers(&tree), tree.node(0).entries.len()), (vec![0], 12));
}
