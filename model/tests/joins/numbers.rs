//! The numbers of new nodes: the least ones free or unused, from the leaf upward.
use super::{leaf, numbers, tree};
use model::model::tree::Tree;

/// A split takes the least number that is free or unused, not the one after the greatest.
#[test]
fn a_split_takes_the_least_number() {
    let mut tree = tree(&[(0, 1, vec![(0, 9), (100, 4)]), (9, 0, leaf(0, 16)), (4, 0, leaf(100, 16))]);
    assert!(tree.insert(50, 1) && tree.insert(150, 1));
    assert_eq!(tree.node(0).entries, [(0, 9), (9, 1), (100, 4), (109, 2)]);
    assert_eq!(numbers(&tree), [0, 1, 2, 4, 9]);
}

/// The split of node 0 takes the two least numbers, the smaller for the 9.
#[test]
fn node_0_takes_the_two_least() {
    let entries: Vec<(u32, u32)> = (0..16).map(|at| (at * 100, if at < 2 { at + 1 } else { at + 2 })).collect();
    let mut nodes = vec![(0, 1, entries.clone())];
    nodes.extend(entries.iter().map(|(key, number)| (*number as usize, 0, leaf(*key, 1))));
    nodes[1].2 = leaf(0, 16);
    let mut tree = tree(&nodes);
    assert!(tree.insert(50, 1));
    assert_eq!(tree.node(3).entries, leaf(9, 7).into_iter().chain([(50, 1)]).collect::<Vec<_>>());
    assert_eq!(tree.node(0).entries, [(0, 18), (800, 19)]);
    assert_eq!((tree.node(0).level, tree.node(18).entries.len(), tree.node(19).entries.len()), (2, 9, 8));
}

/// A number freed by a join is taken again by the next split.
#[test]
fn a_freed_number_is_taken_again() {
    let mut tree = Tree::leaf(3);
    assert!((1..=26).all(|key| tree.insert(key, key)));
    assert_eq!(numbers(&tree), [0, 1, 2, 3]);
    assert!(tree.delete(1) && tree.delete(2));
    assert_eq!(numbers(&tree), [0, 1, 3]);
    assert_eq!(tree.node(1).entries.len(), 16);
    assert!(tree.insert(1, 1));
    assert_eq!(numbers(&tree), [0, 1, 2, 3]);
    assert_eq!(tree.node(2).entries.len(), 8);
}

/// Node 0 takes over its child, and its split takes both numbers freed again.
#[test]
fn numbers_of_both_children_are_taken_again() {
    let mut tree = Tree::leaf(3);
    assert!((1..=17).all(|key| tree.insert(key, key)));
    assert!(tree.delete(17));
    assert_eq!((numbers(&tree), tree.node(0).entries.len()), (vec![0], 16));
    assert!(tree.insert(18, 18));
    assert_eq!(numbers(&tree), [0, 1, 2]);
    assert_eq!(tree.node(0).entries, [(0, 1), (10, 2)]);
}

/// With all numbers given, an insert that splits is refused until joins have freed as many as it needs.
#[test]
fn refusal_until_a_join() {
    let mut tree = Tree::leaf(3);
    let mut key = 0;
    while tree.insert(key, key) {
        key += 1;
    }
    assert_eq!(numbers(&tree).len(), 24);
    let full = tree.clone();
    assert!(!tree.insert(key, key));
    assert_eq!(tree, full);
    assert!(tree.delete(0) && tree.delete(1));
    assert_eq!(numbers(&tree).len(), 23);
    assert!(tree.insert(key, key));
    assert_eq!(numbers(&tree).len(), 24);
}

/// An insert that needs two numbers is refused with one left, and changes nothing.
#[test]
fn one_number_is_too_few_for_two() {
    let mut nodes = vec![(0, 2, vec![(0, 1), (1 << 20, 2)]), (2, 1, vec![(1 << 20, 3)]), (3, 0, leaf(1 << 20, 1))];
    nodes.push((1, 1, (0..16).map(|at| (at * 100, 4 + at)).collect()));
    nodes.extend((0..16).map(|at| (4 + at as usize, 0, leaf(at * 100, if at == 5 { 16 } else { 1 }))));
    nodes.extend([(20, 0, vec![]), (21, 0, vec![]), (22, 0, vec![])]);
    nodes[1].2.extend([(1 << 21, 20), (1 << 22, 21), (1 << 23, 22)]);
    let mut tree = tree(&nodes);
    assert_eq!(numbers(&tree).len(), 23);
    let before = tree.clone();
    assert!(!tree.insert(550, 1));
    assert_eq!(tree, before);
    tree.nodes[22] = None;
    tree.nodes[2].as_mut().unwrap().take(1 << 23);
    assert!(tree.insert(550, 1));
    assert_eq!(numbers(&tree).len(), 24);
}
