//! Which trees are thin.
use super::{thin_chip, Hand};
use crate::hand::{data, reply};
use model::model::frame::Frame;
use model::model::tree::{Node, Tree};
use model::model::unit::Deed;

/// A root of a level whose nodes have so many entries, from the root down; the leaves have one.
fn tree(counts: &[usize]) -> Tree {
    let mut nodes = vec![None];
    let mut layer = vec![(0usize, 0u64, 1u64 << 32)];
    for (at, count) in counts.iter().enumerate() {
        let mut next = Vec::new();
        for (number, low, end) in layer {
            let width = (end - low) / *count as u64;
            let mut entries = Vec::new();
            for child in 0..*count as u64 {
                entries.push(((low + child * width) as u32, nodes.len() as u32));
                next.push((nodes.len(), low + child * width, low + (child + 1) * width));
                nodes.push(None);
            }
            nodes[number] = Some(Node { level: (counts.len() - at) as u32, entries });
        }
        layer = next;
    }
    for (number, low, _) in layer {
        nodes[number] = Some(Node { level: 0, entries: vec![(low as u32, 1)] });
    }
    Tree { nodes }
}

/// Node 0 above level 0 needs 2 entries, every other interior node 8; leaves may be thin.
#[test]
fn which_trees_are_thin() {
    let thin = |counts: &[usize]| tree(counts).thin();
    assert!(!thin(&[]) && !Tree::leaf(3).thin());
    assert!(thin(&[1]) && !thin(&[2]) && !thin(&[7]) && !thin(&[16]));
    assert!(thin(&[1, 8]) && !thin(&[2, 8]) && thin(&[2, 7]) && thin(&[16, 1]) && !thin(&[9, 16]));
    assert!(!thin(&[2, 8, 8]) && thin(&[2, 7, 8]) && thin(&[2, 8, 7]) && thin(&[1, 8, 8]) && thin(&[1, 1, 1]));
}

/// One thin node among others is enough.
#[test]
fn one_thin_node() {
    let mut tree = tree(&[3, 9, 8]);
    assert!(!tree.thin());
    let last = tree.nodes.iter().rposition(|node| node.as_ref().is_some_and(|node| node.level == 1)).unwrap();
    tree.nodes[last].as_mut().unwrap().entries.pop();
    assert!(tree.thin());
}

/// The records are those of the leaves, in key order.
#[test]
fn records() {
    let tree = tree(&[2, 8]);
    let records = tree.records();
    assert_eq!(records.len(), 16);
    assert!(records.windows(2).all(|two| two[0].0 < two[1].0));
    assert!(records.iter().all(|record| tree.find(record.0) == Some(record.1)));
}

/// Mount turns a thin tree away before any operation, whatever the allowance; the store is off.
#[test]
fn mount_gives_12() {
    let chip = thin_chip();
    for allowance in [0, 1, 255, u32::MAX] {
        let mut after = thin_chip();
        after.frame(Frame::Mount(allowance), &reply(12, [0; 3]));
        after.frame(Frame::LookUp(4), "02");
        after.judge();
        for other in [0, 9, 10] {
            assert!(!chip.accepts(Frame::Mount(allowance), &reply(other, [0; 3]), &chip.image));
        }
        assert!(!chip.accepts(Frame::Mount(allowance), &reply(12, [0, 1, 0]), &chip.image));
    }
}

/// A thin leaf is mounted, a void page marked.
#[test]
fn a_thin_leaf_is_mounted() {
    let nodes = [(0, Deed::Reset(1)), (0, Deed::Insert(0, 1)), (0, Deed::Insert(9, 2)), (1, Deed::Reset(0)), (2, Deed::Reset(0))];
    let chip = Hand::with_pages(&[(0, data(5, 0, 1, &nodes))]);
    assert!(chip.accepts(Frame::Mount(0), &reply(0, [0; 3]), &chip.image));
    assert!(!chip.accepts(Frame::Mount(0), &reply(12, [0; 3]), &chip.image));
}

/// A tree that is none gives 9, also where a node of it has few entries.
#[test]
fn nine_before_12() {
    let nodes = [(0, Deed::Reset(1)), (0, Deed::Insert(0, 1)), (1, Deed::Reset(0)), (2, Deed::Reset(0))];
    let chip = Hand::with_pages(&[(0, data(5, 0, 1, &nodes))]);
    assert!(chip.accepts(Frame::Mount(255), &reply(9, [0; 3]), &chip.image));
    assert!(!chip.accepts(Frame::Mount(255), &reply(12, [0; 3]), &chip.image));
}
