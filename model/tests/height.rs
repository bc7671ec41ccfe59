//! The height of a tree: where a tree is not thin, a root at level 3 never splits. Document 02, note 7.
use model::model::foreign::{steep_tree, stock, thick_tree, Free, Stock};
use model::model::geometry::Geometry;
use model::model::tree::thin::INNER;
use model::model::tree::{Node, Tree, FULL};
use model::model::unit::TOP;
use model::random::Random;
use model::runner;
use model::scripts::writer::Writer;

/// Blocks of the largest chip, and its node numbers.
const BLOCKS: usize = 32;
const NUMBERS: usize = 8 * BLOCKS;
/// The numbers that an insert takes at most: one of each level below the root, and two for node 0.
const TAKEN: usize = 5;

/// The trees met by the level of their root, the splits of node 0 and the inserts without enough numbers by that level, and the most
/// entries of a root at level 3.
#[derive(Default, Debug)]
struct Met {
    trees: [u32; 4],
    splits: [u32; 4],
    refused: [u32; 4],
    most: usize,
}

/// The nodes of a tree that is not thin, at least, where its root is at a level and has so many entries.
fn fewest(level: u32, entries: usize) -> usize {
    match level {
        0 => 1,
        _ => 1 + entries * fewest(level - 1, INNER),
    }
}

/// A key for each full leaf that it does not have, between two of its own.
fn between(tree: &Tree) -> Vec<u32> {
    let full = tree.nodes.iter().flatten().filter(|node| node.level == 0 && node.entries.len() == FULL);
    let gap = |leaf: &Node| leaf.entries.windows(2).find(|pair| pair[1].0 - pair[0].0 > 1).map(|pair| pair[0].0 + 1);
    full.filter_map(gap).collect()
}

impl Met {
    /// A tree: not thin, of at most 256 nodes, with a root at level 3 at most, and there with fewer than 16 entries.
    fn tree(&mut self, tree: &Tree) {
        let (root, count) = (tree.node(0), tree.nodes.iter().flatten().count());
        assert!(!tree.thin() && count <= NUMBERS && count >= fewest(root.level, root.entries.len()));
        assert!(root.level < TOP || root.level == TOP && root.entries.len() < FULL);
        self.trees[root.level as usize] += 1;
        if root.level == TOP {
            self.most = self.most.max(root.entries.len());
        }
    }

    /// An insert, with enough numbers for any, leaves the root at level 3 at most. Whether the tree has the numbers for it.
    fn insert(&mut self, tree: &Tree, key: u32) -> bool {
        let (mut wide, level) = (tree.clone(), tree.node(0).level);
        wide.nodes.resize(tree.nodes.len() + TAKEN, None);
        assert!(wide.insert(key, 1) && wide.node(0).level <= TOP);
        self.splits[level as usize] += wide.node(0).level - level;
        let fits = tree.insert_fits(key, 1);
        self.refused[level as usize] += !fits as u32;
        fits
    }

    /// Inserts into each full leaf.
    fn inserts(&mut self, tree: &Tree) {
        for key in between(tree) {
            self.insert(tree, key);
        }
    }

    /// Node 0 split at each level below 3, inserts lacked numbers at level 3, and a root there had as many entries as 256 nodes allow.
    fn all(&self) {
        println!("{self:?}");
        assert!(self.trees.iter().chain(&self.splits[..3]).chain(&self.refused[3..]).all(|count| *count > 0));
        assert_eq!((self.splits[3], self.most), (0, 3));
    }
}

/// 16 entries of at least 8 entries of at least 8 leaves are more nodes than a chip has; so are 4 of them, and any root above level 3.
#[test]
fn nodes_of_a_root_at_level_3() {
    assert_eq!((FULL * INNER * INNER, fewest(TOP, FULL)), (1024, 1169));
    assert!(fewest(TOP, FULL) > NUMBERS && fewest(TOP, 4) > NUMBERS && fewest(TOP + 1, 2) > NUMBERS);
    assert!(fewest(TOP, 3) <= NUMBERS && fewest(TOP - 1, FULL) <= NUMBERS);
}

/// Random trees that are not thin, of each height, and inserts into each of their full leaves.
#[test]
fn random_trees() {
    let (mut random, mut met) = (Random::new(701), Met::default());
    for round in 0..1200 {
        let blocks = [3, 8, 19, 20, 24, 28, 31, BLOCKS][round % 8];
        let (steep, key) = steep_tree(&mut random, blocks);
        met.insert(&steep, key);
        for tree in [steep, thick_tree(&mut random, blocks)] {
            met.tree(&tree);
            met.inserts(&tree);
        }
    }
    met.all();
}

/// The next key of an order: rising, falling, or any.
fn next(random: &mut Random, order: u32, at: u32) -> u32 {
    match order {
        0 => 3 * at,
        1 => u32::MAX - 3 * at,
        _ => random.next() as u32,
    }
}

/// Deletes of so many records, the least, the greatest or any first.
fn shrink(random: &mut Random, met: &mut Met, tree: &mut Tree, order: u32, count: usize) {
    let mut keys: Vec<u32> = tree.records().into_iter().map(|record| record.0).collect();
    match order {
        0 => {}
        1 => keys.reverse(),
        _ => random.shuffle(&mut keys),
    }
    for key in &keys[..count.min(keys.len())] {
        assert!(tree.delete(*key));
        met.tree(tree);
    }
}

/// Inserts in an order until too few numbers are left.
fn grow(random: &mut Random, met: &mut Met, tree: &mut Tree, order: u32, at: &mut u32) {
    loop {
        *at += 1;
        let key = next(random, order, *at);
        if !met.insert(tree, key) {
            return;
        }
        assert!(tree.insert(key, 1));
        met.tree(tree);
    }
}

/// Trees grown by inserts in an order up to the last number of 32 blocks, and again after deletes in each order.
#[test]
fn grown_trees() {
    let mut random = Random::new(702);
    for order in 0..3 {
        let (mut tree, mut met, mut at) = (Tree::leaf(BLOCKS), Met::default(), 0);
        for deletes in 0..4 {
            grow(&mut random, &mut met, &mut tree, order, &mut at);
            met.inserts(&tree);
            shrink(&mut random, &mut met, &mut tree, deletes, 300 + 300 * deletes as usize);
        }
        println!("{order}: {met:?}");
        assert!(met.trees[3] > 100 && met.splits[2] > 0 && met.splits[3] == 0 && met.refused[3] > 0);
    }
}

/// A node of a level and those below it: 16 entries each on the path of the range's low bound, one entry elsewhere.
fn spine(nodes: &mut Vec<Option<Node>>, number: usize, level: u32, (low, end): (u64, u64), full: bool) {
    let (count, mut entries) = (if full { FULL as u64 } else { 1 }, Vec::new());
    let width = (end - low) / count;
    for at in 0..count {
        let (key, child) = (low + at * width, nodes.len());
        entries.push((key as u32, child as u32));
        if level > 0 {
            nodes.push(None);
            spine(nodes, child, level - 1, (key, key + width), full && at == 0);
        }
    }
    nodes[number] = Some(Node { level, entries });
}

/// A thin tree of few nodes with a root at level 3 and a full path to key 1, which it does not have.
fn thin() -> Tree {
    let mut nodes = vec![None];
    spine(&mut nodes, 0, TOP, (0, 1 << 32), true);
    nodes.resize(NUMBERS, None);
    Tree { nodes }
}

/// Where the tree is thin, an insert splits a root at level 3 though there are numbers.
#[test]
fn a_thin_tree_would_need_level_4() {
    let mut tree = thin();
    let count = tree.nodes.iter().flatten().count();
    assert!(tree.thin() && count == 94 && tree.path(1).iter().all(|number| tree.node(*number).entries.len() == FULL));
    assert!(tree.insert(1, 1));
    assert_eq!((tree.node(0).level, tree.node(0).entries.len()), (TOP + 1, 2));
}

/// Mount gives 12 for that tree. After a rebuild the same insert is accepted, and the chip is mounted again.
#[test]
fn mount_turns_it_away() {
    for geometry in [Geometry::SMALL, Geometry::LARGE] {
        let (mut random, mut writer) = (Random::new(703), Writer::new(geometry));
        let image = stock(&mut random, geometry, BLOCKS, &thin(), Stock { free: Free::Enough, number: None });
        writer.bring(&image);
        assert_eq!((writer.mount(255), writer.insert(1, 1)), (12, 2));
        assert_eq!((writer.rebuild(writer.enough()), writer.insert(1, 1), writer.commit(writer.enough())), (0, 0, 0));
        assert_eq!((writer.mount(255), writer.look_up(1)), (0, 0));
        let script = writer.lines();
        runner::judge(&script, &runner::probe_replies(&script)).unwrap();
    }
}
