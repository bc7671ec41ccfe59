//! The tree of document 01, 'Tree steps', with the joins of note 1 of document 02: find, insert and delete on nodes known by number.
mod join;
pub mod thin;

/// Entries that a node has room for.
pub const FULL: usize = 16;
/// Entries that stay when a node of 17 splits.
const STAY: usize = 9;

/// A node: its level, 0 for a leaf, and its entries in key order.
#[derive(Clone, Debug, PartialEq, Eq)]
pub struct Node {
    pub level: u32,
    pub entries: Vec<(u32, u32)>,
}

/// A tree: the node of each number below 8 B, none where the number is free or unused.
#[derive(Clone, Debug, PartialEq, Eq)]
pub struct Tree {
    pub nodes: Vec<Option<Node>>,
}

impl Node {
    /// A node without entries.
    pub fn empty(level: u32) -> Node {
        Node { level, entries: Vec::new() }
    }

    /// Puts an entry in, in place of one of equal key.
    pub fn put(&mut self, key: u32, value: u32) {
        match self.entries.binary_search_by_key(&key, |entry| entry.0) {
            Ok(at) => self.entries[at].1 = value,
            Err(at) => self.entries.insert(at, (key, value)),
        }
    }

    /// Takes an entry out; tells whether it was there.
    pub fn take(&mut self, key: u32) -> bool {
        let found = self.entries.binary_search_by_key(&key, |entry| entry.0);
        if let Ok(at) = found {
            self.entries.remove(at);
        }
        found.is_ok()
    }

    /// The value of the greatest entry key not above a key.
    pub fn below(&self, key: u32) -> Option<u32> {
        self.entries.iter().rev().find(|entry| entry.0 <= key).map(|entry| entry.1)
    }

    /// The value of an entry.
    pub fn value(&self, key: u32) -> Option<u32> {
        self.entries.binary_search_by_key(&key, |entry| entry.0).ok().map(|at| self.entries[at].1)
    }
}

impl Tree {
    /// The tree of one empty leaf, on a chip of a number of blocks.
    pub fn leaf(blocks: usize) -> Tree {
        let mut nodes = vec![None; 8 * blocks];
        nodes[0] = Some(Node::empty(0));
        Tree { nodes }
    }

    /// The node of a number that the tree reaches.
    pub fn node(&self, number: u32) -> &Node {
        self.nodes[number as usize].as_ref().expect("a node that the tree reaches")
    }

    /// The node of a number that the tree reaches, to be changed.
    fn node_mut(&mut self, number: u32) -> &mut Node {
        self.nodes[number as usize].as_mut().expect("a node that the tree reaches")
    }

    /// The node numbers from node 0 down to the leaf of a key.
    pub fn path(&self, key: u32) -> Vec<u32> {
        let mut path = vec![0];
        let mut node = self.node(0);
        while node.level > 0 {
            let child = node.below(key).expect("a first key equal to the low bound");
            path.push(child);
            node = self.node(child);
        }
        path
    }

    /// The leaf number of a key.
    fn leaf_of(&self, key: u32) -> u32 {
        *self.path(key).last().expect("a path begins with node 0")
    }

    /// The value of a key.
    pub fn find(&self, key: u32) -> Option<u32> {
        self.node(self.leaf_of(key)).value(key)
    }

    /// Inserts (key, value). False, and no change, when that needs more numbers than are left.
    pub fn insert(&mut self, key: u32, value: u32) -> bool {
        let leaf = self.leaf_of(key);
        let node = self.node_mut(leaf);
        if node.entries.len() < FULL || node.value(key).is_some() {
            node.put(key, value);
            return true;
        }
        let mut changed = self.clone();
        let fits = changed.gain(0, key, value, leaf).is_some();
        if fits {
            *self = changed;
        }
        fits
    }

    /// Whether an insert fits: it needs no more numbers than are left.
    pub fn insert_fits(&self, key: u32, value: u32) -> bool {
        let node = self.node(self.leaf_of(key));
        node.entries.len() < FULL || node.value(key).is_some() || self.clone().insert(key, value)
    }

    /// Insertion below a node that the path of the key meets. Answers none when it does not fit, else the entry that
    /// the node's parent gains, if any.
    fn gain(&mut self, number: u32, key: u32, value: u32, leaf: u32) -> Option<Option<(u32, u32)>> {
        let mut entry = Some((key, value));
        if number != leaf {
            let child = self.node(number).below(key).expect("a first key equal to the low bound");
            entry = self.gain(child, key, value, leaf)?;
        }
        let Some((key, value)) = entry else { return Some(None) };
        self.node_mut(number).put(key, value);
        if self.node(number).entries.len() <= FULL {
            return Some(None);
        }
        if number == 0 {
            return self.split_root().then_some(None);
        }
        self.split(number).map(Some)
    }

    /// Gives the least number that is free or unused to a node; none when there is none.
    fn give(&mut self, node: Node) -> Option<u32> {
        let number = self.nodes.iter().position(Option::is_none)?;
        self.nodes[number] = Some(node);
        Some(number as u32)
    }

    /// Splits a node of 17 that is not node 0: the first 9 stay, 8 go to a new node. Answers the parent's entry.
    fn split(&mut self, number: u32) -> Option<(u32, u32)> {
        let node = self.node_mut(number);
        let moved = Node { level: node.level, entries: node.entries.split_off(STAY) };
        let smallest = moved.entries[0].0;
        Some((smallest, self.give(moved)?))
    }

    /// Splits node 0: the 9 go to the least number, the 8 to the one after it, node 0 becomes one level higher with both.
    fn split_root(&mut self) -> bool {
        let mut first = self.node(0).clone();
        let level = first.level;
        let second = Node { level, entries: first.entries.split_off(STAY) };
        let smallest = second.entries[0].0;
        let Some(smaller) = self.give(first) else { return false };
        let Some(greater) = self.give(second) else { return false };
        self.nodes[0] = Some(Node { level: level + 1, entries: vec![(0, smaller), (smallest, greater)] });
        true
    }
}
