//! The tiny store's tree steps, freed nodes and look up's lengths, and their faults.
use super::{Bug, Tiny};
use model::model::image::{meaning, Meaning, BROKEN, NO_TREE};
use model::model::tree::{Node, Tree, FULL};
use model::model::unit::{encode, Deed, Unit, FREED, UNIT};

/// Inserts where some free numbers count as given.
pub fn insert(tree: &mut Tree, key: u32, value: u32, given: &[usize]) -> bool {
    given.iter().for_each(|number| tree.nodes[*number] = Some(Node::empty(0)));
    let inserted = tree.insert(key, value);
    given.iter().for_each(|number| tree.nodes[*number] = None);
    inserted
}

/// Deletes as the model does, or with a fault.
pub fn delete(tree: &mut Tree, key: u32, bug: Bug) -> bool {
    if !Bug::JOINS.contains(&bug) {
        return tree.delete(key);
    }
    let path = tree.path(key);
    if !node(tree, path[path.len() - 1]).take(key) {
        return false;
    }
    let mut depth = path.len() - 1;
    while depth > 0 && look(tree, path[depth - 1], path[depth], bug) {
        depth = if bug == Bug::ParentsStay { 0 } else { depth - 1 };
    }
    if bug != Bug::RootStays {
        take_over(tree);
    }
    true
}

/// The node of a number, to be changed.
fn node(tree: &mut Tree, number: u32) -> &mut Node {
    tree.nodes[number as usize].as_mut().expect("a node of the tree")
}

/// The rule for a node that lost an entry; tells whether its parent lost one.
fn look(tree: &mut Tree, parent: u32, number: u32, bug: Bug) -> bool {
    let least = if bug == Bug::LooksAtSix { 7 } else { 8 };
    if tree.node(number).entries.len() >= least {
        return false;
    }
    let entries = tree.node(parent).entries.clone();
    let at = entries.iter().position(|entry| entry.1 == number).unwrap();
    let to_right = if bug == Bug::LooksLeft { at == 0 } else { at + 1 < entries.len() };
    let entry = at + to_right as usize;
    if entry == 0 || entry >= entries.len() {
        return false;
    }
    let most = if bug == Bug::JoinsAt15 { FULL - 1 } else { FULL };
    let joins = tree.node(entries[entry - 1].1).entries.len() + tree.node(entries[entry].1).entries.len() <= most;
    match joins {
        true => join(tree, parent, entry, bug),
        false => shift(tree, parent, entry, to_right, bug),
    }
    joins
}

/// Joins the children at an entry and before it.
fn join(tree: &mut Tree, parent: u32, entry: usize, bug: Bug) {
    let (left, right) = (tree.node(parent).entries[entry - 1].1, tree.node(parent).entries[entry].1);
    let (kept, gone) = if bug == Bug::RightKept { (right, left) } else { (left, right) };
    let moved = tree.nodes[gone as usize].take().unwrap();
    moved.entries.iter().for_each(|(key, value)| node(tree, kept).put(*key, *value));
    node(tree, parent).entries[entry - 1].1 = kept;
    node(tree, parent).entries.remove(entry);
}

/// Moves entries between the children at an entry and before it.
fn shift(tree: &mut Tree, parent: u32, entry: usize, to_left: bool, bug: Bug) {
    let (left, right) = (tree.node(parent).entries[entry - 1].1, tree.node(parent).entries[entry].1);
    let (from, to) = if to_left { (right, left) } else { (left, right) };
    for _ in 0..1 + (bug == Bug::MovesTwo) as usize {
        let at = if to_left { 0 } else { tree.node(from).entries.len() - 1 };
        let (key, value) = node(tree, from).entries.remove(at);
        node(tree, to).put(key, value);
    }
    if bug != Bug::KeyNotRenewed {
        node(tree, parent).entries[entry].0 = tree.node(right).entries[0].0;
    }
}

/// Node 0 takes over its only child, again and again.
fn take_over(tree: &mut Tree) {
    while tree.node(0).level > 0 && tree.node(0).entries.len() == 1 {
        let child = tree.node(0).entries[0].1;
        tree.nodes[0] = tree.nodes[child as usize].take();
    }
}

impl Tiny {
    /// What the image means to a mount.
    pub(super) fn read(&self, blocks: usize) -> Result<Meaning, u32> {
        let means = meaning(self.geometry, self.image(), blocks)?;
        let freed = (0..8 * blocks).any(|number| means.freed(number));
        match self.bug {
            Bug::MountRefusesFreed if freed => Err(BROKEN),
            Bug::MountLosesFreed if freed => Err(NO_TREE),
            _ => Ok(means),
        }
    }

    /// The numbers on flash that the present tree does not have.
    fn freed(&self) -> Vec<usize> {
        let state = self.state.as_ref().unwrap();
        let Ok(means) = meaning(self.geometry, self.image(), state.blocks) else { return Vec::new() };
        (0..means.lists.len()).filter(|number| !means.lists[*number].is_empty() && state.tree.nodes[*number].is_none()).collect()
    }

    /// The free numbers that a faulty store does not take.
    pub(super) fn given(&self) -> Vec<usize> {
        let nodes = &self.state.as_ref().unwrap().tree.nodes;
        let greatest = nodes.iter().rposition(Option::is_some).unwrap();
        match self.bug {
            Bug::GreatestPlusOne => (0..greatest).filter(|number| nodes[*number].is_none()).collect(),
            Bug::FreedNotTaken => self.freed(),
            _ => Vec::new(),
        }
    }

    /// The length that look up takes for a number.
    pub(super) fn length(&self, means: Option<&Meaning>, number: usize) -> usize {
        let Some(means) = means else { return 0 };
        match self.bug {
            Bug::FreedHasLength => means.lists[number].len(),
            Bug::NewHasNoLength if self.state.as_ref().unwrap().taken.contains(&number) => 0,
            _ => means.length(number),
        }
    }

    /// The units of each node of the present tree, and a reset of each number freed.
    pub(super) fn snapshot(&self) -> Vec<(usize, Vec<[u8; UNIT]>)> {
        let nodes = &self.state.as_ref().unwrap().tree.nodes;
        let freed = if self.is(Bug::FreedLeftOut) { Vec::new() } else { self.freed() };
        let unit = |number: usize, deed| encode(&Unit { node: number as u16, deed });
        let mut all = Vec::new();
        for (number, node) in nodes.iter().enumerate() {
            let deeds: Vec<Deed> = match node {
                Some(node) => {
                    let inserts = node.entries.iter().map(|entry| Deed::Insert(entry.0, entry.1));
                    [Deed::Reset(node.level)].into_iter().chain(inserts).collect()
                }
                None if freed.contains(&number) => vec![Deed::Reset(FREED)],
                None => continue,
            };
            all.push((number, deeds.into_iter().map(|deed| unit(number, deed)).collect()));
        }
        all
    }
}
