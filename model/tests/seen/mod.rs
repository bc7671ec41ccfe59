//! What the deletes and inserts of a script reach: joins, moves, node 0 taking over, numbers taken again; read from trees.
use model::model::image::Meaning;
use model::model::tree::Tree;
use std::collections::BTreeSet;

/// How often each was met.
#[derive(Default)]
pub struct Seen {
    /// A leaf with its right neighbour, and a last leaf with its left one.
    pub joins: [u32; 2],
    /// An entry of a leaf's right neighbour, and of the left one.
    pub moves: [u32; 2],
    /// Inner nodes that joined, and inner nodes between which an entry moved.
    pub parents: [u32; 2],
    /// Node 0 took over its child: one level, as the tree is not thin.
    pub over: u32,
    /// A number taken again before a commit, and one that is freed on flash.
    pub again: [u32; 2],
    /// Inserts refused with 5, and those accepted with the greatest number given.
    pub full: [u32; 2],
    /// The numbers freed since the last commit or mount.
    freed: BTreeSet<usize>,
}

/// The numbers that one tree has and another has not.
fn without<'a>(one: &'a Tree, other: &'a Tree) -> impl Iterator<Item = usize> + 'a {
    (0..one.nodes.len()).filter(|number| one.nodes[*number].is_some() && other.nodes[*number].is_none())
}

impl Seen {
    /// A commit or a mount.
    pub fn written(&mut self) {
        self.freed.clear();
    }

    /// An accepted delete of a key.
    pub fn delete(&mut self, key: u32, before: &Tree, after: &Tree) {
        let path = before.path(key);
        self.freed.extend(without(before, after));
        let levels = before.node(0).level - after.node(0).level;
        assert!(levels <= 1);
        self.over += levels;
        for depth in (1..path.len()).rev() {
            if !self.look(before, after, path[depth - 1], path[depth], depth + 1 == path.len()) {
                break;
            }
        }
    }

    /// What a delete did with a node and its neighbour; tells whether they joined.
    fn look(&mut self, before: &Tree, after: &Tree, parent: u32, number: u32, leaf: bool) -> bool {
        let entries = &before.node(parent).entries;
        let at = entries.iter().position(|entry| entry.1 == number).unwrap();
        let last = at + 1 == entries.len();
        let Some(beside) = entries.get(if last { at.wrapping_sub(1) } else { at + 1 }) else { return false };
        let sum = before.node(number).entries.len() + before.node(beside.1).entries.len() - 1;
        if before.node(number).entries.len() > 8 {
            return false;
        }
        let joined = sum <= 16;
        let lost = if last { number } else { beside.1 };
        assert!(!joined || after.nodes[lost as usize].is_none());
        match (leaf, joined) {
            (true, true) => self.joins[last as usize] += 1,
            (true, false) => self.moves[last as usize] += 1,
            (false, _) => self.parents[!joined as usize] += 1,
        }
        joined
    }

    /// An insert, accepted or refused with 5, and what the image means that the state goes with.
    pub fn insert(&mut self, accepted: bool, before: &Tree, after: &Tree, means: Option<&Meaning>) {
        self.full[0] += !accepted as u32;
        self.full[1] += (accepted && before.nodes.last().is_some_and(Option::is_some)) as u32;
        for number in without(after, before) {
            self.again[0] += self.freed.contains(&number) as u32;
            self.again[1] += means.is_some_and(|means| means.freed(number)) as u32;
        }
    }

    /// The least of all figures.
    pub fn least(&self) -> u32 {
        let all = [self.joins, self.moves, self.parents, self.again, self.full];
        all.concat().into_iter().min().unwrap_or(0).min(self.over)
    }

    /// The figures as a text.
    pub fn told(&self) -> String {
        let Seen { joins, moves, parents, over, again, full, .. } = self;
        format!("joins {joins:?}, moves {moves:?}, parents {parents:?}, over {over}, again {again:?}, full {full:?}")
    }
}
