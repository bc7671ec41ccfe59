//! Updates spread over the leaves of the store, so that commits have many splits or long lists, and so several pages.

use super::writer::Writer;
use crate::random::Random;
use crate::twin::unit::node_of;
use crate::twin::view::{key_of, Stage};

/// What the updates of a commit are for: entries until leaves are full, splits of full leaves, or longer lists.
#[derive(Clone, Copy, Default)]
enum Aim {
    #[default]
    Fill,
    Split,
    List(usize),
}

/// Commits of a turn of growth, and of one of lists.
const GROWTH: u32 = 8;
const LISTS: u32 = 40;
/// Leaves that have to be full for a commit of splits: so many splits need more than a large page.
const FULL: usize = 10;
/// Leaves that have to be there and full for lists to grow: a large page with updates of 16 of them has room to write 9 anew.
const MANY: usize = 32;
/// Updates of a commit.
const UPDATES: u32 = 16;

/// What the commit under way is for, whether it is in a turn of lists, and how many commits of the turn are left.
#[derive(Default)]
pub struct Wide {
    aim: Aim,
    lists: bool,
    left: u32,
}

/// A leaf: the keys of its entries, the length of its list, and whether an update is pending in it.
struct Leaf {
    keys: Vec<u32>,
    list: usize,
    pending: bool,
}

impl Leaf {
    /// A key between two of its own, where they are farthest apart; any where there is none between.
    fn between(&self, random: &mut Random) -> u32 {
        match self.keys.windows(2).max_by_key(|pair| pair[1] - pair[0]) {
            Some(pair) if pair[1] - pair[0] > 1 => pair[0] + 1 + random.below(u64::from(pair[1] - pair[0] - 1)) as u32,
            _ => random.next() as u32,
        }
    }

    /// One of its keys, or any where it has none.
    fn own(&self, random: &mut Random) -> u32 {
        self.keys.get(random.index(self.keys.len())).copied().unwrap_or(random.next() as u32)
    }
}

/// The leaves of the store.
fn leaves(writer: &Writer) -> Vec<Leaf> {
    let (state, image) = (writer.probe().state(), writer.probe().image());
    let views = state.in_use().map(|n| (n, state.view(image, n)));
    let leaves = views.filter(|(_, view)| view.stage == Stage::Full && view.level == 0);
    let leaf = |n: u32, keys| Leaf { keys, list: state.list(n).len(), pending: state.buffered().iter().any(|unit| node_of(unit) == n) };
    leaves.map(|(n, view)| leaf(n, view.entries().iter().map(|&entry| key_of(entry)).collect())).collect()
}

/// The fullest of some leaves.
fn fullest(leaves: &[Leaf], which: impl Fn(&Leaf) -> bool) -> Option<&Leaf> {
    leaves.iter().filter(|leaf| which(leaf)).max_by_key(|leaf| leaf.keys.len())
}

/// One of the leaves without a pending update.
fn any<'a>(random: &mut Random, leaves: &'a [Leaf]) -> Option<&'a Leaf> {
    let rest: Vec<&Leaf> = leaves.iter().filter(|leaf| !leaf.pending).collect();
    rest.get(random.index(rest.len())).copied()
}

impl Wide {
    /// The key of the next update; the first of a commit chooses what the commit is for.
    pub fn pick(&mut self, random: &mut Random, writer: &Writer) -> u32 {
        let leaves = leaves(writer);
        if writer.probe().state().pending == 0 {
            self.choose(random, &leaves);
        }
        let key = match self.aim {
            Aim::Fill => fullest(&leaves, |leaf| leaf.keys.len() < 16).map(|leaf| leaf.between(random)),
            Aim::Split => fullest(&leaves, |leaf| leaf.keys.len() == 16 && !leaf.pending).map(|leaf| leaf.between(random)),
            Aim::List(list) => fullest(&leaves, |leaf| leaf.list == list && !leaf.pending).map(|leaf| leaf.own(random)),
        };
        key.or_else(|| any(random, &leaves).map(|leaf| leaf.own(random))).unwrap_or(random.next() as u32)
    }

    /// The aim of a commit. In a turn of lists those grow of which there are enough leaves for a commit, the longest first; lists of four
    /// are written anew, for which fewer are enough.
    fn choose(&mut self, random: &mut Random, leaves: &[Leaf]) {
        if self.left == 0 {
            self.lists = leaves.len() >= MANY && random.below(3) > 0;
            self.left = if self.lists { LISTS } else { GROWTH };
        }
        self.left -= 1;
        let full = leaves.iter().filter(|leaf| leaf.keys.len() == 16).count();
        let of = |list: usize| leaves.iter().filter(|leaf| leaf.list == list).count();
        let enough = (1..=4).rev().find(|&list| of(list) >= if list == 4 { FULL } else { UPDATES as usize });
        self.aim = match self.lists {
            true if full < leaves.len().min(MANY) => Aim::Fill,
            true => Aim::List(enough.or((1..=4).max_by_key(|&list| of(list))).unwrap_or(1)),
            false if full >= FULL || full == leaves.len() => Aim::Split,
            false => Aim::Fill,
        };
    }

    /// Up to 30 commits of inserts, until enough leaves are full.
    pub fn grow(&mut self, random: &mut Random, writer: &mut Writer) {
        for _ in 0..30 {
            if leaves(writer).iter().filter(|leaf| leaf.keys.len() == 16).count() >= FULL {
                return;
            }
            for _ in 0..UPDATES {
                let key = self.pick(random, writer);
                writer.insert(key, random.next() as u32);
            }
            writer.commit(writer.enough());
        }
    }
}
