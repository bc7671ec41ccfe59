//! What an image means: steps 1 to 6 of document 01, sentence by sentence, with freed nodes as note 1 of document 02 has them.
use super::chip::{self, OBSOLETE, VALID};
use super::geometry::Geometry;
use super::tree::{Node, Tree, FULL};
use super::unit::{self, Deed, FREED, HEAD, UNIT};

/// Refusal of steps 1 and 3: no page to read from.
pub const NOTHING: u32 = 7;
/// Refusal of steps 2 to 5: a page, a unit, a view or a list breaks its rules.
pub const BROKEN: u32 = 8;
/// Refusal of step 6: the views are no tree.
pub const NO_TREE: u32 = 9;
/// Refusal of mount alone: the tree is thin, note 6 of document 02.
pub const THIN: u32 = 12;
/// The greatest length of a list.
const LIST: usize = 4;

/// What an image means.
#[derive(Clone, Debug, PartialEq, Eq)]
pub struct Meaning {
    /// The tree: nodes by number with level and entries.
    pub tree: Tree,
    /// The greatest standing commit number.
    pub greatest: u32,
    /// The list of each node number: places of the standing pages with its units from its last reset on. That of a freed node
    /// is the page of this reset.
    pub lists: Vec<Vec<usize>>,
    /// The void pages by place, lowest first.
    pub void: Vec<usize>,
}

impl Meaning {
    /// Whether a number is that of a freed node.
    pub fn freed(&self, number: usize) -> bool {
        self.tree.nodes[number].is_none() && !self.lists[number].is_empty()
    }

    /// The length that look up takes for a number: that of its list, 0 if it is unused or freed.
    pub fn length(&self, number: usize) -> usize {
        if self.freed(number) {
            return 0;
        }
        self.lists[number].len()
    }
}

/// The head of a page that passes its own rules of step 2, with its place on the chip.
#[derive(Clone, Copy, Debug, PartialEq, Eq)]
pub struct Head {
    pub commit: u32,
    pub index: u8,
    pub count: u8,
    pub units: usize,
    pub place: usize,
}

/// The meaning of an image of a number of blocks of a geometry, or the refusal 7, 8 or 9.
pub fn meaning(geometry: Geometry, image: &[u8], blocks: usize) -> Result<Meaning, u32> {
    let live = live_places(geometry, image, blocks);
    if live.is_empty() {
        return Err(NOTHING);
    }
    let mut heads = step_two(geometry, image, &live)?;
    heads.sort_by_key(|head| (head.commit, head.index));
    let (standing, void) = step_three(&heads)?;
    let views = step_four(geometry, image, standing, 8 * blocks)?;
    if views.iter().any(|view| view.list.len() > LIST) {
        return Err(BROKEN);
    }
    let greatest = standing[standing.len() - 1].commit;
    let (nodes, lists) = views.into_iter().map(|view| (view.stage.node(), view.list)).unzip();
    let tree = Tree { nodes };
    if !step_six(&tree) {
        return Err(NO_TREE);
    }
    Ok(Meaning { tree, greatest, lists, void })
}

/// A page is live when its valid mark is set and its obsolete mark is not.
pub fn live(geometry: Geometry, page: &[u8]) -> bool {
    chip::mark(geometry, page, VALID) == 0 && chip::mark(geometry, page, OBSOLETE) != 0
}

/// The places of the live pages.
fn live_places(geometry: Geometry, image: &[u8], blocks: usize) -> Vec<usize> {
    (0..blocks * geometry.pages).filter(|place| live(geometry, chip::page(geometry, image, *place))).collect()
}

/// A page's own rules in step 2: commit number 1 or more, count 1 or more, index below count, from 1 unit to the room of a
/// page, 255 after.
pub fn own_rules(geometry: Geometry, page: &[u8], place: usize) -> Option<Head> {
    let (commit, index, count) = (unit::number(page, 0), page[4], page[5]);
    let units = unit::half(page, 6) as usize;
    if commit == 0 || count == 0 || index >= count || units == 0 || units > geometry.room {
        return None;
    }
    let rest = &page[HEAD + units * UNIT..geometry.data];
    (rest == chip::blank(rest.len())).then_some(Head { commit, index, count, units, place })
}

/// Step 2: each live page passes its own rules; pages of equal commit number have equal counts and different indexes.
fn step_two(geometry: Geometry, image: &[u8], live: &[usize]) -> Result<Vec<Head>, u32> {
    let mut heads = Vec::with_capacity(live.len());
    for place in live {
        heads.push(own_rules(geometry, chip::page(geometry, image, *place), *place).ok_or(BROKEN)?);
    }
    let mut sorted: Vec<&Head> = heads.iter().collect();
    sorted.sort_by_key(|head| (head.commit, head.index));
    for pair in sorted.windows(2) {
        if pair[0].commit == pair[1].commit && (pair[0].count != pair[1].count || pair[0].index == pair[1].index) {
            return Err(BROKEN);
        }
    }
    Ok(heads)
}

/// Where the greatest commit's heads begin, and whether it lacks an index. Heads by commit number and index, none equal.
fn last_commit(heads: &[Head]) -> (usize, bool) {
    let last = heads[heads.len() - 1];
    let start = heads.partition_point(|head| head.commit < last.commit);
    (start, heads.len() - start < last.count as usize)
}

/// Step 3: the standing pages in order, and the void ones by place.
fn step_three(heads: &[Head]) -> Result<(&[Head], Vec<usize>), u32> {
    let (start, lacks) = last_commit(heads);
    if !lacks {
        return Ok((heads, Vec::new()));
    }
    let mut void: Vec<usize> = heads[start..].iter().map(|head| head.place).collect();
    void.sort_unstable();
    let standing = &heads[..start];
    if standing.is_empty() {
        return Err(NOTHING);
    }
    if last_commit(standing).1 {
        return Err(BROKEN);
    }
    Ok((standing, void))
}

/// What the units of a number make of it.
#[derive(Clone, Default)]
enum Stage {
    /// It has no units.
    #[default]
    Unused,
    /// It has units and no reset.
    NoReset,
    /// Its last reset has value 255.
    Freed,
    /// It is a node, whose last reset has a level.
    Held(Node),
}

impl Stage {
    /// The node, if it is one that is not freed.
    fn node(self) -> Option<Node> {
        match self {
            Stage::Held(node) => Some(node),
            _ => None,
        }
    }
}

/// A node's view: what its units from its last reset on make of it, and its list.
#[derive(Clone, Default)]
struct View {
    stage: Stage,
    /// Whether a unit after the last reset left more than 16 entries or stands after a value of 255.
    broken: bool,
    /// The places of the standing pages with its units from its last reset on.
    list: Vec<usize>,
}

impl View {
    /// Takes the node's following unit, read from the page at a place.
    fn take(&mut self, deed: Deed, place: usize) {
        match deed {
            Deed::Reset(FREED) => self.reset(Stage::Freed),
            Deed::Reset(level) => self.reset(Stage::Held(Node::empty(level))),
            Deed::Insert(key, value) => self.change(|node| node.put(key, value)),
            Deed::Delete(key) => self.change(|node| {
                node.take(key);
            }),
        }
        if !matches!(self.stage, Stage::NoReset) && self.list.last() != Some(&place) {
            self.list.push(place);
        }
    }

    /// A reset: what the units before it made of the node counts nothing.
    fn reset(&mut self, stage: Stage) {
        *self = View { stage, broken: false, list: Vec::new() };
    }

    /// An insert or a delete.
    fn change(&mut self, change: impl FnOnce(&mut Node)) {
        match &mut self.stage {
            Stage::Unused | Stage::NoReset => self.stage = Stage::NoReset,
            Stage::Freed => self.broken = true,
            Stage::Held(node) => {
                change(node);
                self.broken |= node.entries.len() > FULL;
            }
        }
    }
}

/// Step 4: the views of all node numbers below the limit, from the units of standing pages in order.
fn step_four(geometry: Geometry, image: &[u8], standing: &[Head], limit: usize) -> Result<Vec<View>, u32> {
    let mut views = vec![View::default(); limit];
    for head in standing {
        let page = chip::page(geometry, image, head.place);
        for bytes in page[HEAD..HEAD + head.units * UNIT].chunks_exact(UNIT) {
            let unit = unit::decode(bytes, limit).ok_or(BROKEN)?;
            views[unit.node as usize].take(unit.deed, head.place);
        }
    }
    if views.iter().any(|view| view.broken || matches!(view.stage, Stage::NoReset)) {
        return Err(BROKEN);
    }
    Ok(views)
}

/// Step 6: whether the nodes that are not freed are a tree. Node 0 freed, or a value that names a freed node, is none.
fn step_six(tree: &Tree) -> bool {
    let Some(Some(root)) = tree.nodes.first() else { return false };
    let mut reached = vec![false; tree.nodes.len()];
    reached[0] = true;
    let whole = subtree(tree, root, 0, 1 << 32, &mut reached);
    whole && tree.nodes.iter().zip(&reached).all(|(node, reached)| node.is_none() || *reached)
}

/// Whether a node and all below it obey step 6, its keys from a low bound to below an end. Notes the nodes reached.
fn subtree(tree: &Tree, node: &Node, low: u64, end: u64, reached: &mut [bool]) -> bool {
    if node.entries.iter().any(|entry| (entry.0 as u64) < low || entry.0 as u64 >= end) {
        return false;
    }
    if node.level == 0 {
        return true;
    }
    if node.entries.is_empty() || node.entries.len() > FULL || node.entries[0].0 as u64 != low {
        return false;
    }
    for (at, (key, value)) in node.entries.iter().enumerate() {
        let Some(Some(child)) = tree.nodes.get(*value as usize) else { return false };
        if child.level != node.level - 1 || reached[*value as usize] {
            return false;
        }
        reached[*value as usize] = true;
        let child_end = node.entries.get(at + 1).map_or(end, |next| next.0 as u64);
        if !subtree(tree, child, *key as u64, child_end, reached) {
            return false;
        }
    }
    true
}
