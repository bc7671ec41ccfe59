//! The tiny store's rebuild and its mount of thin trees, and their faults.
use super::{reply, Bug, State, Tiny};
use model::model::chip::{self, Operation, Power, OBSOLETE};
use model::model::counts::Counts;
use model::model::image::{meaning, Meaning, THIN};
use model::model::tree::{Node, Tree, FULL};
use model::model::unit::{encode, page_data, Deed, Unit, FREED, UNIT};

/// The units of a number.
type Units = Vec<[u8; UNIT]>;

/// Items dealt out to as few groups of at most 16 as there may be, as even as can be.
fn dealt<T: Clone>(items: &[T]) -> Vec<Vec<T>> {
    let groups = items.len().div_ceil(FULL).max(1);
    (0..groups).map(|at| items[at * items.len() / groups..(at + 1) * items.len() / groups].to_vec()).collect()
}

/// A tree of records that is not thin, on a chip with so many numbers: node 0 is the root, the others count from 1.
fn anew(records: &[(u32, u32)], limit: usize) -> Tree {
    let mut nodes = vec![None; limit];
    let (mut level, mut next) = (0, 1);
    let mut layer = dealt(records);
    while layer.len() > 1 {
        let mut above = Vec::new();
        for (at, entries) in layer.into_iter().enumerate() {
            above.push((if at == 0 { 0 } else { entries[0].0 }, next as u32));
            nodes[next] = Some(Node { level, entries });
            next += 1;
        }
        layer = dealt(&above);
        level += 1;
    }
    nodes[0] = Some(Node { level, entries: layer.remove(0) });
    Tree { nodes }
}

impl Tiny {
    /// Whether a mount turns a tree away as thin.
    pub(super) fn thin(&self, tree: &Tree) -> bool {
        let inner = |(number, node): (usize, &Option<Node>)| {
            node.as_ref().is_some_and(|node| number > 0 && node.level > 0 && node.entries.len() < 8 - self.is(Bug::ThinOfSeven) as usize)
        };
        let root = tree.node(0).level > 0 && tree.node(0).entries.len() < 2;
        let leaf = |node: &Node| node.level == 0 && node.entries.len() < 8;
        let inner = tree.nodes.iter().enumerate().any(inner);
        match self.bug {
            Bug::ThinNode => root,
            Bug::ThinRoot => inner,
            Bug::ThinRootOfTwo => inner || tree.node(0).level > 0 && tree.node(0).entries.len() < 3,
            Bug::ThinLeaf => inner || root || tree.node(0).level > 0 && tree.nodes.iter().flatten().any(leaf),
            _ => inner || root,
        }
    }

    /// The refusal of a mount for a thin tree, after the operations that a fault does before it.
    pub(super) fn too_thin(&mut self, means: &Meaning) -> Option<String> {
        if !self.thin(&means.tree) {
            return None;
        }
        let mut counts = Counts::NONE;
        if self.is(Bug::TwelveAfterMarks) {
            means
                .void
                .iter()
                .for_each(|place| chip::done(self.geometry, &mut self.buffer[..self.lent], &Operation::Mark(*place, OBSOLETE)));
            counts.marks = means.void.len() as u32;
        }
        if self.is(Bug::TwelveLeavesOn) {
            self.state = Some(self.state(means, self.lent / self.geometry.block()));
        }
        Some(reply(THIN, counts))
    }

    /// The state of what an image means.
    fn state(&self, means: &Meaning, blocks: usize) -> State {
        State { tree: means.tree.clone(), taken: Vec::new(), pending: 0, number: means.greatest, blocks }
    }

    /// The refusals of a rebuild that do not read the power.
    fn refuse(&mut self, blocks: usize) -> Result<Meaning, u32> {
        if self.is(Bug::RebuildOnlyOn) && self.state.is_none() {
            return Err(2);
        }
        let named = self.part(Bug::RebuildKeepsPart);
        let means = match meaning(named, self.image(), blocks) {
            Ok(means) => means,
            Err(refusal) => {
                if !self.is(Bug::RebuildRefusedOn) {
                    self.state = None;
                }
                return Err(refusal);
            }
        };
        if self.is(Bug::RebuildTwelve) && means.tree.thin() {
            return Err(THIN);
        }
        let share = blocks.div_ceil(8) - self.is(Bug::OneBlockFewer) as usize;
        let free = (0..blocks).filter(|block| chip::wholly_free(named, self.image(), *block)).count();
        let (last, few) = (means.greatest == u32::MAX, free < share + self.is(Bug::OneBlockMore) as usize);
        let refusal = match (last, few) {
            (true, true) if self.is(Bug::FiveBeforeSix) => 5,
            (true, _) => 6,
            (_, true) => 5,
            _ => return Ok(means),
        };
        if self.is(Bug::RebuildFiveOff) {
            self.state = None;
        }
        if self.is(Bug::RebuildFiveMarks) {
            means.void.iter().for_each(|place| chip::done(named, &mut self.buffer[..self.lent], &Operation::Mark(*place, OBSOLETE)));
        }
        Err(refusal)
    }

    /// The new tree of records.
    fn new_tree(&self, means: &Meaning) -> Tree {
        let mut records = means.tree.records();
        match self.bug {
            Bug::LosesRecord => drop(records.pop()),
            Bug::ChangesRecord => records.iter_mut().take(1).for_each(|record| record.1 ^= 1),
            Bug::PendingWritten => {
                let present = self.state.as_ref().filter(|state| state.pending > 0 && state.blocks == means.tree.nodes.len() / 8);
                records = present.map_or(records, |state| state.tree.records());
            }
            _ => {}
        }
        match self.bug {
            Bug::KeepsThin => means.tree.clone(),
            _ => anew(&records, means.tree.nodes.len()),
        }
    }

    /// The units of the new commit by number: those of the tree, and the reset of each other number that the image has.
    fn new_units(&self, means: &Meaning, tree: &Tree) -> Vec<(usize, Units)> {
        let unit = |number: usize, deed| encode(&Unit { node: number as u16, deed });
        let mut all = Vec::new();
        for (number, node) in tree.nodes.iter().enumerate() {
            let left = match self.bug {
                Bug::LeavesNode => means.tree.nodes[number].is_some(),
                Bug::LeavesFreed => means.freed(number),
                _ => false,
            };
            match node {
                Some(node) => {
                    let inserts = node.entries.iter().map(|entry| Deed::Insert(entry.0, entry.1));
                    all.push((number, [Deed::Reset(node.level)].into_iter().chain(inserts).map(|deed| unit(number, deed)).collect()));
                }
                None if means.lists[number].is_empty() || left => {}
                None => all.push((number, vec![unit(number, Deed::Reset(FREED))])),
            }
        }
        all
    }

    /// The pages of the new commit: numbers one behind the other.
    fn new_pages(&self, means: &Meaning, tree: &Tree) -> Vec<Units> {
        let room = if self.is(Bug::ManyBlocks) { 17 } else { self.geometry.room };
        let mut pages: Vec<Units> = vec![Vec::new()];
        for (_, units) in self.new_units(means, tree) {
            if self.is(Bug::NodeInTwo) && units.len() > 2 {
                pages.last_mut().unwrap().push(units[0]);
                pages.push(units[1..].to_vec());
                continue;
            }
            if pages.last().unwrap().len() + units.len() > room {
                pages.push(Vec::new());
            }
            pages.last_mut().unwrap().extend(units);
        }
        pages
    }

    /// The places for the new commit: in wholly free blocks, or where a fault puts it.
    fn new_places(&self, means: &Meaning, blocks: usize) -> Vec<usize> {
        let geometry = self.geometry;
        let places = |block: usize| block * geometry.pages..(block + 1) * geometry.pages;
        let free: Vec<usize> = (0..blocks).filter(|block| chip::wholly_free(geometry, self.image(), *block)).collect();
        match self.bug {
            Bug::OneBlockFewer if free.len() < blocks.div_ceil(8) => self.free_places(blocks),
            Bug::FreePages => self.free_places(blocks),
            Bug::RebuildErases => {
                let held = |block: usize| means.lists.iter().flatten().any(|place| place / geometry.pages == block);
                (0..blocks).filter(|block| !held(*block)).flat_map(places).collect()
            }
            Bug::ManyBlocks => (0..geometry.pages).flat_map(|at| free.iter().map(move |block| block * geometry.pages + at)).collect(),
            _ => free.into_iter().flat_map(places).collect(),
        }
    }

    /// All free pages.
    fn free_places(&self, blocks: usize) -> Vec<usize> {
        (0..blocks * self.geometry.pages).filter(|place| chip::free(chip::page(self.geometry, self.image(), *place))).collect()
    }

    /// Erases the blocks of pages that are not free, as a fault does.
    fn erase(&mut self, places: &[usize], power: &mut Power) {
        let geometry = self.geometry;
        for place in places {
            if !chip::free(chip::page(geometry, self.image(), *place)) {
                power.run(&mut self.buffer[..self.lent], &Operation::Erase(place / geometry.pages));
            }
        }
    }

    /// Sets the obsolete marks of void pages.
    fn spend_void(&mut self, means: &Meaning, power: &mut Power) {
        let mut void = means.void.clone();
        if self.is(Bug::VoidsHighestFirst) {
            void.reverse();
        }
        let image = &mut self.buffer[..self.lent];
        let _ = void.iter().all(|place| power.run(image, &Operation::Mark(*place, OBSOLETE)));
    }

    /// Rebuild.
    pub(super) fn rebuild(&mut self, allowance: u32) -> String {
        let named = self.part(Bug::RebuildKeepsPart);
        let Some(blocks) = self.whole(named) else { return reply(1, Counts::NONE) };
        let means = match self.refuse(blocks) {
            Ok(means) => means,
            Err(refusal) => return reply(refusal, Counts::NONE),
        };
        self.geometry = named;
        let old = self.state.clone();
        let tree = self.new_tree(&means);
        let (mut pages, places) = (self.new_pages(&means, &tree), self.new_places(&means, blocks));
        pages.truncate(places.len());
        let torn = self.torn.clone();
        let allowed = if self.is(Bug::RebuildTenAt2000) && allowance >= named.never_cut { 5 } else { allowance };
        let mut power = Power::new(named, allowed, &torn);
        let number = means.greatest + 1 - self.is(Bug::KeepsNumber) as u32;
        if !self.is(Bug::VoidsAfterPages) {
            self.spend_void(&means, &mut power);
        }
        self.write_new(&mut power, number, &pages, &places);
        if self.is(Bug::VoidsAfterPages) {
            self.spend_void(&means, &mut power);
        }
        self.rebuilt(&power, &means, old, blocks)
    }

    /// Writes the pages of the new commit.
    fn write_new(&mut self, power: &mut Power, number: u32, pages: &[Units], places: &[usize]) {
        let geometry = self.geometry;
        self.erase(&places[..pages.len()], power);
        let mut order: Vec<usize> = (0..pages.len()).collect();
        if self.is(Bug::LastIndexFirst) {
            order.reverse();
        }
        let count = pages.len() + self.is(Bug::LeavesLastPage) as usize;
        for index in order {
            let data = page_data(geometry, number, index as u8, count as u8, &pages[index]);
            if !chip::write_page(&mut self.buffer[..self.lent], power, places[index], &data) {
                return;
            }
        }
    }

    /// The state after a rebuild, and its reply.
    fn rebuilt(&mut self, power: &Power, old: &Meaning, state: Option<State>, blocks: usize) -> String {
        let mut counts = power.told();
        counts.marks += self.is(Bug::RebuildTold) as u32;
        if power.gone() {
            self.state = if self.is(Bug::RebuildCutOn) { state } else { None };
            return reply(10, counts);
        }
        let means = meaning(self.geometry, self.image(), blocks);
        self.state = Some(self.state(means.as_ref().unwrap_or(old), blocks));
        let fresh = self.state.as_mut().unwrap();
        match (self.bug, state) {
            (Bug::OldTree, _) => fresh.tree = old.tree.clone(),
            (Bug::OldNumber, _) => fresh.number = old.greatest,
            (Bug::PendingKept, Some(state)) if state.blocks == blocks => (fresh.tree, fresh.pending) = (state.tree, state.pending),
            (Bug::PendingCount, Some(state)) => fresh.pending = state.pending,
            (Bug::RebuildLeavesOff, _) => self.state = None,
            _ => {}
        }
        if !self.is(Bug::RebuildKeepsErases) {
            self.erases = [0; 32];
        }
        reply(0, counts)
    }
}
