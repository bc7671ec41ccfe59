//! Writes a tree over several commits: units that later resets override, replaced keys, deletes of absent keys, freed nodes,
//! nodes spread over up to 4 pages, pages at random places among rubbish.
use super::draft::{self, Draft, Page};
use crate::model::chip::{OBSOLETE, USED, VALID};
use crate::model::geometry::Geometry;
use crate::model::tree::{Node, Tree, FULL};
use crate::model::unit::{self, Deed, Unit, FREED, UNIT};
use crate::random::Random;
use std::collections::{BTreeMap, BTreeSet};

/// A draft whose meaning is a given tree, if the tree obeys step 6. Some of the other numbers are freed in it.
pub fn draft(random: &mut Random, geometry: Geometry, blocks: usize, tree: &Tree) -> Draft {
    let mut draft = draft_at(random, geometry, blocks, tree, (0..blocks * geometry.pages).collect());
    let held: BTreeSet<usize> = draft.pages.iter().map(|page| page.place).collect();
    let mut places: Vec<usize> = (0..blocks * geometry.pages).filter(|place| !held.contains(place)).collect();
    random.shuffle(&mut places);
    draft.others = rubbish(random, geometry, &places, blocks);
    draft
}

/// The same with pages at some places alone, and without other pages.
pub fn draft_at(random: &mut Random, geometry: Geometry, blocks: usize, tree: &Tree, mut places: Vec<usize>) -> Draft {
    loop {
        let freed = freed(random, tree);
        if let Some(slots) = slots(random, geometry, places.len(), tree, &freed) {
            let mut pages = commits(random, geometry, slots);
            pages.extend(void_commit(random, geometry, &pages, blocks, places.len()));
            random.shuffle(&mut places);
            for (page, place) in pages.iter_mut().zip(&places) {
                page.place = *place;
            }
            return Draft { geometry, blocks, pages, others: Vec::new(), patches: Vec::new() };
        }
    }
}

/// Numbers to be freed: none, all or some of those that the tree does not have, other than 0.
fn freed(random: &mut Random, tree: &Tree) -> Vec<usize> {
    let most = random.below(3);
    let rest = (1..tree.nodes.len()).filter(|number| tree.nodes[*number].is_none());
    rest.filter(|_| random.below(2) < most).collect()
}

/// The units of a node that make its view: the last reset, then inserts and deletes with at most 16 entries at any time.
fn view_units(random: &mut Random, number: u16, node: &Node) -> Vec<Unit> {
    let mut deeds = vec![Deed::Reset(node.level)];
    let mut view = BTreeMap::new();
    let put = |view: &mut BTreeMap<u32, u32>, deeds: &mut Vec<Deed>, key, value| {
        view.insert(key, value);
        deeds.push(Deed::Insert(key, value));
    };
    for _ in 0..random.below(9) {
        let known = node.entries.get(random.index(20)).copied();
        let key = known.map_or(random.next() as u32, |entry| entry.0);
        match random.below(3) {
            0 if view.len() < FULL => put(&mut view, &mut deeds, key, random.next() as u32),
            1 if view.len() < FULL => put(&mut view, &mut deeds, key, known.map_or(7, |entry| entry.1)),
            _ => {
                view.remove(&key);
                deeds.push(Deed::Delete(key));
            }
        }
    }
    let spent: Vec<u32> = view.keys().filter(|key| node.value(**key).is_none()).copied().collect();
    for key in spent {
        view.remove(&key);
        deeds.push(Deed::Delete(key));
    }
    let mut entries = node.entries.clone();
    random.shuffle(&mut entries);
    for (key, value) in entries {
        if view.get(&key) != Some(&value) {
            put(&mut view, &mut deeds, key, value);
        }
    }
    deeds.into_iter().map(|deed| Unit { node: number, deed }).collect()
}

/// Units of a node before its last reset: anything that obeys the layout, often more than 16 entries, at times freed at the end.
fn spent_units(random: &mut Random, number: u16) -> Vec<Unit> {
    let most = if random.once_in(6) { 25 } else { 4 };
    let mut deeds = Vec::new();
    for _ in 0..random.below(most) {
        let key = random.next() as u32;
        deeds.push(match random.below(8) {
            0 => any_reset(random),
            1 => Deed::Delete(key),
            _ => Deed::Insert(key, random.next() as u32),
        });
    }
    if random.once_in(6) {
        deeds.push(Deed::Reset(FREED));
    }
    deeds.into_iter().map(|deed| Unit { node: number, deed }).collect()
}

/// A reset at any level, or one that frees.
fn any_reset(random: &mut Random) -> Deed {
    Deed::Reset([0, 1, 2, 3, FREED][random.index(5)])
}

/// The units that a number has from its last reset on: those of its node, or the reset that frees it.
fn last_units(random: &mut Random, number: usize, tree: &Tree) -> Vec<Unit> {
    match &tree.nodes[number] {
        Some(node) => view_units(random, number as u16, node),
        None => vec![Unit { node: number as u16, deed: Deed::Reset(FREED) }],
    }
}

/// Pages' worth of units in order, for so many places, that make a tree and freed numbers; none when a node found no room.
fn slots(random: &mut Random, geometry: Geometry, places: usize, tree: &Tree, freed: &[usize]) -> Option<Vec<Vec<Unit>>> {
    let nodes = tree.nodes.iter().flatten().count();
    let most = places * 3 / 4;
    let least = nodes + 1 + freed.len() / 8;
    let mut slots = vec![Vec::new(); (least + random.index(2 * least)).min(most)];
    let mut order: Vec<usize> = (0..tree.nodes.len()).filter(|number| tree.nodes[*number].is_some()).collect();
    order.extend(freed);
    random.shuffle(&mut order);
    for number in order {
        let units = last_units(random, number, tree);
        let first = spread(random, geometry, &mut slots, &units)?;
        let spent = spent_units(random, number as u16);
        let early = random.index(first + 1);
        if slots[early].len() + spent.len() <= geometry.room {
            slots[early].splice(0..0, spent);
        }
    }
    slots.retain(|slot| !slot.is_empty());
    Some(slots)
}

/// Spreads a node's view over 1 to 4 slots in order; answers the first of them, none when there is no room.
fn spread(random: &mut Random, geometry: Geometry, slots: &mut [Vec<Unit>], units: &[Unit]) -> Option<usize> {
    for attempt in 0..60 {
        let parts = if attempt < 40 { 1 + random.index(4.min(units.len())) } else { 1 };
        let mut chosen: Vec<usize> = (0..parts).map(|_| random.index(slots.len())).collect();
        chosen.sort_unstable();
        let mut cuts: Vec<usize> = (1..parts).map(|_| random.index(units.len() + 1)).collect();
        cuts.push(0);
        cuts.push(units.len());
        cuts.sort_unstable();
        let mut lengths: Vec<usize> = slots.iter().map(Vec::len).collect();
        for (at, slot) in chosen.iter().enumerate() {
            lengths[*slot] += cuts[at + 1] - cuts[at];
        }
        if chosen.iter().any(|slot| lengths[*slot] > geometry.room) {
            continue;
        }
        for (at, slot) in chosen.iter().enumerate() {
            slots[*slot].extend_from_slice(&units[cuts[at]..cuts[at + 1]]);
        }
        let begin = (0..parts).find(|at| cuts[at + 1] > cuts[*at]).unwrap_or(0);
        return Some(chosen[begin]);
    }
    None
}

/// Divides slots into commits of one or more pages. Older commits may lack pages, the last is whole.
fn commits(random: &mut Random, geometry: Geometry, slots: Vec<Vec<Unit>>) -> Vec<Page> {
    let mut pages = Vec::new();
    let total = slots.len();
    let mut number = match random.below(4) {
        0 => u32::MAX - 4 * total as u32 + random.below(total as u64) as u32,
        1 => random.next() as u32 / 2,
        _ => 0,
    };
    let mut left = slots.into_iter().peekable();
    while left.peek().is_some() {
        number += 1 + random.below(3) as u32;
        let run: Vec<Vec<Unit>> = left.by_ref().take(1 + random.index(5)).collect();
        let last = left.peek().is_none();
        if last && random.once_in(12) {
            number = u32::MAX;
        }
        let (indexes, count) = indexes(random, run.len(), last);
        for (units, index) in run.into_iter().zip(indexes) {
            pages.push(Page::new(random, geometry, number, index, count, units.iter().map(unit::encode).collect()));
        }
    }
    pages
}

/// Indexes of a commit's pages in order and its count: all of them for a whole commit, else often with gaps.
fn indexes(random: &mut Random, pages: usize, whole: bool) -> (Vec<u8>, u8) {
    if whole || random.once_in(2) {
        return ((0..pages as u8).collect(), pages as u8);
    }
    let room = if random.once_in(3) { 255 - pages } else { 3 };
    let count = (pages + random.index(room + 1)) as u8;
    let mut all: Vec<u8> = (0..count).collect();
    random.shuffle(&mut all);
    let mut chosen = all[..pages].to_vec();
    chosen.sort_unstable();
    (chosen, count)
}

/// Pages of a commit above all others that lacks an index; their units may be anything.
fn void_commit(random: &mut Random, geometry: Geometry, pages: &[Page], blocks: usize, places: usize) -> Vec<Page> {
    let greatest = pages.last().map_or(0, |page| page.commit);
    let number = greatest.checked_add(1 + random.below(3) as u32);
    let (Some(number), true) = (number, random.once_in(2)) else { return Vec::new() };
    let room = places - pages.len();
    let most = if random.once_in(8) { room.min(254) } else { room.min(4) };
    let held = 1 + random.index(most);
    let count = (held + 1 + random.index(3)).min(255);
    let mut all: Vec<u8> = (0..count as u8).collect();
    random.shuffle(&mut all);
    let mut void = Vec::new();
    for index in &all[..held] {
        let units = any_units(random, geometry, blocks);
        let mut page = Page::new(random, geometry, number, *index, count as u8, units);
        page.void = true;
        void.push(page);
    }
    void
}

/// From one unit to as many as a page has room for, each as it comes.
fn any_units(random: &mut Random, geometry: Geometry, blocks: usize) -> Vec<[u8; UNIT]> {
    (0..1 + random.index(geometry.room)).map(|_| any_unit(random, blocks)).collect()
}

/// Twelve bytes: a unit that obeys the layout, or any bytes.
fn any_unit(random: &mut Random, blocks: usize) -> [u8; UNIT] {
    if random.once_in(8) {
        return std::array::from_fn(|_| random.byte());
    }
    let deed = match random.below(3) {
        0 => any_reset(random),
        1 => Deed::Delete(random.below(20) as u32),
        _ => Deed::Insert(random.below(20) as u32, random.next() as u32),
    };
    unit::encode(&Unit { node: random.below(8 * blocks as u64) as u16, deed })
}

/// Pages that are not live, at some of the places, the fewer the longer they are: rubbish, or the looks of a page of a commit.
fn rubbish(random: &mut Random, geometry: Geometry, places: &[usize], blocks: usize) -> Vec<(usize, Vec<u8>)> {
    let mut others = Vec::new();
    let (most, of) = (1 + random.below(4), 5 * (geometry.data / 512) as u64);
    for place in places {
        if random.below(of) < most {
            others.push((*place, dead_page(random, geometry, blocks)));
        }
    }
    others
}

/// A page that is not live: its valid mark is not set, or its obsolete mark is.
fn dead_page(random: &mut Random, geometry: Geometry, blocks: usize) -> Vec<u8> {
    let mut page: Vec<u8> = (0..geometry.page()).map(|_| random.byte()).collect();
    let (data, spare) = page.split_at_mut(geometry.data);
    if random.once_in(2) {
        let units = any_units(random, geometry, blocks);
        data.copy_from_slice(&unit::page_data(geometry, random.below(9) as u32 + 1, 0, 1, &units));
        spare.fill(255);
        spare[USED] = 0;
    }
    if random.once_in(2) {
        spare[OBSOLETE] = 0;
        spare[VALID] = 0;
    } else {
        spare[VALID] = draft::unset(random);
    }
    page
}
