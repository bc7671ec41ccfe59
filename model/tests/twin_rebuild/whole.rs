//! Rebuilds with power enough on random chips: bytes and counts as they are defined, and what a look at the chip finds.
use super::chips::{any_plan, chip};
use super::expected::{free_blocks, numbers, ops, rebuilt, run};
use super::reader::{read, Meaning};
use super::tables::{is_thick, is_thin, records, table_of, Sizes};
use super::{eighth, torn, ENOUGH};
use model::random::Random;
use model::twin::geometry::{Geometry, LARGE, SMALL};
use model::twin::state::State;
use std::collections::BTreeSet;

/// Whether two states that are on are equal, but for bytes that do not count.
fn equal(x: &State, y: &State) -> bool {
    let parts = |state: &State| (state.geometry, state.blocks, state.commit, state.pending, state.count, state.free, state.erases);
    x.on && y.on && parts(x) == parts(y) && (0..256).all(|number| x.list(number) == y.list(number))
}

/// The state after a rebuild is that of a mount of the image, which a mount does not change.
fn as_mounted(part: Geometry, state: &State, image: &[u8]) {
    let (mut read, mut same) = (State::new(), image.to_vec());
    let told = read.mount(part, &mut same, &torn(part), 0);
    assert_eq!((told.refusal, told.counts.total()), (0, 0));
    assert!(same == image && equal(state, &read));
    assert_eq!((state.pending, state.erases), (0, [0; 32]));
}

/// The pages that differ, but for the void ones, stand in blocks that were free, at most one in eight, rounded up.
fn few_blocks(part: Geometry, old: &Meaning, before: &[u8], after: &[u8]) {
    let pages = before.chunks_exact(part.page()).zip(after.chunks_exact(part.page())).enumerate();
    let changed = pages.filter(|(place, (x, y))| x != y && !old.voids.contains(place));
    let written: BTreeSet<usize> = changed.map(|(place, _)| place / part.pages).collect();
    let free = free_blocks(part, before);
    assert!(written.iter().all(|block| free.contains(block)) && written.len() <= eighth(before.len() / part.block()));
}

/// The new commit holds the same records in few thick nodes, each on one page; every other number of the chip is freed.
fn good_tree(old: &Meaning, new: &Meaning) {
    assert_eq!(new.number, old.number + 1);
    assert!(records(&new.table) == records(&old.table) && new.table == rebuilt(records(&old.table)));
    assert!(is_thick(&new.table) && new.table.len() <= old.table.len());
    assert!(new.voids.is_empty() && new.lists.values().all(|list| list.len() == 1));
    assert!(new.lists.keys().eq(&numbers(old, &new.table)));
    assert!(new.lists.keys().all(|number| new.table.contains_key(number) != new.freed.contains(number)));
}

/// A rebuild of a chip with power enough: the state, and what the chip meant before.
pub fn rebuild(part: Geometry, image: &mut Vec<u8>) -> (State, Meaning) {
    let (old, before) = (read(part, image), image.clone());
    let (mut state, mut defined) = (State::new(), before.clone());
    let told = state.rebuild(part, image, &torn(part), ENOUGH);
    let counts = run(part, &mut defined, &torn(part), ENOUGH as usize, &ops(part, &before, &old));
    assert_eq!((told.refusal, told.counts), (0, counts));
    assert!(*image == defined);
    few_blocks(part, &old, &before, image);
    good_tree(&old, &read(part, image));
    as_mounted(part, &state, image);
    assert!(table_of(&state, image) == read(part, image).table);
    (state, old)
}

/// Random chips of a part: trees of all heights, most of them thin, with exactly as many free blocks as it takes and with more.
fn chips(part: Geometry, rounds: usize) {
    let mut random = Random::new(61);
    let (mut thin, mut heights) = ([0; 4], BTreeSet::new());
    for round in 0..rounds {
        let (blocks, level) = ([3, 8, 9, 32][round % 4], round / 4 % 4);
        let sizes = [Sizes::Any, Sizes::Slim, Sizes::Thin, Sizes::Ends][round / 16 % 4];
        let more = if random.once_in(2) { 0 } else { random.index((blocks - eighth(blocks)) / 2) };
        let plan = any_plan(&mut random, blocks, level as u32, sizes, eighth(blocks) + more);
        let mut image = chip(&mut random, part, blocks, &plan);
        assert!(free_blocks(part, &image).len() == plan.free);
        let (state, old) = rebuild(part, &mut image);
        assert!(old.table == plan.table && old.number == plan.number && old.voids.len() == plan.voids && old.freed.len() == plan.freed);
        thin[level] += usize::from(is_thin(&old.table));
        heights.insert((level, state.view(&image, 0).level));
    }
    println!("pages of {} bytes: thin trees by height {thin:?}, heights before and after {heights:?}", part.page());
    assert!(thin[1..].iter().all(|&count| count > rounds / 32) && heights.len() > 6);
}

/// Chips of the small part.
#[test]
fn small() {
    chips(SMALL, 640);
}

/// Chips of the large part.
#[test]
fn large() {
    chips(LARGE, 192);
}
