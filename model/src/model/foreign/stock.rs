//! Chips in stock: images of a tree with so many wholly free blocks, for rebuild.
use super::draft::{unset, Draft};
use super::history;
use crate::model::chip::{OBSOLETE, USED};
use crate::model::geometry::Geometry;
use crate::model::tree::Tree;
use crate::random::Random;
use std::collections::BTreeSet;

/// How many blocks are wholly free: those that a rebuild asks for, one fewer, or some more.
#[derive(Clone, Copy, Debug, PartialEq, Eq)]
pub enum Free {
    Enough,
    OneFewer,
    More,
}

/// What an image in stock has besides its tree.
#[derive(Clone, Copy)]
pub struct Stock {
    pub free: Free,
    /// The greatest standing number, where it is given.
    pub number: Option<u32>,
}

/// An image of a tree on a chip of a number of blocks, at times with void pages and freed numbers.
pub fn stock(random: &mut Random, geometry: Geometry, blocks: usize, tree: &Tree, stock: Stock) -> Vec<u8> {
    let mut order: Vec<usize> = (0..blocks).collect();
    random.shuffle(&mut order);
    let free: BTreeSet<usize> = order[..free_blocks(random, blocks, stock.free)].iter().copied().collect();
    let places = (0..blocks * geometry.pages).filter(|place| !free.contains(&(place / geometry.pages))).collect();
    let mut draft = history::draft_at(random, geometry, blocks, tree, places);
    if let Some(number) = stock.number {
        renumber(&mut draft, number);
    }
    for block in order.iter().filter(|block| !free.contains(block)) {
        touch(random, &mut draft, *block);
    }
    draft.render()
}

/// The number of wholly free blocks.
fn free_blocks(random: &mut Random, blocks: usize, free: Free) -> usize {
    let share = blocks.div_ceil(8);
    match free {
        Free::Enough => share,
        Free::OneFewer => share - 1,
        Free::More => share + 1 + random.index(blocks / 2 - share.min(blocks / 2 - 1)),
    }
}

/// Gives the greatest standing commit a number; void pages stay where theirs is greater.
fn renumber(draft: &mut Draft, number: u32) {
    let greatest = draft.greatest();
    draft.pages.retain(|page| !page.void || page.commit > number);
    draft.pages.iter_mut().filter(|page| page.commit == greatest && !page.void).for_each(|page| page.commit = number);
}

/// A block without a live page gets one byte that is not 255: of its data, or a mark of a page that is not live.
fn touch(random: &mut Random, draft: &mut Draft, block: usize) {
    let geometry = draft.geometry;
    if draft.pages.iter().any(|page| page.place / geometry.pages == block) {
        return;
    }
    let places = [0, geometry.pages - 1, random.index(geometry.pages)];
    let page = draft.offset(block * geometry.pages + places[random.index(3)]);
    let at = [0, geometry.data - 1, geometry.data + USED, geometry.data + USED, geometry.data + OBSOLETE, geometry.page() - 1];
    let byte = match random.below(3) {
        0 => 0,
        1 => 254,
        _ => unset(random).min(254),
    };
    draft.patches.push((page + at[random.index(6)], byte));
}
