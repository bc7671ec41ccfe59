//! The ground of a commit: the head block, and the unused blocks in circular order after it.

use super::chip::{is_free, is_live};
use super::geometry::{Geometry, PLACES};
use super::state::State;
use super::unit::{word, HEADER};
use std::ops::Range;

/// The head block, and the unused blocks, the first `unused` of `ring`. `oldest` is the first used block after the head.
pub struct Ground {
    geometry: Geometry,
    head: usize,
    pub unused: usize,
    pub oldest: Option<usize>,
    ring: [u8; 32],
}

impl Ground {
    /// The unused blocks.
    fn blocks(&self) -> impl Iterator<Item = usize> + '_ {
        self.ring[..self.unused].iter().map(|&b| usize::from(b))
    }

    /// The free pages of the head block; a page is tested when it is asked for.
    fn own<'a>(&self, image: &'a [u8]) -> impl Iterator<Item = usize> + 'a {
        let geometry = self.geometry;
        pages_of(geometry, self.head).filter(move |&place| is_free(geometry.page_at(image, place)))
    }

    /// Whether the head block and `wide` unused blocks have `need` places. It tests pages of the head only until there are enough.
    pub fn has(&self, image: &[u8], wide: usize, need: usize) -> bool {
        let own = need.saturating_sub(self.geometry.pages * wide);
        self.own(image).take(own).count() == own
    }

    /// The places of a commit: the free pages of the head block, then all pages of the unused blocks.
    pub fn places<'a>(&'a self, image: &'a [u8]) -> impl Iterator<Item = usize> + 'a {
        self.own(image).chain(self.blocks().flat_map(|block| pages_of(self.geometry, block)))
    }

    /// The unused blocks that these places, the first of a commit, reach.
    pub fn reached(&self, places: &[usize]) -> impl Iterator<Item = usize> + '_ {
        let others = places.iter().filter(|&&place| self.geometry.block_of(place) != self.head).count();
        self.blocks().take(others.div_ceil(self.geometry.pages))
    }
}

/// The places of all pages of a block.
pub fn pages_of(geometry: Geometry, block: usize) -> Range<usize> {
    block * geometry.pages..(block + 1) * geometry.pages
}

impl State {
    /// The blocks that hold a page of some node's list, as a set.
    fn listed_blocks(&self) -> u32 {
        let bit = |place: u32| 1u32.checked_shl(self.geometry.block_of(place as usize) as u32).unwrap_or(0);
        self.listed().flat_map(|n| self.list(n)).fold(0, |set, &place| set | bit(place))
    }

    /// The head block, which holds the last page in order of all live ones, and the set of blocks with a page of commit G.
    fn head(&self, image: &[u8]) -> (usize, u32) {
        let geometry = self.geometry;
        let (mut last, mut set) = (0, 0);
        for (place, page) in image.chunks_exact(geometry.page()).enumerate().filter(|(_, page)| is_live(geometry, page)) {
            let (commit, index) = (word(&page[..HEADER], 0), page[4]);
            set |= u32::from(commit == self.commit) << geometry.block_of(place);
            last = last.max((u64::from(commit) << 8 | u64::from(index)) * PLACES as u64 + place as u64);
        }
        (geometry.block_of((last % PLACES as u64) as usize), set)
    }

    /// The head block, and the unused blocks: those that hold no page of a list and none of commit G.
    pub fn survey(&self, image: &[u8]) -> Ground {
        let (head, newest) = self.head(image);
        let used = newest | self.listed_blocks();
        let circle = || (head + 1..self.blocks).chain(0..head);
        let oldest = circle().find(|b| used >> b & 1 == 1);
        let mut ground = Ground { geometry: self.geometry, head, unused: 0, oldest, ring: [0; 32] };
        for b in circle().filter(|b| used >> b & 1 == 0) {
            ground.ring[ground.unused] = b as u8;
            ground.unused += 1;
        }
        ground
    }
}
