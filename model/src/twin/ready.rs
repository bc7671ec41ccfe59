//! A commit made ready, before its first operation: the tests, the choice of delta or snapshot, the places of its pages, and the blocks
//! that are erased for them.

use super::chip::is_blank;
use super::geometry::{Geometry, SMALL};
use super::ground::Ground;
use super::plan::{Plan, Sorted, MOST};
use super::state::{State, BUFFER};
use super::told::Counts;

/// The most blocks that the places of a commit and one more reach; they are those of the part with the fewest pages a block.
const REACH: usize = MOST / SMALL.pages + 1;

/// Where a plan goes: the places of its pages and one more, and the blocks that are erased before, in their order.
pub struct Site {
    places: [usize; MOST + 1],
    pages: usize,
    blocks: [usize; REACH],
    erases: usize,
}

impl Site {
    /// The first places of the ground for so many pages; of the blocks that they and one more reach, those that are not wholly free.
    fn of(geometry: Geometry, ground: &Ground, image: &[u8], pages: usize) -> Site {
        let mut site = Site { places: [0; MOST + 1], pages, blocks: [0; REACH], erases: 0 };
        let places = &mut site.places[..=pages];
        places.iter_mut().zip(ground.places(image)).for_each(|(slot, place)| *slot = place);
        for block in ground.reached(places) {
            if !is_blank(geometry.block_at(image, block)) {
                site.blocks[site.erases] = block;
                site.erases += 1;
            }
        }
        site
    }

    /// The places of the pages.
    pub fn places(&self) -> &[usize] {
        &self.places[..self.pages]
    }

    /// The blocks to be erased.
    pub fn blocks(&self) -> &[usize] {
        &self.blocks[..self.erases]
    }

    /// The operations of the whole commit: a program and two marks for each page, and the erases.
    pub fn counts(&self) -> Counts {
        Counts { programs: self.pages as u32, marks: 2 * self.pages as u32, erases: self.erases as u32 }
    }
}

impl State {
    /// The tests before a plan is made: 2, 1, 0 where nothing is pending, 6 where no commit number is left or the buffer is overfull.
    pub fn admit_commit(&self, image: &[u8]) -> Result<(), u32> {
        self.admit(image)?;
        if self.pending == 0 {
            return Err(0);
        }
        if self.commit == u32::MAX || self.count > BUFFER {
            return Err(6);
        }
        Ok(())
    }

    /// The pending updates planned, and the site of the plan; none where there is no room, or no page, which only an image changed since
    /// leads to.
    pub fn make_ready(&self, image: &[u8], sorted: &Sorted, plan: &mut Plan) -> Option<Site> {
        let ground = self.survey(image);
        let chosen = self.choose(image, &ground, sorted, plan);
        (chosen && plan.pages > 0).then(|| Site::of(self.geometry, &ground, image, plan.pages))
    }

    /// The spare blocks: those that the most pages of a snapshot, 4 * B, fill, and one more.
    fn spare_blocks(&self) -> usize {
        self.geometry.block_of(4 * self.blocks) + 1
    }

    /// A delta where the unused blocks but the spare ones have places for its pages and one more, else a snapshot on the spare ones,
    /// else none. Whether there is one.
    fn choose(&self, image: &[u8], ground: &Ground, sorted: &Sorted, plan: &mut Plan) -> bool {
        let wide = ground.unused.saturating_sub(self.spare_blocks());
        self.delta(image, sorted, ground, plan);
        if ground.has(image, wide, plan.pages + 1) {
            return true;
        }
        self.snapshot(image, sorted, plan);
        ground.has(image, ground.unused - wide, plan.pages + 1)
    }
}
