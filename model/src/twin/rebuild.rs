//! Rebuild: the records of any image that steps 1 to 6 pass, thin or not, written as commit G + 1 in a tree that mount accepts, into
//! blocks that are free already.

use super::chip::{is_blank, Chip, Mark};
use super::geometry::{Geometry, PLACES};
use super::ground::pages_of;
use super::layers::lay_anew;
use super::numbers::Numbers;
use super::plan::{Plan, Sorted};
use super::state::State;
use super::told::{Counts, Told};
use super::view::View;

/// The first wholly free blocks of a chip, one block in eight, rounded up; none where there are fewer.
fn free_blocks(geometry: Geometry, image: &[u8], blocks: usize) -> Option<Vec<usize>> {
    let need = blocks.div_ceil(8);
    let free: Vec<usize> = (0..blocks).filter(|&block| is_blank(geometry.block_at(image, block))).take(need).collect();
    (free.len() == need).then_some(free)
}

impl State {
    /// The image rebuilt: 1 size; 7, 8, 9; 6 no commit number is left, 5 too few blocks are wholly free; 10. The state is off after 7, 8,
    /// 9 and 10; after 1, 6 and 5 it is as it was.
    pub fn rebuild(&mut self, geometry: Geometry, image: &mut [u8], torn: &[u8], allowance: u32) -> Told {
        let blocks = geometry.sized(image.len(), torn.len());
        if blocks == 0 {
            return Told::quiet(1);
        }
        let (mut keys, mut views) = ([0; PLACES], [View::UNTOUCHED; 256]);
        let mut new = State { geometry, blocks, ..State::new() };
        let mut standing = match new.read(image, new.limit(), &mut keys, &mut views) {
            Ok(standing) => standing,
            Err(refusal) => {
                self.on = false;
                return Told::quiet(refusal);
            }
        };
        new.commit = standing.commit();
        if new.commit == u32::MAX {
            return Told::quiet(6);
        }
        let Some(free) = free_blocks(geometry, image, blocks) else { return Told::quiet(5) };
        lay_anew(&mut views);
        let mut chip = Chip::new(geometry, image, torn, allowance);
        let told = new.write_anew(&mut chip, standing.voids(), &views, &free);
        match told.refusal {
            0 => *self = new,
            _ => self.on = false,
        }
        told
    }

    /// The void pages get their obsolete mark, then all nodes of these views are written as commit G + 1 into these blocks. Every number with a
    /// list has a reset there, so the node table becomes that of this commit alone. The state is on where it is finished.
    fn write_anew(&mut self, chip: &mut Chip, voids: &[u64], views: &[View; 256], blocks: &[usize]) -> Told {
        let mut counts = Counts::default();
        for &place in voids {
            counts.take(chip.mark(place as usize, Mark::Obsolete));
        }
        let (plan, none) = (Plan::anew(views, self.geometry.units), Sorted::of(&[], self.limit()));
        let places = blocks.iter().flat_map(|&block| pages_of(self.geometry, block));
        let places: Vec<usize> = places.take(plan.pages).collect();
        for (index, place) in places.into_iter().enumerate() {
            self.write_page(chip, &none, &plan, index, place, &mut counts);
        }
        self.on = !chip.is_gone();
        self.commit += 1;
        self.free = Numbers::of(views, self.limit());
        chip.told(counts)
    }
}
