//! Commit: the pending updates written as commit G + 1, as a delta where that leaves enough unused blocks, else as a snapshot.

use super::chip::Chip;
use super::geometry::AREA;
use super::plan::{Plan, Sorted};
use super::ready::Site;
use super::state::State;
use super::told::{Counts, Told};
use super::unit::{put_header, Header, UNIT};

impl State {
    /// The pending updates committed: 2, 1, 6, 10.
    pub fn commit(&mut self, image: &mut [u8], torn: &[u8], allowance: u32) -> Told {
        if self.on && torn.len() != self.geometry.page() {
            return Told::quiet(1);
        }
        if let Err(refusal) = self.admit_commit(image) {
            return Told::quiet(refusal);
        }
        let sorted = Sorted::of(self.buffered(), self.limit());
        let mut plan = Plan::empty();
        match self.make_ready(image, &sorted, &mut plan) {
            Some(site) => self.carry_out(&mut Chip::new(self.geometry, image, torn, allowance), &sorted, &plan, &site),
            None => Told::quiet(6),
        }
    }

    /// A plan done: the blocks of its site are erased, then its pages are written and noted in the node table; finished, its erases are
    /// put on record.
    fn carry_out(&mut self, chip: &mut Chip, sorted: &Sorted, plan: &Plan, site: &Site) -> Told {
        let mut counts = Counts::default();
        for &block in site.blocks() {
            counts.take(chip.erase(block));
        }
        for (index, &place) in site.places().iter().enumerate() {
            self.write_page(chip, sorted, plan, index, place, &mut counts);
            if chip.is_gone() {
                break;
            }
        }
        self.on = !chip.is_gone();
        if self.on {
            self.record(site.blocks());
        }
        self.commit += 1;
        self.pending = 0;
        self.count = 0;
        chip.told(counts)
    }

    /// One more erase on record for each of these blocks.
    fn record(&mut self, blocks: &[usize]) {
        for &block in blocks {
            self.erases[block] = self.erases[block].wrapping_add(1);
        }
    }

    /// One page of commit G + 1 built from the nodes as they are then, written at its place, counted and noted.
    pub fn write_page(&mut self, chip: &mut Chip, sorted: &Sorted, plan: &Plan, index: usize, place: usize, counts: &mut Counts) {
        let mut room = [255; AREA];
        let data = &mut room[..self.geometry.area];
        let units = self.gather(sorted, plan, index, data);
        let header = Header { commit: self.commit + 1, index: index as u8, count: plan.pages as u8 };
        put_header(data, header, units);
        chip.write(place, data, counts);
        self.note(&data[8..].as_chunks::<UNIT>().0[..units], place as u32, self.limit());
    }
}
