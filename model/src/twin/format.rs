//! Format: all blocks erased, lowest first, and commit 1 written into the first page of block 0.

use super::chip::Chip;
use super::geometry::{Geometry, AREA};
use super::numbers::Numbers;
use super::state::State;
use super::told::{Counts, Told};
use super::unit::{encode, put_header, Header, Update};

impl State {
    /// The chip formatted: 1 size, 10 power gone.
    pub fn format(&mut self, geometry: Geometry, image: &mut [u8], torn: &[u8], allowance: u32) -> Told {
        let blocks = geometry.sized(image.len(), torn.len());
        if blocks == 0 {
            return Told::quiet(1);
        }
        let mut data = [255; AREA];
        put_header(&mut data, Header { commit: 1, index: 0, count: 1 }, 1);
        data[8..20].copy_from_slice(&encode(0, Update::Reset(0)));
        let mut chip = Chip::new(geometry, image, torn, allowance);
        let mut counts = Counts::default();
        for block in 0..blocks {
            counts.take(chip.erase(block));
        }
        chip.write(0, &data[..geometry.area], &mut counts);
        self.on = !chip.is_gone();
        if self.on {
            self.begin_anew(geometry, blocks);
        }
        chip.told(counts)
    }

    /// The state after a finished format: one empty leaf, node 0, on page 0, and no erase on record, not even the format's own.
    fn begin_anew(&mut self, geometry: Geometry, blocks: usize) {
        self.geometry = geometry;
        self.blocks = blocks;
        self.commit = 1;
        self.pending = 0;
        self.free = Numbers::fresh(self.limit());
        self.count = 0;
        self.lens = [0; 256];
        self.lens[0] = 1;
        self.slots[0] = 0;
        self.erases = [0; 32];
    }
}
