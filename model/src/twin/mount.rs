//! Mount: steps 1 to 6 on the image alone; after all checks the void pages get their obsolete mark.

use super::chip::{Chip, Mark};
use super::geometry::{Geometry, PLACES};
use super::state::State;
use super::thin::is_thin;
use super::told::{Counts, Told};
use super::view::View;

impl State {
    /// The image mounted: 1 size; 7, 8, 9; 12 a thin tree; 10.
    pub fn mount(&mut self, geometry: Geometry, image: &mut [u8], torn: &[u8], allowance: u32) -> Told {
        let blocks = geometry.sized(image.len(), torn.len());
        if blocks == 0 {
            return Told::quiet(1);
        }
        self.on = false;
        self.geometry = geometry;
        let (mut keys, mut views) = ([0; PLACES], [View::UNTOUCHED; 256]);
        let mut standing = match self.read(image, 8 * blocks as u32, &mut keys, &mut views) {
            Ok(standing) => standing,
            Err(refusal) => return Told::quiet(refusal),
        };
        if is_thin(&views) {
            return Told::quiet(12);
        }
        let mut chip = Chip::new(geometry, image, torn, allowance);
        let mut counts = Counts::default();
        for &place in standing.voids() {
            counts.take(chip.mark(place as usize, Mark::Obsolete));
        }
        self.on = !chip.is_gone();
        if self.on {
            self.erases = [0; 32];
        }
        self.blocks = blocks;
        self.commit = standing.commit();
        self.pending = 0;
        self.count = 0;
        chip.told(counts)
    }
}
