//! Steps 1 to 6: what an image means.

use super::geometry::PLACES;
use super::numbers::Numbers;
use super::standing::{place_of, Standing};
use super::state::State;
use super::tree::is_tree;
use super::unit::units_of;
use super::view::{Stage, View};

impl State {
    /// Steps 1 to 6 by the state's geometry, for node numbers below `limit`: the standing pages, or 7, 8 or 9. The node table and the
    /// numbers in use are read from the standing pages, and so are the views, which were untouched.
    pub fn read<'a>(
        &mut self,
        image: &[u8],
        limit: u32,
        keys: &'a mut [u64; PLACES],
        views: &mut [View; 256],
    ) -> Result<Standing<'a>, u32> {
        let standing = Standing::of(self.geometry, image, keys)?;
        self.lens = [0; 256];
        for &key in standing.keys() {
            let place = place_of(key);
            let units = units_of(self.geometry, self.geometry.page_at(image, place)).ok_or(8u32)?;
            if !self.note(units, place as u32, limit) {
                return Err(8);
            }
        }
        for n in 0..limit {
            match self.lens[n as usize] {
                0 => continue,
                1..=4 => views[n as usize] = self.stored(image, n, limit),
                _ => return Err(8),
            }
            if views[n as usize].stage == Stage::Broken {
                return Err(8);
            }
        }
        if !is_tree(&views[..limit as usize]) {
            return Err(9);
        }
        self.free = Numbers::of(views, limit);
        Ok(standing)
    }
}
