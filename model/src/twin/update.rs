//! What insert and delete have in common: their tests, and the way down to the leaf of a key.

use super::state::{State, BUFFER};
use super::view::View;

/// The most updates that may be pending.
const PENDING: u32 = 16;

/// The most units of an update.
const UNITS: usize = 60;

/// The most nodes of a way: one of each level.
const LEVELS: usize = 4;

/// A node of the way: its number and its view.
pub type Spot = (u32, View);

/// The nodes from node 0 down to the leaf of a key.
pub struct Way {
    spots: [Spot; LEVELS],
    height: usize,
}

impl Way {
    /// The nodes, node 0 first.
    pub fn spots(&mut self) -> &mut [Spot] {
        &mut self.spots[..=self.height]
    }

    /// The leaf.
    pub fn leaf(&mut self) -> &mut Spot {
        &mut self.spots[self.height]
    }
}

impl State {
    /// The tests 2, 1 and 3 of insert and delete.
    pub fn admit_update(&self, image: &[u8]) -> Result<(), u32> {
        self.admit(image)?;
        if self.pending >= PENDING {
            return Err(3);
        }
        Ok(())
    }

    /// Whether the buffer lacks room for the units of an update, which it never does on an image left alone.
    pub fn is_crowded(&self) -> bool {
        self.count > BUFFER - UNITS
    }

    /// The way to the leaf of `key`, each node read from its pages and then from the buffer.
    pub fn way(&self, image: &[u8], key: u32) -> Way {
        let mut spots = [(0, View::UNTOUCHED); LEVELS];
        spots[0].1 = self.view(image, 0);
        let height = spots[0].1.level as usize;
        for i in 0..height {
            let child = spots[i].1.child(key);
            spots[i + 1] = (child, self.view(image, child));
        }
        Way { spots, height }
    }
}
