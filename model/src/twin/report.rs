//! Block report: how many pages of a block are free, the first free one, and the block's erases on record.

use super::chip::free_set;
use super::state::State;

/// What a report tells: the free pages, the first free one, the pages of a block if none, and the erases since the last finished mount or format.
#[derive(Clone, Copy, PartialEq, Eq, Debug)]
pub struct Report {
    pub free: u32,
    pub first: u32,
    pub erases: u64,
}

impl State {
    /// The report of a block; else the refusal, 2, 1 or 4.
    pub fn block_report(&self, image: &[u8], block: u32) -> Result<Report, u32> {
        self.admit(image)?;
        let b = block as usize;
        if b >= self.blocks {
            return Err(4);
        }
        let free = free_set(self.geometry, self.geometry.block_at(image, b));
        let first = free.trailing_zeros().min(self.geometry.pages as u32);
        Ok(Report { free: free.count_ones(), first, erases: self.erases[b] })
    }
}
