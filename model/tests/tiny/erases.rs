//! The tiny store's erases of each block, and their faults.
use super::{Bug, Tiny};
use model::model::counts::Counts;

impl Tiny {
    /// The start by a format.
    pub(super) fn formatted(&mut self) {
        if !self.is(Bug::FormatKeepsErases) {
            self.erases = [self.is(Bug::FormatErasesCounted) as u64; 32];
        }
    }

    /// The start by a mount.
    pub(super) fn mounted(&mut self) {
        if !self.is(Bug::MountKeepsErases) {
            self.erases = [0; 32];
        }
    }

    /// Counts what a commit did whole; all its erases are of one block.
    pub(super) fn count(&mut self, block: usize, done: Counts) {
        let blocks = self.lent / self.geometry.block();
        let (at, more) = match self.bug {
            Bug::EraseNotCounted => (block, 0),
            Bug::EraseCountedTwice => (block, 2 * done.erases),
            Bug::EraseOfNextBlock => ((block + 1) % blocks, done.erases),
            Bug::HiddenEraseNotCounted => (block, done.erases / 2),
            Bug::MarksCounted => (block, done.erases + done.marks),
            _ => (block, done.erases),
        };
        self.erases[at] += more as u64;
    }

    /// The digits of a block's figure.
    pub(super) fn figure(&self, block: usize) -> String {
        let figure = self.erases[block];
        match self.bug {
            Bug::ErasesTurned => format!("{:016X}", figure.swap_bytes()),
            Bug::ErasesShort => format!("{figure:08X}"),
            _ => format!("{figure:016X}"),
        }
    }
}
