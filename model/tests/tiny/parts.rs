//! What frame 17 names, what the store keeps of it, and its faults.
use super::{Bug, Tiny};
use model::model::chip;
use model::model::geometry::Geometry;

impl Tiny {
    /// The geometry named; the store's where a fault takes that instead.
    pub(super) fn part(&self, kept: Bug) -> Geometry {
        if self.is(kept) {
            self.geometry
        } else {
            self.named
        }
    }

    /// The geometry with which the calls that can give 2 read the image's length.
    pub(super) fn sized(&self) -> Geometry {
        if self.is(Bug::CallsTakeNamedSize) {
            self.named
        } else {
            self.geometry
        }
    }

    /// Whether a commit takes the torn bytes lent.
    pub(super) fn torn_fits(&self) -> bool {
        let named = self.is(Bug::CommitTakesNamedTorn) && self.torn_lent == self.named.torn;
        let small = self.is(Bug::CommitTakesSmallTorn) && self.torn_lent == Geometry::SMALL.torn;
        named || small || self.torn_lent == self.geometry.torn
    }

    /// The free pages of a block and the first of them.
    pub(super) fn free_pages(&self, block: usize) -> (usize, usize) {
        let (count, first) = chip::free_pages(self.geometry, self.image(), block);
        match self.bug {
            Bug::ReportNone32 if count == 0 => (0, 32),
            Bug::ReportOf32 => (count.min(32), first),
            _ => (count, first),
        }
    }

    /// The most blocks that frame 10 lends.
    pub(super) fn most_blocks(&self) -> usize {
        if self.named == Geometry::SMALL || self.is(Bug::FortyLargeBlocks) {
            40
        } else {
            33
        }
    }

    /// Frame 17.
    pub(super) fn name(&mut self, part: u8) -> String {
        let most = 1 + self.is(Bug::NameTakesTwo) as u8;
        if part <= most || self.is(Bug::NameRefusedNames) {
            self.named = [Geometry::SMALL, Geometry::LARGE][(part > 0) as usize];
        }
        if part > most {
            return "FF".to_string();
        }
        match self.bug {
            Bug::NameChangesStore => self.geometry = self.named,
            Bug::NameTurnsOff => self.state = None,
            Bug::NameLendsTorn => self.torn_lent = self.named.torn,
            Bug::NameWrites => self.buffer[..self.lent].fill(255),
            _ => {}
        }
        "00".to_string()
    }
}
