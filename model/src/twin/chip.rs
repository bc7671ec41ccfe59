//! The chip: which pages are free or live, and the three flash operations under an allowance.

use super::geometry::{Geometry, SMALL};
use super::told::{Counts, Kind, Told};

/// The three marks, each by its spare byte.
#[derive(Clone, Copy)]
pub enum Mark {
    Used = 0,
    Valid = 1,
    Obsolete = 2,
}

/// Whether all bytes are 255: of a page, whether it is free. It ends at the first byte that is not.
pub fn is_blank(bytes: &[u8]) -> bool {
    bytes.iter().all(|&b| b == 255)
}

/// Whether a page is live: its valid mark is set and its obsolete mark is not.
#[inline]
pub fn is_live(geometry: Geometry, page: &[u8]) -> bool {
    matches!(page[geometry.area..], [_, 0, obsolete, ..] if obsolete != 0)
}

/// Whether a page is free. One of the small part is tested as an array, whose length the compiler knows.
pub fn is_free(page: &[u8]) -> bool {
    match <&[u8; SMALL.page()]>::try_from(page) {
        Ok(small) => is_blank(small),
        Err(_) => is_blank(page),
    }
}

/// The free pages of a block, as a set of page numbers within it.
pub fn free_set(geometry: Geometry, block: &[u8]) -> u64 {
    block.chunks_exact(geometry.page()).enumerate().fold(0, |set, (i, page)| set | u64::from(is_free(page)) << i)
}

/// What becomes of an operation.
enum Outcome {
    Whole,
    Torn,
    Nothing,
}

impl Outcome {
    /// What an operation of this kind tells: its kind where it was done whole, else nothing.
    fn tells(&self, kind: Kind) -> Option<Kind> {
        matches!(self, Outcome::Whole).then_some(kind)
    }
}

/// The chip under an allowance: each operation is done whole, torn, or not at all, and tells its kind where it is done whole.
pub struct Chip<'a> {
    geometry: Geometry,
    pub image: &'a mut [u8],
    torn: &'a [u8],
    left: u32,
    gone: bool,
}

impl<'a> Chip<'a> {
    /// The chip with power for `allowance` operations; the torn slice has the length of a page.
    pub fn new(geometry: Geometry, image: &'a mut [u8], torn: &'a [u8], allowance: u32) -> Chip<'a> {
        Chip { geometry, image, torn, left: allowance, gone: false }
    }

    /// Whether an operation was torn.
    pub fn is_gone(&self) -> bool {
        self.gone
    }

    /// What a call tells that has done these operations.
    pub fn told(&self, counts: Counts) -> Told {
        Told { refusal: if self.gone { 10 } else { 0 }, counts }
    }

    /// What becomes of the next operation, and the power after it.
    fn spend(&mut self) -> Outcome {
        if self.gone {
            return Outcome::Nothing;
        }
        if self.left == 0 {
            self.gone = true;
            return Outcome::Torn;
        }
        self.left -= 1;
        Outcome::Whole
    }

    /// One mark of the page at `place` set.
    #[must_use]
    pub fn mark(&mut self, place: usize, mark: Mark) -> Option<Kind> {
        let at = place * self.geometry.page() + self.geometry.area + mark as usize;
        let outcome = self.spend();
        match outcome {
            Outcome::Whole => self.image[at] = 0,
            Outcome::Torn => self.image[at] = self.torn[0],
            Outcome::Nothing => {}
        }
        outcome.tells(Kind::Mark)
    }

    /// The data area of the page at `place` programmed.
    #[must_use]
    fn program(&mut self, place: usize, data: &[u8]) -> Option<Kind> {
        let (at, area) = (place * self.geometry.page(), self.geometry.area);
        let outcome = self.spend();
        match outcome {
            Outcome::Whole => self.image[at..at + area].copy_from_slice(data),
            Outcome::Torn => self.image[at..at + area].copy_from_slice(&self.torn[..area]),
            Outcome::Nothing => {}
        }
        outcome.tells(Kind::Program)
    }

    /// A block erased; where power runs out, untouched if torn byte 0 is 0 and else full of torn pages.
    #[must_use]
    pub fn erase(&mut self, block: usize) -> Option<Kind> {
        let size = self.geometry.block();
        let outcome = self.spend();
        let bytes = &mut self.image[block * size..][..size];
        match outcome {
            Outcome::Whole => bytes.fill(255),
            Outcome::Torn if self.torn[0] != 0 => bytes.chunks_exact_mut(self.torn.len()).for_each(|page| {
                page.copy_from_slice(self.torn);
                page[self.geometry.area..].iter_mut().filter(|b| **b == 0).for_each(|b| *b = 255);
            }),
            _ => {}
        }
        outcome.tells(Kind::Erase)
    }

    /// A page written and counted: used mark, data, valid mark. The data has the length of a data area.
    pub fn write(&mut self, place: usize, data: &[u8], counts: &mut Counts) {
        counts.take(self.mark(place, Mark::Used));
        counts.take(self.program(place, data));
        counts.take(self.mark(place, Mark::Valid));
    }
}
