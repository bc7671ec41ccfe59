//! The chip of document 01, 'Chip and power', of a geometry: pages, marks, the three flash operations and their torn effects.
use super::counts::{Counts, Kind};
use super::geometry::Geometry;

/// Spare byte of the used mark.
pub const USED: usize = 0;
/// Spare byte of the valid mark.
pub const VALID: usize = 1;
/// Spare byte of the obsolete mark.
pub const OBSOLETE: usize = 2;

/// Bytes of 255, as many as the longest page has.
static BLANK: [u8; Geometry::LARGE.page()] = [255; Geometry::LARGE.page()];

/// As many bytes of 255 as asked for, at most those of a page.
pub fn blank(length: usize) -> &'static [u8] {
    &BLANK[..length]
}

/// The bytes of the page at a place, counted from 0 through the whole chip.
pub fn page(geometry: Geometry, image: &[u8], place: usize) -> &[u8] {
    &image[place * geometry.page()..(place + 1) * geometry.page()]
}

/// The data area of the page at a place, to be changed.
fn data_mut(geometry: Geometry, image: &mut [u8], place: usize) -> &mut [u8] {
    &mut image[place * geometry.page()..][..geometry.data]
}

/// The bytes of a block, to be changed.
fn block_mut(geometry: Geometry, image: &mut [u8], block: usize) -> &mut [u8] {
    &mut image[block * geometry.block()..(block + 1) * geometry.block()]
}

/// A mark of a page: 0 means set.
pub fn mark(geometry: Geometry, page: &[u8], which: usize) -> u8 {
    page[geometry.data + which]
}

/// A page is free when all its bytes are 255.
pub fn free(page: &[u8]) -> bool {
    page == blank(page.len())
}

/// The free pages of a block: how many, and the first counted from 0, the number of pages of a block if none.
pub fn free_pages(geometry: Geometry, image: &[u8], block: usize) -> (usize, usize) {
    let first = block * geometry.pages;
    let pages: Vec<bool> = (0..geometry.pages).map(|i| free(page(geometry, image, first + i))).collect();
    let count = pages.iter().filter(|is| **is).count();
    (count, pages.iter().position(|is| *is).unwrap_or(geometry.pages))
}

/// Whether all pages of a block are free.
pub fn wholly_free(geometry: Geometry, image: &[u8], block: usize) -> bool {
    image[block * geometry.block()..(block + 1) * geometry.block()].chunks_exact(geometry.page()).all(free)
}

/// A flash operation on the chip.
pub enum Operation<'a> {
    /// Program the data area of the page at a place whose data is all 255.
    Program(usize, &'a [u8]),
    /// Set one mark of the page at a place.
    Mark(usize, usize),
    /// Erase a block to 255.
    Erase(usize),
}

impl Operation<'_> {
    /// The kind that the operation is told as.
    pub fn kind(&self) -> Kind {
        match self {
            Operation::Program(..) => Kind::Program,
            Operation::Mark(..) => Kind::Mark,
            Operation::Erase(_) => Kind::Erase,
        }
    }
}

/// The whole effect of an operation.
pub fn done(geometry: Geometry, image: &mut [u8], operation: &Operation) {
    match operation {
        Operation::Program(place, data) => data_mut(geometry, image, *place).copy_from_slice(data),
        Operation::Mark(place, which) => image[place * geometry.page() + geometry.data + which] = 0,
        Operation::Erase(block) => block_mut(geometry, image, *block).fill(255),
    }
}

/// The effect of a torn operation.
pub fn torn(geometry: Geometry, image: &mut [u8], operation: &Operation, torn: &[u8]) {
    match operation {
        Operation::Program(place, _) => data_mut(geometry, image, *place).copy_from_slice(&torn[..geometry.data]),
        Operation::Mark(place, which) => image[place * geometry.page() + geometry.data + which] = torn[0],
        Operation::Erase(_) if torn[0] == 0 => {}
        Operation::Erase(block) => {
            let page = torn_page(geometry, torn);
            for part in block_mut(geometry, image, *block).chunks_mut(geometry.page()) {
                part.copy_from_slice(&page);
            }
        }
    }
}

/// A page of a block after a torn erase: the torn bytes, 255 in place of each 0 in the spare part.
pub fn torn_page(geometry: Geometry, torn: &[u8]) -> Vec<u8> {
    let mut page = torn[..geometry.page()].to_vec();
    for byte in page[geometry.data..].iter_mut().filter(|byte| **byte == 0) {
        *byte = 255;
    }
    page
}

/// The power of one call on a chip of a geometry: an allowance of whole operations, then a torn one, then none.
pub struct Power<'a> {
    geometry: Geometry,
    allowance: u32,
    torn: &'a [u8],
    done: Counts,
    gone: bool,
}

impl<'a> Power<'a> {
    /// The power at a call's start.
    pub fn new(geometry: Geometry, allowance: u32, torn: &'a [u8]) -> Power<'a> {
        Power { geometry, allowance, torn, done: Counts::NONE, gone: false }
    }

    /// Does an operation as far as the power goes; tells whether it was done whole.
    pub fn run(&mut self, image: &mut [u8], operation: &Operation) -> bool {
        if self.gone {
            return false;
        }
        if self.done.sum() == self.allowance as u64 {
            self.gone = true;
            torn(self.geometry, image, operation, self.torn);
            return false;
        }
        self.done = self.done.and(Counts::one(operation.kind()));
        done(self.geometry, image, operation);
        true
    }

    /// Whether an operation was torn.
    pub fn gone(&self) -> bool {
        self.gone
    }

    /// The operations done whole, by kind.
    pub fn told(&self) -> Counts {
        self.done
    }
}

/// Writes a page: used mark, data, valid mark.
pub fn write_page(image: &mut [u8], power: &mut Power, place: usize, data: &[u8]) -> bool {
    power.run(image, &Operation::Mark(place, USED))
        && power.run(image, &Operation::Program(place, data))
        && power.run(image, &Operation::Mark(place, VALID))
}
