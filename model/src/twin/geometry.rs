//! The geometry of a part: its sizes, the blocks of an image, and where a page stands.

/// Bytes of a page's data area and of its spare area, pages of a block (a power of two), units that a page holds at most.
#[derive(Clone, Copy, PartialEq, Eq, Debug)]
pub struct Geometry {
    pub area: usize,
    pub spare: usize,
    pub pages: usize,
    pub units: usize,
}

/// The small part.
pub const SMALL: Geometry = Geometry { area: 512, spare: 16, pages: 32, units: 42 };

/// The large part.
pub const LARGE: Geometry = Geometry { area: 2048, spare: 64, pages: 64, units: 170 };

/// Bytes of the largest data area.
pub const AREA: usize = LARGE.area;

/// The least and the greatest number of blocks of a chip.
const FEWEST: usize = 3;
const MOST: usize = 32;

/// Pages of the largest chip.
pub const PLACES: usize = MOST * LARGE.pages;

impl Geometry {
    /// Bytes of a page, data area and spare area; also of a torn slice.
    pub const fn page(self) -> usize {
        self.area + self.spare
    }

    /// Bytes of a block.
    pub const fn block(self) -> usize {
        self.pages * self.page()
    }

    /// Whether an image of this length is a chip of this many blocks.
    pub fn is_chip(self, blocks: usize, len: usize) -> bool {
        (FEWEST..=MOST).contains(&blocks) && blocks * self.block() == len
    }

    /// The blocks of an image of this length; 0 where that is no chip.
    pub fn blocks_of(self, len: usize) -> usize {
        let blocks = len / self.block();
        if self.is_chip(blocks, len) {
            blocks
        } else {
            0
        }
    }

    /// The blocks of an image lent with a torn slice; 0 where one of them has a wrong size.
    pub fn sized(self, image: usize, torn: usize) -> usize {
        if torn == self.page() {
            self.blocks_of(image)
        } else {
            0
        }
    }

    /// The block of the page at `place`: the place divided by the pages of a block.
    #[inline]
    pub fn block_of(self, place: usize) -> usize {
        place >> self.pages.trailing_zeros()
    }

    /// The page at `place`.
    #[inline]
    pub fn page_at(self, image: &[u8], place: usize) -> &[u8] {
        &image[place * self.page()..][..self.page()]
    }

    /// The bytes of a block.
    pub fn block_at(self, image: &[u8], block: usize) -> &[u8] {
        &image[block * self.block()..][..self.block()]
    }
}
