//! The geometry of a chip part: document 01, 'Chip and power', for the small part; document 02, note 9, for the large one.

/// The least number of blocks of a chip of either part.
const LEAST: usize = 3;
/// The greatest number of blocks of a chip of either part.
const MOST: usize = 32;

/// The numbers of a part.
#[derive(Clone, Copy, Debug, PartialEq, Eq)]
pub struct Geometry {
    /// Data bytes of a page.
    pub data: usize,
    /// Spare bytes of a page, after its data.
    pub spare: usize,
    /// Pages of a block.
    pub pages: usize,
    /// Units that a page has room for.
    pub room: usize,
    /// Bytes of a torn slice.
    pub torn: usize,
    /// The allowance with which no format or commit is cut.
    pub never_cut: u32,
}

impl Geometry {
    /// The small part.
    pub const SMALL: Geometry = Geometry { data: 512, spare: 16, pages: 32, room: 42, torn: 528, never_cut: 2000 };
    /// The large part.
    pub const LARGE: Geometry = Geometry { data: 2048, spare: 64, pages: 64, room: 170, torn: 2112, never_cut: 4000 };

    /// Bytes of a page: data, then spare.
    pub const fn page(self) -> usize {
        self.data + self.spare
    }

    /// Bytes of a block.
    pub const fn block(self) -> usize {
        self.pages * self.page()
    }

    /// The number of blocks of an image length, when it is B blocks for a B from 3 to 32.
    pub fn blocks_of(self, length: usize) -> Option<usize> {
        let blocks = length / self.block();
        (length.is_multiple_of(self.block()) && (LEAST..=MOST).contains(&blocks)).then_some(blocks)
    }
}
