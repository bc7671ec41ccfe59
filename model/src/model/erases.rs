//! The erases of each block since the last finished mount or format, as far as images and counts tell: document 02, note 5.
use super::frame;

/// Digits of a figure in a reply.
pub const DIGITS: usize = 16;

/// The figure of 16 digits, most significant first; none when there are not so many or a byte is no digit.
pub fn read(digits: &[u8]) -> Option<u64> {
    if digits.len() != DIGITS {
        return None;
    }
    let (high, low) = digits.split_at(DIGITS / 2);
    Some((frame::hexadecimal(high)? as u64) << 32 | frame::hexadecimal(low)? as u64)
}

/// The erases of one block: at least and at most.
#[derive(Clone, Copy, Debug, PartialEq, Eq)]
pub struct Range {
    pub least: u64,
    pub most: u64,
}

impl Range {
    /// A number alone.
    pub fn just(number: u64) -> Range {
        Range { least: number, most: number }
    }

    /// Both numbers one higher.
    pub fn next(self) -> Range {
        Range { least: self.least.saturating_add(1), most: self.most.saturating_add(1) }
    }

    /// The numbers that are in another range too, if there are any.
    pub fn meet(self, other: Range) -> Option<Range> {
        let both = Range { least: self.least.max(other.least), most: self.most.min(other.most) };
        (both.least <= both.most).then_some(both)
    }

    /// Whether a number is in the range.
    fn has(self, number: u64) -> bool {
        (self.least..=self.most).contains(&number)
    }
}

/// The erases of all blocks, of one commit or since a start, and their sum where it is known.
#[derive(Clone, Debug, PartialEq, Eq)]
pub struct Erases {
    blocks: Vec<Range>,
    sum: Option<u64>,
}

impl Erases {
    /// The start: no erase of any block.
    pub fn none(blocks: usize) -> Erases {
        Erases { blocks: vec![Range::just(0); blocks], sum: Some(0) }
    }

    /// Any figures, to be learnt from the replies.
    pub fn open(blocks: usize) -> Erases {
        Erases { blocks: vec![Range { least: 0, most: u64::MAX }; blocks], sum: None }
    }

    /// Ranges of the blocks whose erases add up to a sum.
    pub fn of(blocks: Vec<Range>, sum: u64) -> Erases {
        let mut erases = Erases { blocks, sum: Some(sum) };
        erases.narrow();
        erases
    }

    /// The range of a block.
    pub fn range(&self, block: usize) -> Range {
        self.blocks[block]
    }

    /// These erases and then those of a commit.
    pub fn and(&self, commit: &Erases) -> Erases {
        let both =
            |(one, two): (&Range, &Range)| Range { least: one.least.saturating_add(two.least), most: one.most.saturating_add(two.most) };
        let sum = self.sum.and_then(|sum| sum.checked_add(commit.sum?));
        let mut erases = Erases { blocks: self.blocks.iter().zip(&commit.blocks).map(both).collect(), sum };
        erases.narrow();
        erases
    }

    /// These erases where those of each block lie in one more range too; else a block with which that cannot be.
    pub fn within(&self, ranges: impl Iterator<Item = Range>) -> Result<Erases, usize> {
        let mut blocks = Vec::new();
        for (block, range) in ranges.enumerate() {
            blocks.push(self.range(block).meet(range).ok_or(block)?);
        }
        let mut erases = Erases { blocks, sum: self.sum };
        erases.narrow();
        match erases.blocks.iter().position(|range| range.least > range.most) {
            Some(block) => Err(block),
            None => Ok(erases),
        }
    }

    /// Holds a block's figure to its range and to the sum; it is known from then on.
    pub fn hold(&mut self, block: usize, figure: u64) -> Result<(), String> {
        let range = self.range(block);
        if !range.has(figure) {
            return Err(format!("{figure} erases of block {block}, {} to {} expected", range.least, range.most));
        }
        self.blocks[block] = Range::just(figure);
        self.narrow();
        Ok(())
    }

    /// Narrows each range to what the sum and the other ranges leave of it.
    fn narrow(&mut self) {
        let Some(sum) = self.sum else { return };
        let least: u128 = self.blocks.iter().map(|range| range.least as u128).sum();
        let most: u128 = self.blocks.iter().map(|range| range.most as u128).sum();
        let left = |others: u128| (sum as u128).saturating_sub(others) as u64;
        for range in &mut self.blocks {
            let (others_least, others_most) = (least - range.least as u128, most - range.most as u128);
            range.least = range.least.max(left(others_most));
            range.most = range.most.min(left(others_least));
        }
    }
}
