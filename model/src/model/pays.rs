//! Document 02, note 8, in a list of calls after a finished format, none of them cut and none a format.
//!
//! A commit is here a finished one with pending updates. Between an erase of a block in commit i of the list and the next one of it in
//! commit j, the commits i to j - 1 finish, so j is at least i + 2. That is, for each block:
//! - a commit erases it at most once, and not at all if the commit before erased it, whatever other calls stand between the two;
//! - of k commits in a row, at most (k + 1) / 2 erase it, rounded down.
//!
//! A mount starts the figures of note 5 at 0; which blocks the last commit erased, it leaves.
use super::chip;
use super::erases::{Erases, Range};
use super::geometry::Geometry;

/// The figures that a block may have if the last commit did not erase it, and if it did; none where that cannot be.
#[derive(Clone, Copy, Debug, PartialEq, Eq)]
struct Block {
    kept: Option<Range>,
    erased: Option<Range>,
}

impl Block {
    /// One more commit, which erased the block as often as a range says, 0 times or once.
    fn after(self, commit: Range) -> Block {
        let kept = self.figures().filter(|_| commit.least == 0);
        let erased = self.kept.filter(|_| commit.most > 0).map(Range::next);
        Block { kept, erased }
    }

    /// What a range leaves of the figures.
    fn within(self, range: Range) -> Block {
        Block { kept: self.kept.and_then(|own| own.meet(range)), erased: self.erased.and_then(|own| own.meet(range)) }
    }

    /// The figures at 0.
    fn zero(self) -> Block {
        let zero = |_| Range::just(0);
        Block { kept: self.kept.map(zero), erased: self.erased.map(zero) }
    }

    /// How often the last commit may have erased the block, where the next one erases it as often as a range says.
    fn last(self, next: Range) -> Range {
        let most = self.erased.is_some() && next.least == 0;
        Range { least: self.kept.is_none() as u64, most: most as u64 }
    }

    /// How often the next commit may erase the block.
    fn next(self) -> Range {
        Range { least: 0, most: self.kept.is_some() as u64 }
    }

    /// The figures that the block may have.
    fn figures(self) -> Option<Range> {
        match (self.kept, self.erased) {
            (Some(one), Some(two)) => Some(Range { least: one.least.min(two.least), most: one.most.max(two.most) }),
            (one, two) => one.or(two),
        }
    }
}

/// What note 8 leaves of the erases of each block, and the erases of the last commit.
#[derive(Clone, Debug, PartialEq, Eq)]
pub struct Pays {
    blocks: Vec<Block>,
    last: Erases,
}

impl Pays {
    /// A list after a finished format, whose own erases are not in it.
    pub fn new(blocks: usize) -> Pays {
        let block = Block { kept: Some(Range::just(0)), erased: None };
        Pays { blocks: vec![block; blocks], last: Erases::none(blocks) }
    }

    /// A finished mount.
    pub fn mount(&mut self) {
        self.blocks.iter_mut().for_each(|block| *block = block.zero());
    }

    /// One more commit with its erases. Answers the figures after it, given those before.
    pub fn commit(&mut self, figures: &Erases, commit: &Erases) -> Result<Erases, String> {
        let erases = commit.within(self.blocks.iter().map(|block| block.next())).map_err(again)?;
        let last = self.blocks.iter().enumerate().map(|(at, block)| block.last(erases.range(at)));
        self.last.within(last).map_err(again)?;
        for (at, block) in self.blocks.iter_mut().enumerate() {
            *block = block.after(erases.range(at));
        }
        self.last = erases;
        self.hold(&figures.and(&self.last))
    }

    /// The most erases that the next commit may have.
    pub fn most_erases(&self) -> u64 {
        self.blocks.iter().map(|block| block.next().most).sum()
    }

    /// Holds note 8 and the figures to each other. Answers what is left of the figures.
    pub fn hold(&mut self, figures: &Erases) -> Result<Erases, String> {
        let mut left = Vec::new();
        for (at, block) in self.blocks.iter_mut().enumerate() {
            *block = block.within(figures.range(at));
            left.push(block.figures().ok_or_else(|| again(at))?);
        }
        figures.within(left.into_iter()).map_err(again)
    }
}

/// The fault seen at a block.
fn again(block: usize) -> String {
    format!("a block is erased again with fewer than two commits between, seen at block {block}")
}

/// A commit that reclaims leaves at least one page free.
pub fn leaves_a_page(geometry: Geometry, erases: u32, after: &[u8]) -> Result<(), String> {
    if erases == 0 || after.chunks_exact(geometry.page()).any(chip::free) {
        return Ok(());
    }
    Err("a commit that reclaims leaves no page free".to_string())
}
