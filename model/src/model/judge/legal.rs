//! Whether flash operations of one commit explain what it changed, as far as the images before and after tell.
use super::ways::{Way, Ways};
use crate::model::chip::{self, OBSOLETE, USED, VALID};
use crate::model::counts::{Counts, Kind};
use crate::model::erases::Erases;
use crate::model::geometry::Geometry;
use crate::model::image::{self, Head};
use crate::model::unit::{self, HEAD, UNIT};
use std::ops::Range;

/// The images before and after a commit or rebuild of a number on a chip of a geometry, finished or cut, and the torn bytes.
pub struct Change<'a> {
    pub geometry: Geometry,
    pub before: &'a [u8],
    pub after: &'a [u8],
    pub torn: &'a [u8],
    pub number: u32,
    pub blocks: usize,
    pub cut: bool,
}

impl Change<'_> {
    /// Holds the change to document 01: legal operations explain it and are those told, kind by kind; the commit's live
    /// pages are all among the changed ones; a node's units stand in one of them. Answers the erases of each block.
    pub fn hold(&self, told: Counts) -> Result<Erases, String> {
        let erases = self.hold_counts(told)?;
        let pages = self.live_pages();
        let old = |head: &&Head| self.page_before(head.place) == self.page_after(head.place);
        if let Some(head) = pages.iter().find(old) {
            return Err(format!("page {} of the commit was there before it", head.place));
        }
        self.one_page_a_node(&pages)?;
        Ok(erases)
    }

    /// The page at a place before the commit.
    pub(super) fn page_before(&self, place: usize) -> &[u8] {
        chip::page(self.geometry, self.before, place)
    }

    /// The page at a place after the commit.
    pub(super) fn page_after(&self, place: usize) -> &[u8] {
        chip::page(self.geometry, self.after, place)
    }

    /// The places of a block's pages.
    fn places(&self, block: usize) -> Range<usize> {
        block * self.geometry.pages..(block + 1) * self.geometry.pages
    }

    /// Holds the counts told to the operations that explain the blocks. Data programs and marks are all among those that
    /// show; so are erases, unless a block could be erased once more without showing it. Of a finished commit, a block that
    /// was not free shows whether it was erased: its old pages are there or not.
    fn hold_counts(&self, told: Counts) -> Result<Erases, String> {
        let mut all = Ways::nothing();
        let mut erases = Vec::new();
        for block in 0..self.blocks {
            let ways = self.block(block);
            if ways.is_empty() {
                return Err(format!("no legal operations explain block {block}"));
            }
            erases.push(ways.erases(told.erases as u64));
            all = all.and(&ways);
        }
        if all.is_empty() {
            return Err("more than one torn operation shows".to_string());
        }
        if !all.tell(told) {
            return Err(format!("no operations with these counts explain the image; the fewest that do have {}", all.fewest()));
        }
        Ok(Erases::of(erases, told.erases as u64))
    }

    /// The ways to explain a block: without an erase, after an erase, by a torn erase.
    fn block(&self, block: usize) -> Ways {
        let erase = Way { more_erases: true, ..Way::whole(Kind::Erase) };
        let kept = self.pages(block, |place| self.page_before(place));
        let erased = self.pages(block, |_| chip::blank(self.geometry.page())).and(&Ways::one(erase));
        let mut ways = kept.or(erased);
        ways.add(self.torn_erase(block), Way { more_erases: true, ..Way::torn(Counts::NONE) });
        ways
    }

    /// Whether a torn erase leaves a block as it is after the commit.
    fn torn_erase(&self, block: usize) -> bool {
        let page = chip::torn_page(self.geometry, self.torn);
        self.cut && self.torn[0] != 0 && self.places(block).all(|place| self.page_after(place) == page)
    }

    /// The ways to explain the pages of a block without an erase, each from the content that it has at first.
    fn pages<'a>(&self, block: usize, from: impl Fn(usize) -> &'a [u8]) -> Ways {
        let mut all = Ways::nothing();
        for place in self.places(block) {
            let (from, to) = (from(place), self.page_after(place));
            if from != to {
                all = all.and(&self.page(from, to));
            }
            if all.is_empty() {
                break;
            }
        }
        all
    }

    /// The ways that lead from one content of a page to another without an erase.
    fn page(&self, from: &[u8], to: &[u8]) -> Ways {
        if chip::free(from) {
            return self.written(to);
        }
        self.marked(from, to)
    }

    /// The ways to write a free page: used mark, data of this commit, valid mark, one after the other. Of a page written in
    /// part, the next of the three is the torn operation.
    fn written(&self, to: &[u8]) -> Ways {
        let mut ways = Ways::default();
        let (data, spare) = to.split_at(self.geometry.data);
        if spare[OBSOLETE..].iter().any(|byte| *byte != 255) {
            return ways;
        }
        let (used, valid) = (spare[USED], spare[VALID]);
        let of_commit = used == 0 && self.page_of_commit(to, 0).is_some();
        let mark = Counts::one(Kind::Mark);
        let both = mark.and(Counts::one(Kind::Program));
        ways.add(of_commit && valid == 0, Way { whole: both.and(mark), ..Way::default() });
        ways.add(self.cut && of_commit && valid == self.torn[0], Way::torn(both));
        ways.add(self.cut && used == 0 && *data == self.torn[..data.len()] && valid == 255, Way::torn(mark));
        ways.add(self.cut && used == self.torn[0] && data == chip::blank(data.len()) && valid == 255, Way::torn(Counts::NONE));
        ways
    }

    /// The ways to change the used or obsolete mark alone of a page that is not free. Its valid mark is not set: the page
    /// was not written by this commit.
    fn marked(&self, from: &[u8], to: &[u8]) -> Ways {
        let (data, spare) = to.split_at(self.geometry.data);
        let (old_data, old_spare) = from.split_at(self.geometry.data);
        if data != old_data || spare[VALID] != old_spare[VALID] || spare[OBSOLETE + 1..] != old_spare[OBSOLETE + 1..] {
            return Ways::default();
        }
        let mut all = Ways::nothing();
        for which in [USED, OBSOLETE] {
            if spare[which] != old_spare[which] {
                all = all.and(&self.mark(spare[which]));
            }
        }
        all
    }

    /// The ways to change a mark to a byte: set, or torn.
    fn mark(&self, to: u8) -> Ways {
        let mut ways = Ways::default();
        ways.add(to == 0, Way::whole(Kind::Mark));
        ways.add(self.cut && to == self.torn[0], Way::torn(Counts::NONE));
        ways
    }

    /// The head of a page that is whole and of this commit: its own rules in step 2 and each unit's layout.
    pub(super) fn page_of_commit(&self, page: &[u8], place: usize) -> Option<Head> {
        let head = image::own_rules(self.geometry, page, place).filter(|head| head.commit == self.number)?;
        let mut units = page[HEAD..HEAD + head.units * UNIT].chunks_exact(UNIT);
        units.all(|bytes| unit::decode(bytes, 8 * self.blocks).is_some()).then_some(head)
    }

    /// The live pages of this commit.
    fn live_pages(&self) -> Vec<Head> {
        let live = |place: &usize| image::live(self.geometry, self.page_after(*place));
        let head = |place| self.page_of_commit(self.page_after(place), place);
        (0..self.blocks * self.geometry.pages).filter(live).filter_map(head).collect()
    }

    /// Units of one node stand in one page of the commit.
    pub(super) fn one_page_a_node(&self, pages: &[Head]) -> Result<(), String> {
        let mut home = vec![None; 8 * self.blocks];
        for head in pages {
            let page = self.page_after(head.place);
            for bytes in page[HEAD..HEAD + head.units * UNIT].chunks_exact(UNIT) {
                let node = unit::half(bytes, 2) as usize;
                if *home[node].get_or_insert(head.place) != head.place {
                    return Err(format!("units of node {node} stand in two pages of the commit"));
                }
            }
        }
        Ok(())
    }
}
