//! Whether the operations of a rebuild, in its order, explain what it changed: the obsolete marks of void pages, lowest place first, then
//! the pages of one commit in wholly free blocks, by index. And whether the image then means the old tree or the same records anew.
use super::legal::Change;
use super::rebuild::share;
use super::writes::spend;
use crate::model::chip::{self, Power, OBSOLETE, USED, VALID};
use crate::model::counts::Counts;
use crate::model::image::{self, Head, Meaning};
use std::collections::BTreeSet;

/// Operations of a page: used mark, data, valid mark.
const PAGE: u32 = 3;

/// The images before and after a rebuild, and what the one before means.
pub(super) struct Anew<'a> {
    pub(super) change: Change<'a>,
    pub(super) means: &'a Meaning,
}

/// How far a cut rebuild came: the pages written whole, and the operations of the next one before the torn one.
struct Reached {
    pages: u32,
    part: u32,
}

impl Anew<'_> {
    /// Holds the change to note 6, given the counts told. Answers what the image means after it.
    pub(super) fn hold(&self, told: Counts) -> Result<Meaning, String> {
        let void = self.means.void.len() as u32;
        let reached = match (self.change.cut, told.sum().checked_sub(void as u64)) {
            (true, None) => return self.cut_in_marks(told),
            (true, Some(left)) => Some(Reached { pages: left as u32 / PAGE, part: left as u32 % PAGE }),
            (false, _) => None,
        };
        let changed = self.changed()?;
        self.few_blocks(&changed)?;
        let (whole, rest): (Vec<usize>, Vec<usize>) = changed.iter().partition(|place| self.whole(**place).is_some());
        let mut heads: Vec<Head> = whole.iter().filter_map(|place| self.whole(*place)).collect();
        heads.sort_by_key(|head| head.index);
        self.in_order(&heads)?;
        match reached {
            None => self.finished(told, &heads, &rest)?,
            Some(reached) => self.cut_in_pages(told, &reached, &heads, &rest)?,
        }
        self.change.one_page_a_node(&heads)?;
        self.means_after(&heads)
    }

    /// The image before, with the void pages spent as far as an allowance goes.
    fn spent(&self, allowance: u32) -> Vec<u8> {
        let mut image = self.change.before.to_vec();
        let mut power = Power::new(self.change.geometry, allowance, self.change.torn);
        spend(&mut image, &self.means.void, &mut power);
        image
    }

    /// Cut before all void pages are spent: the image is fixed whole.
    fn cut_in_marks(&self, told: Counts) -> Result<Meaning, String> {
        if told.programs != 0 || told.erases != 0 {
            return Err("cut in the marks of void pages, but other operations are told".to_string());
        }
        if self.change.after != self.spent(told.marks) {
            return Err("the void pages have to get their marks first, lowest place first".to_string());
        }
        self.means_after(&[])
    }

    /// The places of pages that differ from what the marks of all void pages leave; they are free ones in wholly free blocks.
    fn changed(&self) -> Result<Vec<usize>, String> {
        let Change { geometry, before, blocks, .. } = self.change;
        let spent = self.spent(u32::MAX);
        let differs = |place: &usize| chip::page(geometry, &spent, *place) != self.change.page_after(*place);
        let places: Vec<usize> = (0..blocks * geometry.pages).filter(differs).collect();
        match places.iter().find(|place| !chip::wholly_free(geometry, before, **place / geometry.pages)) {
            Some(place) => Err(format!("page {place}, in a block that is not wholly free, is not what the marks of void pages leave")),
            None => Ok(places),
        }
    }

    /// At most one block in eight, rounded up, is written.
    fn few_blocks(&self, changed: &[usize]) -> Result<(), String> {
        let written: BTreeSet<usize> = changed.iter().map(|place| place / self.change.geometry.pages).collect();
        if written.len() > share(self.change.blocks) {
            return Err(format!("{} blocks are written", written.len()));
        }
        Ok(())
    }

    /// The head of a page that is written whole and of the new commit.
    fn whole(&self, place: usize) -> Option<Head> {
        let page = self.change.page_after(place);
        let spare = &page[self.change.geometry.data..];
        let marked = spare[USED] == 0 && spare[VALID] == 0 && unmarked(&spare[OBSOLETE..]);
        self.change.page_of_commit(page, place).filter(|_| marked)
    }

    /// The pages written whole, sorted by index, have the first indexes of one commit.
    fn in_order(&self, heads: &[Head]) -> Result<(), String> {
        let right = |(at, head): (usize, &Head)| head.index as usize == at && head.count == heads[0].count;
        match heads.iter().enumerate().all(right) {
            true => Ok(()),
            false => Err("the pages of the new commit are not written by index".to_string()),
        }
    }

    /// Finished: the commit is whole, and the counts are its operations and those of the void pages.
    fn finished(&self, told: Counts, heads: &[Head], rest: &[usize]) -> Result<(), String> {
        if let Some(place) = rest.first() {
            return Err(format!("page {place} is not one of commit {}", self.change.number));
        }
        if heads.is_empty() || heads.len() != heads[0].count as usize {
            return Err("the new commit is not whole".to_string());
        }
        self.hold_counts(told, heads.len() as u32, 0)
    }

    /// The counts of so many pages written whole and a part of the next one, after the marks of all void pages.
    fn hold_counts(&self, told: Counts, pages: u32, part: u32) -> Result<(), String> {
        let programs = pages + (part == 2) as u32;
        let marks = self.means.void.len() as u32 + 2 * pages + (part > 0) as u32;
        let right = Counts { programs, marks, erases: 0 };
        if told == right {
            return Ok(());
        }
        Err(format!("the operations are {}", right.digits()))
    }

    /// Cut: the pages before are whole, and the torn operation is the next one of the next page.
    fn cut_in_pages(&self, told: Counts, reached: &Reached, heads: &[Head], rest: &[usize]) -> Result<(), String> {
        let Reached { pages, part } = *reached;
        self.hold_counts(told, pages, part)?;
        let looks_whole = part == 2 && self.change.torn[0] == 0;
        if heads.len() != pages as usize + looks_whole as usize {
            return Err(format!("{} pages of the new commit are whole", heads.len()));
        }
        if heads.first().is_some_and(|head| head.count as u32 <= pages) {
            return Err("cut after the last page of the new commit".to_string());
        }
        let shows = !(looks_whole || part == 0 && self.change.torn[0] == 255);
        match (rest, shows) {
            ([], false) => Ok(()),
            ([place], true) if self.torn(*place, reached, heads.first()) => Ok(()),
            _ => Err("the torn operation is not the next one of the next page".to_string()),
        }
    }

    /// Whether a page is the next one of the new commit, torn at an operation.
    fn torn(&self, place: usize, reached: &Reached, first: Option<&Head>) -> bool {
        let Change { geometry, torn, .. } = self.change;
        let page = self.change.page_after(place);
        let (data, spare) = page.split_at(geometry.data);
        let marks = (spare[USED], spare[VALID]);
        let right = match reached.part {
            0 => marks == (torn[0], 255) && data == chip::blank(data.len()),
            1 => marks == (0, 255) && *data == torn[..data.len()],
            _ => marks == (0, torn[0]) && self.change.page_of_commit(page, place).is_some_and(|head| follows(&head, reached.pages, first)),
        };
        right && unmarked(&spare[OBSOLETE..])
    }

    /// What the image means after the rebuild: the old tree and its number, or the same records anew with the next one.
    fn means_after(&self, heads: &[Head]) -> Result<Meaning, String> {
        let Change { geometry, after, blocks, .. } = self.change;
        let means = image::meaning(geometry, after, blocks).map_err(|n| format!("after it the image means refusal {n}"))?;
        if means.greatest == self.change.number {
            self.same_records(&means, heads)?;
        } else if !self.change.cut || means.greatest != self.means.greatest || means.tree != self.means.tree {
            return Err("after it the image means neither the old tree nor a new one".to_string());
        }
        Ok(means)
    }

    /// The new tree has the records of the old one and is not thin; every list has pages of the new commit alone, and none is void.
    fn same_records(&self, means: &Meaning, heads: &[Head]) -> Result<(), String> {
        if means.tree.records() != self.means.tree.records() {
            return Err("the new tree has other records".to_string());
        }
        if means.tree.thin() {
            return Err("the new tree is thin".to_string());
        }
        let places: BTreeSet<usize> = heads.iter().map(|head| head.place).collect();
        if let Some(number) = means.lists.iter().position(|list| list.iter().any(|place| !places.contains(place))) {
            return Err(format!("the list of number {number} names a page outside the new commit"));
        }
        if !means.void.is_empty() {
            return Err("void pages are left".to_string());
        }
        Ok(())
    }
}

/// Whether spare bytes are all 255.
fn unmarked(spare: &[u8]) -> bool {
    spare.iter().all(|byte| *byte == 255)
}

/// Whether a page has the index after so many pages, in a commit whose first page is given if there is one.
fn follows(head: &Head, pages: u32, first: Option<&Head>) -> bool {
    head.index as u32 == pages && first.is_none_or(|first| first.count == head.count)
}
