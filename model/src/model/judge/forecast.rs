//! Forecast, note 10 of document 02: what it answers, and what it foretells of a commit on the same state and image.
use super::commit::{three, Told};
use super::{expect, told, Judge};
use crate::model::chip;
use crate::model::counts::Counts;
use crate::model::plain::LAST_NUMBER;

/// The most pages of a commit: its page count is a byte.
const MOST_PAGES: u32 = 255;

/// What is foretold of a commit on an image: refused with 6, or finished with three counts.
struct Foretold {
    image: Vec<u8>,
    refusal: u32,
    counts: Counts,
}

/// What is foretold of a commit of the present state, by image. Another state ends it; an image set back is the same one again.
#[derive(Default)]
pub(super) struct Forecasts(Vec<Foretold>);

impl Forecasts {
    /// The state is another one.
    pub(super) fn end(&mut self) {
        self.0.clear();
    }

    /// What is foretold of a commit on an image, if anything.
    fn on(&self, image: &[u8]) -> Option<&Foretold> {
        self.0.iter().find(|foretold| foretold.image == image)
    }
}

impl Judge {
    /// Forecast: 2, 1 and 6 as commit, for the image's length alone, and never 10; a refusal or nothing pending tells three zeros.
    pub(super) fn forecast(&mut self, reply: &str) -> Result<(), String> {
        if let Some(refusal) = self.plain.off_or_size(self.lengths(), false).or_else(|| self.quiet()) {
            return expect(reply, &told(refusal, Counts::NONE));
        }
        let (refusal, counts) = three(reply, &[0, LAST_NUMBER])?;
        if counts.sum() > u32::MAX as u64 {
            return Err("no allowance is the sum of the counts".to_string());
        }
        match (self.fixed(), self.begun) {
            (true, true) => self.list_forecast(refusal, counts)?,
            (true, false) => self.foreign_forecast(refusal, counts)?,
            _ => {}
        }
        self.foretell(refusal, counts)
    }

    /// A forecast of a list, with something pending and a number left: a commit of 1 to 255 pages and at most the bound
    /// of operations.
    fn list_forecast(&self, refusal: u32, counts: Counts) -> Result<(), String> {
        if refusal != 0 {
            return Err("a refusal that does not hold".to_string());
        }
        if !(1..=MOST_PAGES).contains(&counts.programs) {
            return Err("not 1 to 255 pages".to_string());
        }
        let geometry = self.plain.geometry;
        if counts.sum() > geometry.never_cut as u64 {
            return Err(format!("a commit of more than {} operations", geometry.never_cut));
        }
        let free = (0..self.plain.blocks).map(|block| chip::free_pages(geometry, self.image(), block).0);
        let others: Vec<usize> = free.map(|free| geometry.pages - free).collect();
        hold_marks(counts, &others)?;
        self.hold_room(counts, others)
    }

    /// The pages of a commit are free ones or in blocks erased, given how many of each block are not free. Where note 8 holds, an erase
    /// leaves one more of them free, and at most the blocks that the commit before did not erase are erased, once each.
    fn hold_room(&self, counts: Counts, mut others: Vec<usize>) -> Result<(), String> {
        others.sort_unstable();
        let kept = others.len().saturating_sub(counts.erases as usize);
        let room = self.plain.blocks * self.plain.geometry.pages - others[..kept].iter().sum::<usize>();
        let left = self.pays.is_some() && counts.erases > 0;
        if counts.programs as usize + left as usize > room {
            return Err(format!("there is room for {room} pages"));
        }
        match self.pays.as_ref().map(|list| list.most_erases()) {
            Some(most) if counts.erases as u64 > most => Err(format!("a commit may erase {most} blocks")),
            _ => Ok(()),
        }
    }

    /// A forecast with something pending on a chip that no format began: 6, or a commit that can give the image another meaning.
    fn foreign_forecast(&self, refusal: u32, counts: Counts) -> Result<(), String> {
        match refusal {
            0 if self.plain.number == u32::MAX => Err("no commit number is left".to_string()),
            0 if counts == Counts::NONE => Err("a commit without an operation".to_string()),
            _ => Ok(()),
        }
    }

    /// Holds what is told of a commit on this state and image to what was foretold of it, or keeps it.
    pub(super) fn foretell(&mut self, refusal: u32, counts: Counts) -> Result<(), String> {
        let image = &self.buffer[..self.lent];
        match self.forecasts.on(image) {
            Some(before) if (before.refusal, before.counts) != (refusal, counts) => Err(before.fault()),
            Some(_) => Ok(()),
            None => {
                self.forecasts.0.push(Foretold { image: image.to_vec(), refusal, counts });
                Ok(())
            }
        }
    }

    /// Holds a commit, finished or cut, to what was foretold of it: finished with these counts; cut with less than their sum, it tells
    /// the allowance, and of each kind at most the operations foretold.
    pub(super) fn as_foretold(&self, told: &Told, cut: bool) -> Result<(), String> {
        let Some(before) = self.forecasts.on(self.image()) else { return Ok(()) };
        let allowance = told.allowance as u64;
        let short = allowance < before.counts.sum() && told.counts.sum() == allowance && told.counts.within(before.counts);
        let right = if cut { short } else { told.counts == before.counts };
        if before.refusal == 0 && right {
            return Ok(());
        }
        Err(before.fault())
    }
}

/// The marks of a commit: two for each of its pages, and at most the used and the obsolete one of pages that were not free.
fn hold_marks(counts: Counts, others: &[usize]) -> Result<(), String> {
    let (own, more) = (2 * counts.programs as usize, 2 * others.iter().sum::<usize>());
    if (own..=own + more).contains(&(counts.marks as usize)) {
        return Ok(());
    }
    Err(format!("{own} to {} marks expected", own + more))
}

impl Foretold {
    /// The fault of an answer that is not the one foretold.
    fn fault(&self) -> String {
        format!("{} is foretold of a commit on this state and image", told(self.refusal, self.counts))
    }
}
