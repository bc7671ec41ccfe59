//! Commit: the image after it is the probe's, held to document 01.
use super::calls::refusal_of;
use super::legal::Change;
use super::{expect, told, Judge, Shared};
use crate::model::counts::Counts;
use crate::model::erases::Erases;
use crate::model::geometry::Geometry;
use crate::model::image::{self, Meaning};
use crate::model::pays;
use crate::model::plain::{Call, LAST_NUMBER, POWER};
use std::rc::Rc;

/// Digits of the three counts.
const THREE: usize = 24;

/// The allowance and the reply of a commit or rebuild: the refusal, 0 for none, and the three counts told.
pub(super) struct Told {
    pub(super) allowance: u32,
    pub(super) refusal: u32,
    pub(super) counts: Counts,
}

impl Judge {
    /// Commit: holds reply and image to document 01 and takes the image over.
    pub(super) fn commit(&mut self, allowance: u32, reply: &str, image: &[u8]) -> Result<(), String> {
        if let Some(refusal) = self.plain.off_or_size(self.lengths(), true) {
            expect(reply, &told(refusal, Counts::NONE))?;
            return self.same(image, usize::MAX);
        }
        if let Some(refusal) = self.quiet() {
            expect(reply, &told(refusal, Counts::NONE))?;
            return self.same(image, usize::MAX);
        }
        let told = self.told(allowance, reply, &[0, LAST_NUMBER, POWER], image)?;
        match told.refusal {
            LAST_NUMBER => self.foretell(LAST_NUMBER, Counts::NONE)?,
            refusal => self.as_foretold(&told, refusal == POWER)?,
        }
        match (self.fixed(), self.begun) {
            (true, true) => self.list_commit(&told, image),
            (true, false) => self.foreign_commit(&told, image),
            _ => self.open_commit(&told, image),
        }
    }

    /// The answer of a commit that does no operation, 0 for none: with nothing pending, or 6 in a list.
    pub(super) fn quiet(&mut self) -> Option<u32> {
        if !self.fixed() {
            return None;
        }
        let last = self.begun && self.plain.number == u32::MAX;
        if self.plain.pending == 0 {
            Some(0)
        } else {
            last.then_some(LAST_NUMBER)
        }
    }

    /// Reads the reply of a commit or rebuild, one of several refusals: the sum of the counts is at most the allowance.
    pub(super) fn told(&self, allowance: u32, reply: &str, refusals: &[u32], image: &[u8]) -> Result<Told, String> {
        let (refusal, counts) = three(reply, refusals)?;
        if counts.sum() > allowance as u64 {
            return Err("more operations than the allowance".to_string());
        }
        if image.len() != self.lent {
            return Err(format!("{} image bytes are lent, {} expected", image.len(), self.lent));
        }
        Ok(Told { allowance, refusal, counts })
    }

    /// A commit of a list, with something pending and a number left: finished or cut as document 01 says.
    fn list_commit(&mut self, told: &Told, image: &[u8]) -> Result<(), String> {
        let cut = told.refusal == POWER;
        held_operations(self.plain.geometry, told)?;
        let means = self.means(image)?;
        let chosen = self.chosen(&means, cut)?;
        let change = Change {
            geometry: self.plain.geometry,
            before: self.image(),
            after: image,
            torn: &self.torn[..self.plain.geometry.torn],
            number: self.plain.number + 1,
            blocks: self.plain.blocks,
            cut,
        };
        let erases = change.hold(told.counts)?;
        self.pays.take_if(|_| cut);
        if !cut {
            self.put_on_record(&erases, told.counts, image)?;
        }
        self.plain.call(Call::Commit(told.allowance), self.lengths(), cut, chosen);
        self.take(image, Some(Rc::new(Ok(means))), !cut);
        Ok(())
    }

    /// The erases of a finished commit of a list added to the figures; where note 8 holds, they have to pay.
    fn put_on_record(&mut self, erases: &Erases, told: Counts, image: &[u8]) -> Result<(), String> {
        let Some(list) = &mut self.pays else {
            self.erases = self.erases.and(erases);
            return Ok(());
        };
        pays::leaves_a_page(self.plain.geometry, told.erases, image)?;
        self.erases = list.commit(&self.erases, erases)?;
        Ok(())
    }

    /// What the image after a commit means with the store's geometry.
    fn means(&self, image: &[u8]) -> Result<Meaning, String> {
        image::meaning(self.plain.geometry, image, self.plain.blocks).map_err(|n| format!("after it the image means refusal {n}"))
    }

    /// Whether the image means P with G + 1; else it means K with G, which only a cut commit may leave.
    fn chosen(&self, means: &Meaning, cut: bool) -> Result<bool, String> {
        let chosen = means.greatest == self.plain.number + 1;
        if !chosen && means.greatest != self.plain.number {
            return Err(format!("after it the greatest standing number is {}", means.greatest));
        }
        if !chosen && !cut {
            return Err("a finished commit left G".to_string());
        }
        let tree = if chosen { &self.plain.present } else { &self.plain.kept };
        if means.tree != *tree {
            return Err(format!("after it the image does not mean {}", if chosen { "P with G + 1" } else { "K with G" }));
        }
        Ok(chosen)
    }

    /// A commit with something pending on a chip that no format began: 0, 6 or 10; finished, the image means P with G + 1, and
    /// the figures are open.
    fn foreign_commit(&mut self, told: &Told, image: &[u8]) -> Result<(), String> {
        if told.refusal == LAST_NUMBER {
            return self.same(image, usize::MAX);
        }
        if told.refusal == POWER {
            self.plain.on = false;
            self.take(image, None, false);
            return Ok(());
        }
        let means = self.means(image)?;
        if Some(means.greatest) != self.plain.number.checked_add(1) || means.tree != self.plain.present {
            return Err("after it the image does not mean P with G + 1".to_string());
        }
        self.erases = Erases::open(self.plain.blocks);
        self.plain.call(Call::Commit(told.allowance), self.lengths(), false, false);
        self.take(image, Some(Rc::new(Ok(means))), true);
        Ok(())
    }

    /// A commit whose answer and image are open: refused with 6 nothing changes, finished the state is wild.
    fn open_commit(&mut self, told: &Told, image: &[u8]) -> Result<(), String> {
        if told.refusal == LAST_NUMBER {
            return self.same(image, usize::MAX);
        }
        self.take(image, None, false);
        self.begun = false;
        self.pays = None;
        self.plain.on = told.refusal == 0;
        self.wild = self.plain.on;
        Ok(())
    }

    /// Takes the image that a commit left, with its meaning if read, which the state goes with if the commit finished.
    fn take(&mut self, image: &[u8], meaning: Option<Shared>, finished: bool) {
        self.buffer[..self.lent].copy_from_slice(image);
        self.changed();
        self.leave();
        if let (true, Some(meaning)) = (finished, &meaning) {
            self.ground = meaning.clone();
        }
        self.meaning = meaning.map(|meaning| (self.plain.geometry, meaning));
    }
}

/// The refusal of an open reply, one of those allowed, and its three counts; with 6 they are zeros.
pub(super) fn three(reply: &str, refusals: &[u32]) -> Result<(u32, Counts), String> {
    let allowed: Vec<(u32, usize)> = refusals.iter().map(|refusal| (*refusal, THREE)).collect();
    let refusal = refusal_of(reply, &allowed)?;
    let counts = Counts::read(&reply.as_bytes()[2..]).ok_or("no three counts")?;
    if refusal == LAST_NUMBER && counts != Counts::NONE {
        return Err("operations with refusal 6".to_string());
    }
    Ok((refusal, counts))
}

/// The sum of the counts told by a commit of a list or a rebuild: the allowance when cut, never with the bound of 2,000 or 4,000; else at
/// most the bound.
pub(super) fn held_operations(geometry: Geometry, told: &Told) -> Result<(), String> {
    let (operations, bound) = (told.counts.sum(), geometry.never_cut);
    match told.refusal {
        0 if operations > bound as u64 => Err(format!("more than {bound} operations")),
        0 => Ok(()),
        POWER if told.allowance >= bound => Err(format!("cut with an allowance of {bound} or more")),
        POWER if operations != told.allowance as u64 => Err("cut, but the counts do not add up to the allowance".to_string()),
        POWER => Ok(()),
        _ => Err("a refusal that does not hold".to_string()),
    }
}
