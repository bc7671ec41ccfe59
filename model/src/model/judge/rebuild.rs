//! Rebuild, note 6 of document 02: its refusals, and the store that it starts. The image after it is the probe's.
use super::anew::Anew;
use super::commit::{held_operations, Told};
use super::legal::Change;
use super::{expect, told, Judge};
use crate::model::chip;
use crate::model::counts::Counts;
use crate::model::erases::Erases;
use crate::model::geometry::Geometry;
use crate::model::image::Meaning;
use crate::model::plain::{Plain, LAST_NUMBER, NO_ROOM, POWER};
use std::rc::Rc;

/// Blocks among which a rebuild may take one, rounded up.
const ONE_IN: usize = 8;

/// The wholly free blocks that a rebuild asks for, and the most that it writes.
pub(super) fn share(blocks: usize) -> usize {
    blocks.div_ceil(ONE_IN)
}

/// What rebuilds of the last image rebuilt did: the counts and the image of a finished one, and the greatest allowance of a cut one.
#[derive(Default)]
pub(super) struct Rebuilds {
    geometry: Option<Geometry>,
    image: Vec<u8>,
    finished: Option<(Counts, Vec<u8>)>,
    cut: Option<u32>,
}

impl Rebuilds {
    /// Holds one more rebuild of an image to those before of the same one. A rebuild reads the image alone: it finishes with the same
    /// counts and leaves the same image, and is cut with less than their sum.
    fn hold(&mut self, geometry: Geometry, image: &[u8], told: &Told, after: &[u8]) -> Result<(), String> {
        if self.geometry != Some(geometry) || self.image != image {
            *self = Rebuilds { geometry: Some(geometry), image: image.to_vec(), finished: None, cut: None };
        }
        match (told.refusal == POWER, &self.finished) {
            (true, _) => self.cut = self.cut.max(Some(told.allowance)),
            (false, None) => self.finished = Some((told.counts, after.to_vec())),
            (false, Some((counts, _))) if *counts != told.counts => return Err("a rebuild of this image had other counts".to_string()),
            (false, Some((_, image))) if *image != after => return Err("a rebuild of this image left another one".to_string()),
            _ => {}
        }
        match (&self.finished, self.cut) {
            (Some((counts, _)), Some(cut)) if counts.sum() <= cut as u64 => {
                Err(format!("cut with an allowance of {cut}, but {} operations finish it", counts.sum()))
            }
            _ => Ok(()),
        }
    }
}

impl Judge {
    /// Rebuild, which names the geometry: holds reply and image to note 6 and takes the image over. Refused with 1, 6 or 5 it changes
    /// nothing, so that a list goes on; refused with 7, 8 or 9 it does what mount does.
    pub(super) fn rebuild(&mut self, allowance: u32, reply: &str, image: &[u8]) -> Result<(), String> {
        if let Some(refusal) = Plain::size(self.named, self.lengths()) {
            expect(reply, &told(refusal, Counts::NONE))?;
            return self.same(image, usize::MAX);
        }
        let meaning = self.read();
        self.in_list(&meaning)?;
        let refusal = match &*meaning {
            Err(refusal) => Some(self.turn_away(*refusal)),
            Ok(means) => self.no_rebuild(means).map(|refusal| told(refusal, Counts::NONE)),
        };
        match (&*meaning, refusal) {
            (Ok(means), None) => self.rebuild_meaning(allowance, reply, means, image),
            (_, refusal) => {
                expect(reply, &refusal.unwrap_or_default())?;
                self.same(image, usize::MAX)
            }
        }
    }

    /// Refusal 6, then 5: no number is left for the new commit; fewer blocks are wholly free than it may need.
    fn no_rebuild(&self, means: &Meaning) -> Option<u32> {
        if means.greatest == u32::MAX {
            return Some(LAST_NUMBER);
        }
        let blocks = self.named.blocks_of(self.lent).unwrap_or(0);
        let free = (0..blocks).filter(|block| chip::wholly_free(self.named, self.image(), *block)).count();
        (free < share(blocks)).then_some(NO_ROOM)
    }

    /// A rebuild that is finished or cut. The list is over; a finished one begins another.
    fn rebuild_meaning(&mut self, allowance: u32, reply: &str, means: &Meaning, image: &[u8]) -> Result<(), String> {
        let (geometry, blocks) = (self.named, self.named.blocks_of(self.lent).unwrap_or(0));
        let told = self.told(allowance, reply, &[0, POWER], image)?;
        held_operations(geometry, &told)?;
        let cut = told.refusal == POWER;
        let before = &self.buffer[..self.lent];
        let torn = &self.torn[..geometry.torn];
        let change = Change { geometry, before, after: image, torn, number: means.greatest + 1, blocks, cut };
        let after = Anew { change, means }.hold(told.counts)?;
        self.rebuilds.hold(geometry, before, &told, image)?;
        self.buffer[..self.lent].copy_from_slice(image);
        self.changed();
        self.leave();
        self.pays = None;
        self.begun = !cut;
        self.plain.on = !cut;
        let after = Rc::new(Ok(after));
        self.meaning = Some((geometry, after.clone()));
        if let (false, Ok(means)) = (cut, &*after) {
            self.wild = false;
            self.plain = Plain::mounted(geometry, &means.tree, means.greatest, blocks);
            self.erases = Erases::none(blocks);
            self.ground = after;
        }
        Ok(())
    }
}
