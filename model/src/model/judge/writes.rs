//! Format and mount: predicted whole for every image, finished or cut.
use super::{told, Judge, Shared};
use crate::model::chip::{self, Operation, Power, OBSOLETE};
use crate::model::counts::Counts;
use crate::model::erases::Erases;
use crate::model::geometry::Geometry;
use crate::model::image::{Meaning, THIN};
use crate::model::pays::Pays;
use crate::model::plain::{Call, Plain, POWER};
use crate::model::unit::{self, Deed, Unit};
use std::rc::Rc;

/// Format's operations: erases all blocks, lowest first, then writes commit 1 into the first page of block 0.
pub fn format(geometry: Geometry, image: &mut [u8], blocks: usize, power: &mut Power) {
    for block in 0..blocks {
        if !power.run(image, &Operation::Erase(block)) {
            return;
        }
    }
    let reset = unit::encode(&Unit { node: 0, deed: Deed::Reset(0) });
    chip::write_page(image, power, 0, &unit::page_data(geometry, 1, 0, 1, &[reset]));
}

/// Mount's operations: sets the obsolete mark of void pages, lowest place first.
pub fn spend(image: &mut [u8], void: &[usize], power: &mut Power) {
    for place in void {
        if !power.run(image, &Operation::Mark(*place, OBSOLETE)) {
            return;
        }
    }
}

impl Judge {
    /// Format, which names the geometry: does it on the judge's image and answers the reply.
    pub(super) fn format(&mut self, allowance: u32) -> String {
        let geometry = self.named;
        if let Some(refusal) = Plain::size(geometry, self.lengths()) {
            return told(refusal, Counts::NONE);
        }
        let blocks = geometry.blocks_of(self.lent).unwrap_or(0);
        let mut power = Power::new(geometry, allowance, &self.torn[..geometry.torn]);
        format(geometry, &mut self.buffer[..self.lent], blocks, &mut power);
        let (cut, counts) = (power.gone(), power.told());
        self.plain.call(Call::Format(geometry, allowance), self.lengths(), cut, false);
        self.changed();
        self.leave();
        self.begun = !cut;
        self.pays = (!cut).then(|| Pays::new(blocks));
        if cut {
            return told(POWER, counts);
        }
        self.wild = false;
        self.erases = Erases::none(blocks);
        self.ground = self.read();
        told(0, counts)
    }

    /// Mount, which names the geometry: does it on the judge's image and answers the reply. Where it names another one than the last
    /// finished format or rebuild, the chip is as one that none of them began.
    pub(super) fn mount(&mut self, allowance: u32) -> Result<String, String> {
        if let Some(refusal) = Plain::size(self.named, self.lengths()) {
            return Ok(told(refusal, Counts::NONE));
        }
        let meaning = self.read();
        self.begun = self.in_list(&meaning)?;
        match &*meaning {
            Err(refusal) => Ok(self.turn_away(*refusal)),
            Ok(means) if means.tree.thin() => Ok(self.turn_away(THIN)),
            Ok(means) => Ok(self.mount_meaning(allowance, means, &meaning)),
        }
    }

    /// Whether the image of a mount or rebuild is that of a list and named as its part. It means K with G then, which is not thin.
    pub(super) fn in_list(&mut self, meaning: &Shared) -> Result<bool, String> {
        if !self.begun || !self.aligned() || self.named != self.plain.geometry {
            return Ok(false);
        }
        match &**meaning {
            Err(refusal) => Err(format!("the image of a list means refusal {refusal}")),
            Ok(means) if means.tree != self.plain.kept || means.greatest != self.plain.number => {
                Err("the image of a list does not mean K with G".to_string())
            }
            Ok(means) if means.tree.thin() => Err("the tree of a list is thin".to_string()),
            Ok(_) => Ok(true),
        }
    }

    /// The answer of a mount or rebuild of an image that it does not take: off, without an operation.
    pub(super) fn turn_away(&mut self, refusal: u32) -> String {
        self.leave();
        self.begun = false;
        self.pays = None;
        self.plain.on = false;
        told(refusal, Counts::NONE)
    }

    /// Mount of an image that has a meaning and is not thin.
    fn mount_meaning(&mut self, allowance: u32, means: &Meaning, shared: &Shared) -> String {
        self.leave();
        self.pays.take_if(|_| !self.begun);
        let mut power = Power::new(self.named, allowance, &self.torn[..self.named.torn]);
        spend(&mut self.buffer[..self.lent], &means.void, &mut power);
        let (cut, counts) = (power.gone(), power.told());
        if !means.void.is_empty() {
            self.changed();
        }
        self.mounted(allowance, means, cut);
        self.pays.take_if(|_| cut);
        if cut {
            return told(POWER, counts);
        }
        self.wild = false;
        self.erases = Erases::none(self.plain.blocks);
        self.pays.iter_mut().for_each(Pays::mount);
        self.ground = shared.clone();
        if !means.void.is_empty() {
            self.ground = Rc::new(Ok(Meaning { void: Vec::new(), ..means.clone() }));
            self.meaning = Some((self.named, self.ground.clone()));
        }
        told(0, counts)
    }

    /// The plain store after a finished or cut mount.
    fn mounted(&mut self, allowance: u32, means: &Meaning, cut: bool) {
        let (geometry, lengths) = (self.named, self.lengths());
        if self.begun {
            self.plain.call(Call::Mount(geometry, allowance), lengths, cut, false);
        } else if cut {
            self.plain.on = false;
        } else {
            self.plain = Plain::mounted(geometry, &means.tree, means.greatest, geometry.blocks_of(lengths.image).unwrap_or(0));
        }
    }
}
