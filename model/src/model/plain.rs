//! The plain store of document 01: fed kinds, numbers, slice lengths and whether the answer was 10.
use super::geometry::Geometry;
use super::tree::Tree;

/// Refusal of a wrong size.
pub const SIZE: u32 = 1;
/// Refusal of a store that is off.
pub const OFF: u32 = 2;
/// Refusal of a 17th pending update.
pub const PENDING: u32 = 3;
/// Refusal of an absent key, block or page.
pub const ABSENT: u32 = 4;
/// Refusal of an insert without node numbers left for it, and of a rebuild without free blocks.
pub const NO_ROOM: u32 = 5;
/// Refusal of a commit or rebuild above the greatest commit number.
pub const LAST_NUMBER: u32 = 6;
/// Refusal of a call whose power is gone.
pub const POWER: u32 = 10;
/// Updates that may be pending.
pub const MOST_PENDING: u32 = 16;
/// The allowance with which no mount is cut.
const MOUNT_NEVER_CUT: u32 = 255;

/// A call: its kind, the geometry that format and mount name, and its numbers.
#[derive(Clone, Copy, Debug, PartialEq, Eq)]
pub enum Call {
    Format(Geometry, u32),
    Insert(u32, u32),
    Delete(u32),
    LookUp(u32),
    Commit(u32),
    Mount(Geometry, u32),
}

/// The lengths of the slices lent.
#[derive(Clone, Copy, Debug, PartialEq, Eq)]
pub struct Lengths {
    pub image: usize,
    pub torn: usize,
}

/// The store's answer.
#[derive(Clone, Copy, Debug, PartialEq, Eq)]
pub enum Answer {
    Accepted,
    Found(u32),
    Refused(u32),
}

/// The plain store's state.
#[derive(Clone, Debug)]
pub struct Plain {
    /// Tree K.
    pub kept: Tree,
    /// Tree P.
    pub present: Tree,
    /// Pending count.
    pub pending: u32,
    /// Commit number G.
    pub number: u32,
    /// On or off.
    pub on: bool,
    /// The geometry of the last finished format, mount or rebuild; before the first that of the small part, read by no call.
    pub geometry: Geometry,
    /// The B of the last finished format, mount or rebuild.
    pub blocks: usize,
}

impl Default for Plain {
    /// The start.
    fn default() -> Plain {
        Plain::new()
    }
}

impl Plain {
    /// A store that is off and was never formatted.
    pub fn new() -> Plain {
        let tree = Tree { nodes: Vec::new() };
        Plain { kept: tree.clone(), present: tree, pending: 0, number: 0, on: false, geometry: Geometry::SMALL, blocks: 0 }
    }

    /// The store as a finished mount of a chip not begun by a format leaves it, or a finished rebuild: from what the image means.
    pub fn mounted(geometry: Geometry, tree: &Tree, number: u32, blocks: usize) -> Plain {
        Plain { kept: tree.clone(), present: tree.clone(), pending: 0, number, on: true, geometry, blocks }
    }

    /// One call. A cut commit keeps the present tree when so chosen.
    pub fn call(&mut self, call: Call, lengths: Lengths, was_ten: bool, chosen: bool) -> Answer {
        if let Some(refusal) = self.refusal(call, lengths) {
            return Answer::Refused(refusal);
        }
        if was_ten && self.may_be_cut(call) {
            self.cut(call, chosen);
            return Answer::Refused(POWER);
        }
        self.finish(call, lengths)
    }

    /// Refusals 2 and 1 of the calls that can give 2, read with the store's geometry; commit alone is lent a torn slice.
    pub fn off_or_size(&self, lengths: Lengths, torn_lent: bool) -> Option<u32> {
        if !self.on {
            return Some(OFF);
        }
        let fits = self.geometry.blocks_of(lengths.image) == Some(self.blocks) && (!torn_lent || lengths.torn == self.geometry.torn);
        (!fits).then_some(SIZE)
    }

    /// Refusal 1 of format, mount and rebuild, read with the geometry named.
    pub fn size(geometry: Geometry, lengths: Lengths) -> Option<u32> {
        (geometry.blocks_of(lengths.image).is_none() || lengths.torn != geometry.torn).then_some(SIZE)
    }

    /// The first of the refusals 1 to 6 that holds, in the order of document 01's calls.
    fn refusal(&self, call: Call, lengths: Lengths) -> Option<u32> {
        match call {
            Call::Format(geometry, _) | Call::Mount(geometry, _) => Plain::size(geometry, lengths),
            Call::Commit(_) => self.off_or_size(lengths, true).or(self.last_number()),
            Call::LookUp(key) => self.off_or_size(lengths, false).or_else(|| self.absent(key)),
            Call::Delete(key) => self.off_or_size(lengths, false).or_else(|| self.full().or_else(|| self.absent(key))),
            Call::Insert(key, value) => self.off_or_size(lengths, false).or_else(|| self.full().or_else(|| self.no_room(key, value))),
        }
    }

    /// Refusal 6: something pending and no commit number left.
    fn last_number(&self) -> Option<u32> {
        (self.pending > 0 && self.number == u32::MAX).then_some(LAST_NUMBER)
    }

    /// Refusal 3: 16 pending.
    fn full(&self) -> Option<u32> {
        (self.pending >= MOST_PENDING).then_some(PENDING)
    }

    /// Refusal 4: the key is absent in P.
    fn absent(&self, key: u32) -> Option<u32> {
        self.present.find(key).is_none().then_some(ABSENT)
    }

    /// Refusal 5: the tree step needs more node numbers than are left.
    fn no_room(&self, key: u32, value: u32) -> Option<u32> {
        (!self.present.insert_fits(key, value)).then_some(NO_ROOM)
    }

    /// Whether a call that is not refused with 1 to 6 may be cut.
    fn may_be_cut(&self, call: Call) -> bool {
        match call {
            Call::Format(geometry, allowance) => allowance < geometry.never_cut,
            Call::Commit(allowance) => allowance < self.geometry.never_cut && self.pending > 0,
            Call::Mount(_, allowance) => allowance < MOUNT_NEVER_CUT,
            _ => false,
        }
    }

    /// A cut call: off; a commit keeps P with G + 1 when so chosen.
    fn cut(&mut self, call: Call, chosen: bool) {
        self.on = false;
        if matches!(call, Call::Commit(_)) && chosen {
            self.keep();
        }
    }

    /// K becomes P, G + 1, pending 0.
    fn keep(&mut self) {
        self.kept = self.present.clone();
        self.number += 1;
        self.pending = 0;
    }

    /// A call that is accepted or finished.
    fn finish(&mut self, call: Call, lengths: Lengths) -> Answer {
        match call {
            Call::Format(geometry, _) => {
                let blocks = geometry.blocks_of(lengths.image).unwrap_or(0);
                *self = Plain::mounted(geometry, &Tree::leaf(blocks), 1, blocks);
            }
            Call::Mount(geometry, _) => {
                self.geometry = geometry;
                self.blocks = geometry.blocks_of(lengths.image).unwrap_or(0);
                self.present = self.kept.clone();
                self.pending = 0;
                self.on = true;
            }
            Call::Commit(_) if self.pending > 0 => self.keep(),
            Call::Commit(_) => {}
            Call::LookUp(key) => return self.present.find(key).map_or(Answer::Refused(ABSENT), Answer::Found),
            Call::Insert(key, value) => {
                self.present.insert(key, value);
                self.pending += 1;
            }
            Call::Delete(key) => {
                self.present.delete(key);
                self.pending += 1;
            }
        }
        Answer::Accepted
    }
}
