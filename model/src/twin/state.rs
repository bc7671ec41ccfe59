//! The state of the store, and a node's view read through it.

use super::geometry::{Geometry, SMALL};
use super::numbers::Numbers;
use super::unit::{encode, is_unit, node_of, units_of, Update, UNIT};
use super::view::{key_of, value_of, Stage, View};

/// Units that the reservation buffer holds at most, 60 for each of 16 pending updates.
pub const BUFFER: usize = 960;

/// On or off, the geometry, B, G, the pending updates, the numbers in use by nodes of P, the reservation buffer with its count of units,
/// the node table: for each number the length of its list and its pages; and for each block the erases done since the last finished mount,
/// format or rebuild.
#[derive(Clone, PartialEq, Eq)]
pub struct State {
    pub on: bool,
    pub geometry: Geometry,
    pub blocks: usize,
    pub commit: u32,
    pub pending: u32,
    pub free: Numbers,
    pub count: usize,
    pub buffer: [u8; BUFFER * UNIT],
    pub lens: [u32; 256],
    pub slots: [u32; 1024],
    pub erases: [u64; 32],
}

impl Default for State {
    /// A state that is off, to begin with.
    fn default() -> State {
        State::new()
    }
}

impl State {
    /// A state that is off, to begin with.
    pub const fn new() -> State {
        State {
            on: false,
            geometry: SMALL,
            blocks: 0,
            commit: 0,
            pending: 0,
            free: Numbers::NONE,
            count: 0,
            buffer: [0; BUFFER * UNIT],
            lens: [0; 256],
            slots: [0; 1024],
            erases: [0; 32],
        }
    }

    /// The node numbers are below this.
    pub fn limit(&self) -> u32 {
        8 * self.blocks as u32
    }

    /// The numbers that nodes of P have, the least first.
    pub fn in_use(&self) -> impl Iterator<Item = u32> + '_ {
        (0..self.limit()).filter(|&number| !self.free.has(number))
    }

    /// The tests 2 and 1 of the calls that take no torn slice.
    pub fn admit(&self, image: &[u8]) -> Result<(), u32> {
        if !self.on {
            return Err(2);
        }
        if !self.geometry.is_chip(self.blocks, image.len()) {
            return Err(1);
        }
        Ok(())
    }

    /// The pages of a node's list, at most 4; none for a number past the last node.
    pub fn list(&self, number: u32) -> &[u32] {
        let n = number as usize;
        match self.lens.get(n) {
            Some(&len) => &self.slots[4 * n..4 * n + len.min(4) as usize],
            None => &[],
        }
    }

    /// The numbers that have a list: those of nodes on flash, and those freed there.
    pub fn listed(&self) -> impl Iterator<Item = u32> + '_ {
        (0..self.limit()).filter(|&n| !self.list(n).is_empty())
    }

    /// The units of the reservation buffer.
    pub fn buffered(&self) -> &[[u8; UNIT]] {
        &self.buffer.as_chunks::<UNIT>().0[..self.count.min(BUFFER)]
    }

    /// A node's view from the pages of its list, the oldest first. A page that is not on the chip adds nothing.
    #[inline(always)]
    pub fn stored(&self, image: &[u8], number: u32, limit: u32) -> View {
        let size = self.geometry.page();
        let mut view = View::UNTOUCHED;
        for &place in self.list(number) {
            let at = place as usize * size;
            if let Some(page) = image.get(at..at + size) {
                match units_of(self.geometry, page) {
                    Some(units) => view.fold(units, number, limit),
                    None => view.spoil(),
                }
            }
        }
        view
    }

    /// A node's view from its pages and then from the buffer.
    pub fn view(&self, image: &[u8], number: u32) -> View {
        self.view_and_pages(image, number).0
    }

    /// A node's view, and the length of its number's list on flash, 0 where it is freed there.
    pub fn view_and_pages(&self, image: &[u8], number: u32) -> (View, usize) {
        let limit = self.limit();
        let mut view = self.stored(image, number, limit);
        let pages = if view.stage == Stage::Freed { 0 } else { self.list(number).len() };
        view.fold(self.buffered(), number, limit);
        (view, pages)
    }

    /// A unit behind those of the buffer.
    pub fn push(&mut self, number: u32, update: Update) {
        let at = self.count * UNIT;
        self.buffer[at..at + UNIT].copy_from_slice(&encode(number, update));
        self.count += 1;
    }

    /// A unit behind those of the buffer, where there is room and the node number fits in it.
    pub fn push_fitting(&mut self, number: u32, update: Update) {
        if self.count < BUFFER && number < 65536 {
            self.push(number, update);
        }
    }

    /// A node written anew behind the units of the buffer: a reset and its entries.
    pub fn push_node(&mut self, number: u32, level: u32, entries: &[u64]) {
        self.push(number, Update::Reset(level));
        for &e in entries {
            self.push(number, Update::Insert(key_of(e), value_of(e)));
        }
    }

    /// The list of a node made this page alone.
    fn begin(&mut self, n: usize, place: u32) {
        self.slots[4 * n] = place;
        self.lens[n] = 1;
    }

    /// The page joins the list of a node unless it is the newest there already. A list of more than 4 pages has length 5.
    fn append(&mut self, n: usize, place: u32) {
        let len = self.lens[n] as usize;
        match len {
            0 => self.begin(n, place),
            1..=4 if self.slots[4 * n + len - 1] == place => {}
            1..=3 => {
                self.slots[4 * n + len] = place;
                self.lens[n] += 1;
            }
            _ => self.lens[n] = 5,
        }
    }

    /// The units of the page at `place` noted in the node table; false at the first 12 bytes that are no unit.
    pub fn note(&mut self, units: &[[u8; UNIT]], place: u32, limit: u32) -> bool {
        for unit in units {
            if !is_unit(unit, limit) {
                return false;
            }
            match unit[0] {
                3 => self.begin(node_of(unit) as usize, place),
                _ => self.append(node_of(unit) as usize, place),
            }
        }
        true
    }
}
