//! The protocol of the program `probe`, executed by the twin.

use crate::crc::crc32;
use crate::frame::parse;
use crate::twin::geometry::{Geometry, LARGE, SMALL};
use crate::twin::report::Report;
use crate::twin::show::show;
use crate::twin::state::State;
use crate::twin::told::{Counts, Told};

/// Blocks that are lent at most: so many small ones, so many large ones.
const SMALL_BLOCKS: usize = 40;
const LARGE_BLOCKS: usize = 33;
/// Bytes of the image buffer.
const IMAGE: usize = LARGE_BLOCKS * LARGE.block();
/// Bytes of the torn buffer.
const TORN: usize = 2200;

/// The store's state, the geometry that format, mount, rebuild and show name, the image buffer and the torn bytes, with how much of each is lent.
pub struct Probe {
    state: State,
    named: Geometry,
    image: Vec<u8>,
    len: usize,
    torn: [u8; TORN],
    torn_len: usize,
}

impl Default for Probe {
    /// The program at its start.
    fn default() -> Probe {
        Probe::new()
    }
}

/// A call that did operations or foretold them: the refusal, and their numbers by kind.
fn wrote(told: Told) -> String {
    let Counts { programs, marks, erases } = told.counts;
    format!("{:02X}{programs:08X}{marks:08X}{erases:08X}", told.refusal)
}

/// A call that tells a refusal alone.
fn plain(refusal: u32) -> String {
    format!("{refusal:02X}")
}

/// A frame that tells nothing: accepted where its numbers are in range.
fn ranged(good: bool) -> String {
    if good { "00" } else { "FF" }.into()
}

impl Probe {
    /// The store off, on a chip of 3 small blocks of 255 and with torn bytes 5A; the small part is named.
    pub fn new() -> Probe {
        Probe {
            state: State::new(),
            named: SMALL,
            image: vec![255; IMAGE],
            len: 3 * SMALL.block(),
            torn: [0x5A; TORN],
            torn_len: SMALL.page(),
        }
    }

    /// The image lent.
    pub fn image(&self) -> &[u8] {
        &self.image[..self.len]
    }

    /// The torn bytes lent.
    pub fn torn(&self) -> &[u8] {
        &self.torn[..self.torn_len]
    }

    /// The state.
    pub fn state(&self) -> &State {
        &self.state
    }

    /// Whether the large part is named.
    pub fn names_large(&self) -> bool {
        self.named == LARGE
    }

    /// The most blocks of the geometry named that are lent.
    pub fn most_blocks(&self) -> usize {
        if self.names_large() {
            LARGE_BLOCKS
        } else {
            SMALL_BLOCKS
        }
    }

    /// The reply to a line.
    pub fn line(&mut self, line: &[u8]) -> String {
        match parse(line) {
            Some((kind @ (0..=7 | 9 | 10), len, first, second)) => self.call(kind, len, first, second),
            Some((kind, len, first, second)) => self.set(kind, len, first, second),
            None => "FF".into(),
        }
    }

    /// The frames 00 to 07, 09 and 0A: the calls.
    fn call(&mut self, kind: u32, len: usize, first: u32, second: u32) -> String {
        let (named, image, torn) = (self.named, &mut self.image[..self.len], &self.torn[..self.torn_len]);
        match (kind, len) {
            (0, 10) => wrote(self.state.format(named, image, torn, first)),
            (1, 18) => plain(self.state.insert(image, first, second)),
            (2, 10) => plain(self.state.delete(image, first)),
            (3, 10) => self.look_up(first),
            (4, 10) => wrote(self.state.commit(image, torn, first)),
            (5, 10) => wrote(self.state.mount(named, image, torn, first)),
            (6, 10) => match self.state.block_report(image, first) {
                Ok(Report { free, first, erases }) => format!("00{free:02X}{first:02X}{erases:016X}"),
                Err(refusal) => plain(refusal),
            },
            (7, 10) => self.show(first),
            (9, 2) => wrote(self.state.forecast(image)),
            (10, 10) => wrote(self.state.rebuild(named, image, torn, first)),
            _ => "FF".into(),
        }
    }

    /// A look up: the value where the key is found, then the pages read.
    fn look_up(&self, key: u32) -> String {
        let look = self.state.look_up(self.image(), key);
        match look.refusal {
            0 => format!("00{:08X}{:02X}", look.value, look.pages),
            4 => format!("04{:02X}", look.pages),
            refusal => plain(refusal),
        }
    }

    /// A show: the part's bytes.
    fn show(&self, page: u32) -> String {
        match show(self.named, self.image(), page) {
            Ok((start, len)) => self.image()[start..start + len].iter().fold("00".into(), |text, b| text + &format!("{b:02X}")),
            Err(refusal) => plain(refusal),
        }
    }

    /// The frames 10 to 17: what is lent, its bytes, and the geometry named.
    fn set(&mut self, kind: u32, len: usize, first: u32, second: u32) -> String {
        let at = first as usize;
        match (kind, len) {
            (0x10, 10) => ranged(self.lend_blocks(at)),
            (0x11, 10) => ranged(set_length(&mut self.len, at, IMAGE)),
            (0x12, 12) => ranged(set_byte(&mut self.image[..self.len], at, second)),
            (0x13, 12) => ranged(set_byte(&mut self.torn[..self.torn_len], at, second)),
            (0x14, 10) => ranged(set_length(&mut self.torn_len, at, TORN)),
            (0x15, 2) => format!("00{:08X}", crc32(self.image())),
            (0x16, 10) => ranged(self.fill_noise(first)),
            (0x17, 4) => ranged(self.name(first)),
            _ => "FF".into(),
        }
    }

    /// The whole buffer filled with 255 and its first blocks, of the geometry named, lent.
    fn lend_blocks(&mut self, blocks: usize) -> bool {
        if blocks > self.most_blocks() {
            return false;
        }
        self.image.fill(255);
        self.len = blocks * self.named.block();
        true
    }

    /// The geometry named from now on: 0 is the small part, 1 the large one.
    fn name(&mut self, part: u32) -> bool {
        match part {
            0 => self.named = SMALL,
            1 => self.named = LARGE,
            _ => return false,
        }
        true
    }

    /// The image lent filled with noise.
    fn fill_noise(&mut self, seed: u32) -> bool {
        let mut x = seed;
        for byte in &mut self.image[..self.len] {
            x = x.wrapping_mul(1664525).wrapping_add(1013904223);
            *byte = (x >> 16) as u8;
        }
        true
    }

    /// The operations that a format (0), a commit (4), a rebuild (10) or a mount would do; the image is not changed.
    pub fn need(&self, kind: u32) -> Counts {
        let (mut state, mut image) = (self.state.clone(), self.image().to_vec());
        let told = match kind {
            0 => state.format(self.named, &mut image, self.torn(), u32::MAX),
            4 => state.commit(&mut image, self.torn(), u32::MAX),
            10 => state.rebuild(self.named, &mut image, self.torn(), u32::MAX),
            _ => state.mount(self.named, &mut image, self.torn(), u32::MAX),
        };
        told.counts
    }

    /// The image that a commit with this allowance would leave.
    pub fn after_commit(&self, allowance: u32) -> Vec<u8> {
        let (mut state, mut image) = (self.state.clone(), self.image().to_vec());
        state.commit(&mut image, self.torn(), allowance);
        image
    }
}

/// A length lent, where it is at most `most`.
fn set_length(len: &mut usize, to: usize, most: usize) -> bool {
    if to <= most {
        *len = to;
    }
    to <= most
}

/// A byte set where the offset is in range.
fn set_byte(bytes: &mut [u8], at: usize, byte: u32) -> bool {
    match bytes.get_mut(at) {
        Some(b) => {
            *b = byte as u8;
            true
        }
        None => false,
    }
}
