//! Frames 10 to 17 of the probe: what they lend, set, sum and name.
use super::Judge;
use crate::model::crc;
use crate::model::frame::Frame;
use crate::model::geometry::Geometry;

impl Judge {
    /// Does a frame of 10 to 17 on the judge's own slices and answers the reply.
    pub(super) fn lend(&mut self, frame: Frame) -> String {
        let done = match frame {
            Frame::Blocks(blocks) => self.lend_blocks(blocks as usize),
            Frame::Length(length) => self.lend_length(length as usize),
            Frame::SetImage(at, byte) => self.set_image(at as usize, byte),
            Frame::SetTorn(at, byte) => self.set_torn(at as usize, byte),
            Frame::TornLength(length) => self.lend_torn(length as usize),
            Frame::Noise(seed) => self.noise(seed),
            Frame::Name(part) => self.name_part(part),
            _ => return self.image_sum(),
        };
        if done { "00" } else { "FF" }.to_string()
    }

    /// Frame 10: an image of that many blocks of the geometry named, all bytes 255.
    fn lend_blocks(&mut self, blocks: usize) -> bool {
        if blocks > most_blocks(self.named) {
            return false;
        }
        self.touch();
        self.pays = None;
        self.buffer.fill(255);
        self.lent = blocks * self.named.block();
        true
    }

    /// Frame 11: that many bytes of the image.
    fn lend_length(&mut self, length: usize) -> bool {
        if length > self.buffer.len() {
            return false;
        }
        if length != self.lent {
            self.touch();
            self.lent = length;
        }
        true
    }

    /// Frame 12: an image byte.
    fn set_image(&mut self, at: usize, byte: u8) -> bool {
        if at >= self.lent {
            return false;
        }
        if self.buffer[at] != byte {
            self.touch();
            self.pays = None;
            self.buffer[at] = byte;
        }
        true
    }

    /// Frame 13: a torn byte.
    fn set_torn(&mut self, at: usize, byte: u8) -> bool {
        if at >= self.torn_lent {
            return false;
        }
        self.torn[at] = byte;
        true
    }

    /// Frame 14: that many torn bytes.
    fn lend_torn(&mut self, length: usize) -> bool {
        if length > self.torn.len() {
            return false;
        }
        self.torn_lent = length;
        true
    }

    /// Frame 15: the CRC-32 of the image lent.
    fn image_sum(&mut self) -> String {
        let sum = match self.sum {
            Some(sum) => sum,
            None => crc::crc32(self.image()),
        };
        self.sum = Some(sum);
        format!("00{sum:08X}")
    }

    /// Frame 16: noise in the image lent.
    fn noise(&mut self, seed: u32) -> bool {
        self.touch();
        self.pays = None;
        let mut x = seed;
        for byte in &mut self.buffer[..self.lent] {
            x = x.wrapping_mul(1_664_525).wrapping_add(1_013_904_223);
            *byte = (x >> 16) as u8;
        }
        true
    }

    /// Frame 17: the geometry that format, mount, rebuild and show name, and whose blocks frame 10 lends; 0 is the small part, 1 the large one.
    fn name_part(&mut self, part: u8) -> bool {
        match part {
            0 => self.named = Geometry::SMALL,
            1 => self.named = Geometry::LARGE,
            _ => return false,
        }
        true
    }
}

/// The most blocks that frame 10 lends: 40 small ones or 33 large ones.
fn most_blocks(geometry: Geometry) -> usize {
    if geometry == Geometry::SMALL {
        40
    } else {
        33
    }
}
