//! A script while it is made: its lines, and the twin that has run them.

use crate::model::geometry::Geometry;
use crate::probe::Probe;
use crate::random::Random;

/// The lines so far and the twin behind them.
pub struct Writer {
    lines: Vec<Vec<u8>>,
    probe: Probe,
}

impl Writer {
    /// A script on chips of a geometry. On the large part it begins with its name, its torn bytes and a chip of 3 blocks.
    pub fn new(geometry: Geometry) -> Writer {
        let mut writer = Writer { lines: Vec::new(), probe: Probe::new() };
        if geometry == Geometry::LARGE {
            writer.choose(geometry);
            writer.lend(3);
        }
        writer
    }

    /// The geometry named.
    pub fn geometry(&self) -> Geometry {
        if self.probe.names_large() {
            Geometry::LARGE
        } else {
            Geometry::SMALL
        }
    }

    /// A geometry named.
    pub fn name(&mut self, geometry: Geometry) {
        self.say(format!("17{:02X}", u8::from(geometry == Geometry::LARGE)).into_bytes());
    }

    /// A geometry named, and torn bytes of its length lent.
    pub fn choose(&mut self, geometry: Geometry) {
        self.name(geometry);
        self.lend_torn(geometry.torn as u32);
    }

    /// An allowance with which no format, commit or rebuild is cut.
    pub fn enough(&self) -> u32 {
        self.geometry().never_cut
    }

    /// The script.
    pub fn lines(self) -> Vec<Vec<u8>> {
        self.lines
    }

    /// The twin after the lines so far.
    pub fn probe(&self) -> &Probe {
        &self.probe
    }

    /// Whether the store is on.
    pub fn is_on(&self) -> bool {
        self.probe.state().on
    }

    /// A line of any bytes but a line feed; returns the reply.
    pub fn say(&mut self, line: Vec<u8>) -> String {
        let reply = self.probe.line(&line);
        self.lines.push(line);
        reply
    }

    /// A line of a kind and one number; returns the refusal.
    fn single(&mut self, kind: u32, number: u32) -> u32 {
        let reply = self.say(format!("{kind:02X}{number:08X}").into_bytes());
        u32::from_str_radix(&reply[..2], 16).unwrap_or(255)
    }

    /// Format with an allowance.
    pub fn format(&mut self, allowance: u32) -> u32 {
        self.single(0, allowance)
    }

    /// Insert.
    pub fn insert(&mut self, key: u32, value: u32) -> u32 {
        let reply = self.say(format!("01{key:08X}{value:08X}").into_bytes());
        u32::from_str_radix(&reply[..2], 16).unwrap_or(255)
    }

    /// Delete.
    pub fn delete(&mut self, key: u32) -> u32 {
        self.single(2, key)
    }

    /// Look up.
    pub fn look_up(&mut self, key: u32) -> u32 {
        self.single(3, key)
    }

    /// Commit with an allowance; where it put erases on record, the reports of all blocks follow.
    pub fn commit(&mut self, allowance: u32) -> u32 {
        let before = self.probe.state().erases;
        let refusal = self.single(4, allowance);
        if self.probe.state().erases != before {
            self.reports();
        }
        refusal
    }

    /// Mount with an allowance.
    pub fn mount(&mut self, allowance: u32) -> u32 {
        self.single(5, allowance)
    }

    /// Rebuild with an allowance.
    pub fn rebuild(&mut self, allowance: u32) -> u32 {
        self.single(0x0A, allowance)
    }

    /// Block report.
    pub fn report(&mut self, block: u32) -> u32 {
        self.single(6, block)
    }

    /// The reports of all blocks lent and of one past the last: blocks of the store's geometry, of the one named where it is off.
    pub fn reports(&mut self) {
        let block = if self.is_on() { self.probe.state().geometry.block() } else { self.geometry().block() };
        for block in 0..=(self.probe.image().len() / block) as u32 {
            self.report(block);
        }
    }

    /// Forecast; returns the refusal.
    pub fn forecast(&mut self) -> u32 {
        let reply = self.say(b"09".to_vec());
        u32::from_str_radix(&reply[..2], 16).unwrap_or(255)
    }

    /// Show.
    pub fn show(&mut self, page: u32) -> u32 {
        self.single(7, page)
    }

    /// An image of that many blocks lent, all bytes 255.
    pub fn lend(&mut self, blocks: u32) -> u32 {
        self.single(0x10, blocks)
    }

    /// That many bytes of the image buffer lent.
    pub fn lend_bytes(&mut self, len: u32) -> u32 {
        self.single(0x11, len)
    }

    /// That many torn bytes lent.
    pub fn lend_torn(&mut self, len: u32) -> u32 {
        self.single(0x14, len)
    }

    /// The image lent filled with noise.
    pub fn noise(&mut self, seed: u32) -> u32 {
        self.single(0x16, seed)
    }

    /// The image lent as a checksum.
    pub fn check(&mut self) {
        self.say(b"15".to_vec());
    }

    /// An image byte set.
    pub fn set(&mut self, at: usize, byte: u8) {
        self.say(format!("12{at:08X}{byte:02X}").into_bytes());
    }

    /// The torn bytes made these, by a line for each that differs.
    pub fn tear(&mut self, bytes: &[u8]) {
        for (at, &byte) in bytes.iter().enumerate() {
            if self.probe.torn().get(at).is_some_and(|&b| b != byte) {
                self.say(format!("13{at:08X}{byte:02X}").into_bytes());
            }
        }
    }

    /// The image made these bytes, by a line for each that differs; their number is the length lent.
    pub fn upload(&mut self, bytes: &[u8]) {
        let differ: Vec<usize> = (0..bytes.len()).filter(|&i| self.probe.image()[i] != bytes[i]).collect();
        for at in differ {
            self.set(at, bytes[at]);
        }
    }

    /// An image lent and uploaded.
    pub fn bring(&mut self, image: &[u8]) {
        self.lend((image.len() / self.geometry().block()) as u32);
        self.upload(image);
    }

    /// An allowance below what a commit (4), mount (5), rebuild (10) or format (0) needs, or one that is enough for it.
    pub fn allowance(&self, random: &mut Random, kind: u32) -> u32 {
        let need = self.probe.need(kind).total();
        match random.below(4) {
            0 => need,
            _ => random.below(u64::from(need) + 1) as u32,
        }
    }
}
