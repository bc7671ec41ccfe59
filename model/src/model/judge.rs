//! The judge of a script of the probe: holds each line's reply and image to document 01 and to the protocol.
mod anew;
mod calls;
mod commit;
mod forecast;
mod legal;
mod lend;
mod rebuild;
mod ways;
mod writes;

use super::counts::Counts;
use super::erases::Erases;
use super::frame::{self, Frame};
use super::geometry::Geometry;
use super::image::{self, Meaning};
use super::pays::Pays;
use super::plain::{Call, Lengths, Plain};
use forecast::Forecasts;
use rebuild::Rebuilds;
use std::rc::Rc;
pub use writes::{format, spend};

/// Bytes of the probe's image buffer: 33 large blocks.
const BUFFER: usize = 33 * Geometry::LARGE.block();
/// Bytes of the probe's torn buffer.
const TORN: usize = 2200;
/// Image bytes compared after a line that writes nothing.
const GLANCE: usize = 4096;
/// Image bytes compared after an update.
const LOOK: usize = 65536;

/// An image's meaning or refusal, shared.
type Shared = Rc<Result<Meaning, u32>>;

/// The judge's own image, torn slice and plain store, with what it knows of the probe's state.
pub struct Judge {
    /// The probe's image buffer; the first bytes are lent.
    buffer: Vec<u8>,
    lent: usize,
    torn: Vec<u8>,
    torn_lent: usize,
    /// The geometry that format, mount, rebuild and show name.
    named: Geometry,
    plain: Plain,
    /// The meaning of the image that the state goes with.
    ground: Shared,
    /// The erases of each block since the last finished mount, format or rebuild.
    erases: Erases,
    /// The list that note 8 of document 02 is about, while there is one.
    pays: Option<Pays>,
    /// What is foretold of a commit of the state: note 10 of document 02.
    forecasts: Forecasts,
    /// What rebuilds of one image did.
    rebuilds: Rebuilds,
    /// Whether an open call gave the state, so that only on or off and B are known of it.
    wild: bool,
    /// Whether a finished format or rebuild began the list of the chip that the last call left, and only calls wrote it since.
    begun: bool,
    /// The image that the last call left, while frames may have changed it since.
    left: Option<Vec<u8>>,
    /// Whether the image differs from the one left, once compared.
    differs: Option<bool>,
    /// The meaning of the image lent, once read, and the geometry it was read with.
    meaning: Option<(Geometry, Shared)>,
    /// The CRC-32 of the image lent, once computed.
    sum: Option<u32>,
    /// Where the following partial comparison of images begins.
    window: usize,
}

impl Default for Judge {
    /// The start.
    fn default() -> Judge {
        Judge::new()
    }
}

impl Judge {
    /// The probe's start: off, a chip of 3 small blocks of 255, torn bytes 5A; the small part is named.
    pub fn new() -> Judge {
        Judge::naming(Geometry::SMALL)
    }

    /// The same with a chip and torn bytes of a geometry, which is named.
    pub fn naming(geometry: Geometry) -> Judge {
        Judge {
            buffer: vec![255; BUFFER],
            lent: 3 * geometry.block(),
            torn: vec![0x5A; TORN],
            torn_lent: geometry.torn,
            named: geometry,
            plain: Plain::new(),
            ground: Rc::new(Err(image::NOTHING)),
            erases: Erases::none(0),
            pays: None,
            forecasts: Forecasts::default(),
            rebuilds: Rebuilds::default(),
            wild: false,
            begun: false,
            left: None,
            differs: None,
            meaning: None,
            sum: None,
            window: 0,
        }
    }

    /// One line of a script, the reply the probe gave, and the image lent after the line.
    pub fn line(&mut self, line: &[u8], reply: &str, image: &[u8]) -> Result<(), String> {
        let held = self.hold(line, reply, image);
        held.map_err(|fault| format!("line {}: reply {reply}: {fault}", String::from_utf8_lossy(line)))
    }

    /// Whether a format or a rebuild began the list of the judge's chip, and its state given by a call whose image is lent: all is fixed.
    pub fn all_fixed(&mut self) -> bool {
        self.begun && self.fixed()
    }

    /// The judge's plain store: K, P, pending, G, on or off; of a wild state only on or off and B are right.
    pub fn store(&self) -> &Plain {
        &self.plain
    }

    /// The image that the judge holds to be lent.
    pub fn image(&self) -> &[u8] {
        &self.buffer[..self.lent]
    }

    /// Holds a line's reply and image to what is predicted.
    fn hold(&mut self, line: &[u8], reply: &str, image: &[u8]) -> Result<(), String> {
        let Some(frame) = frame::parse(line) else {
            expect(reply, "FF")?;
            return self.same(image, GLANCE);
        };
        match frame {
            Frame::Format(allowance) => expect(reply, &self.format(allowance))?,
            Frame::Mount(allowance) => expect(reply, &self.mount(allowance)?)?,
            Frame::Commit(allowance) => return self.commit(allowance, reply, image),
            Frame::Rebuild(allowance) => return self.rebuild(allowance, reply, image),
            Frame::Insert(key, value) => self.update(Call::Insert(key, value), reply)?,
            Frame::Delete(key) => self.update(Call::Delete(key), reply)?,
            Frame::LookUp(key) => self.look_up(key, reply)?,
            Frame::Report(block) => self.report(block, reply)?,
            Frame::Show(page) => self.show(page, reply)?,
            Frame::Forecast => self.forecast(reply)?,
            _ => expect(reply, &self.lend(frame))?,
        }
        if let Frame::SetImage(at, _) = frame {
            if image.get(at as usize) != self.image().get(at as usize) {
                return Err(format!("image byte {at} is not the one set"));
            }
        }
        self.same(image, compared(frame))
    }

    /// The lengths of the slices lent.
    fn lengths(&self) -> Lengths {
        Lengths { image: self.lent, torn: self.torn_lent }
    }

    /// Whether the image lent is the one the last call left.
    fn aligned(&mut self) -> bool {
        let Some(left) = &self.left else { return true };
        let differs = *self.differs.get_or_insert_with(|| left[..] != self.buffer[..self.lent]);
        if !differs {
            self.left = None;
            self.differs = None;
        }
        !differs
    }

    /// Whether document 01 fixes the answers of the calls on the state.
    fn fixed(&mut self) -> bool {
        !self.wild && self.aligned()
    }

    /// Notes that a frame is about to change the image lent.
    fn touch(&mut self) {
        if self.left.is_none() && (self.plain.on || self.begun) {
            self.left = Some(self.image().to_vec());
        }
        self.differs = None;
        self.changed();
    }

    /// Forgets what was read of the image lent.
    fn changed(&mut self) {
        self.meaning = None;
        self.sum = None;
    }

    /// Notes that a call gave a state and left the image lent as it is.
    fn leave(&mut self) {
        self.forecasts.end();
        self.left = None;
        self.differs = None;
    }

    /// The meaning of the image lent with the geometry named, for which it has a right length.
    fn read(&mut self) -> Shared {
        match &self.meaning {
            Some((geometry, meaning)) if *geometry == self.named => return meaning.clone(),
            _ => {}
        }
        let blocks = self.named.blocks_of(self.lent).unwrap_or(0);
        let meaning = Rc::new(image::meaning(self.named, self.image(), blocks));
        self.meaning = Some((self.named, meaning.clone()));
        meaning
    }

    /// Compares the image lent with the judge's: at most a number of bytes, the following ones the next time.
    fn same(&mut self, image: &[u8], most: usize) -> Result<(), String> {
        if image.len() != self.lent {
            return Err(format!("{} image bytes are lent, {} expected", image.len(), self.lent));
        }
        let from = if self.lent <= most || self.window >= self.lent { 0 } else { self.window };
        let to = self.lent.min(from.saturating_add(most));
        self.window = to;
        if image[from..to] == self.buffer[from..to] {
            return Ok(());
        }
        let at = (from..to).find(|at| image[*at] != self.buffer[*at]).unwrap_or(from);
        Err(format!("image byte {at} is {:02X}, {:02X} expected", image[at], self.buffer[at]))
    }
}

/// How many image bytes are compared after a frame's line.
fn compared(frame: Frame) -> usize {
    match frame {
        Frame::Format(_) | Frame::Mount(_) | Frame::Forecast => usize::MAX,
        Frame::Blocks(_) | Frame::Length(_) | Frame::Noise(_) => usize::MAX,
        Frame::Insert(..) | Frame::Delete(_) => LOOK,
        _ => GLANCE,
    }
}

/// Holds a reply to the one expected.
fn expect(reply: &str, expected: &str) -> Result<(), String> {
    if reply == expected {
        return Ok(());
    }
    Err(format!("{expected} expected"))
}

/// A refusal, 0 for none, as two digits.
fn two(refusal: u32) -> String {
    format!("{refusal:02X}")
}

/// A refusal and the three counts of the operations told.
fn told(refusal: u32, counts: Counts) -> String {
    format!("{refusal:02X}{}", counts.digits())
}
