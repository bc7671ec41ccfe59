//! Scripts made by hand for tests of the judge: lines, replies, and images from lists of flash operations.
use crate::{BLOCK, SMALL, TORN};
use model::model::chip::{self, Operation, OBSOLETE, USED, VALID};
use model::model::frame::{line, Frame};
use model::model::judge::Judge;
use model::model::unit::{encode, page_data, Deed, Unit, UNIT};

/// A reply: the refusal, then data programs, marks set and erases.
pub fn reply(refusal: u32, counts: [u32; 3]) -> String {
    format!("{refusal:02X}{:08X}{:08X}{:08X}", counts[0], counts[1], counts[2])
}

/// All three counts with a sum.
pub fn counts_of(sum: u32) -> Vec<[u32; 3]> {
    (0..=sum).flat_map(|a| (0..=sum - a).map(move |b| [a, b, sum - a - b])).collect()
}

/// The data of a page of a commit, given by number, index, count and the units as node and deed.
pub fn data(commit: u32, index: u8, count: u8, units: &[(u16, Deed)]) -> Vec<u8> {
    let units: Vec<[u8; UNIT]> = units.iter().map(|(node, deed)| encode(&Unit { node: *node, deed: *deed })).collect();
    page_data(SMALL, commit, index, count, &units)
}

/// The operations that write a page.
pub fn write(place: usize, data: &[u8]) -> Vec<Operation<'_>> {
    vec![Operation::Mark(place, USED), Operation::Program(place, data), Operation::Mark(place, VALID)]
}

/// The operations that set the obsolete mark of pages.
pub fn obsolete(places: &[usize]) -> Vec<Operation<'static>> {
    places.iter().map(|place| Operation::Mark(*place, OBSOLETE)).collect()
}

/// A script under way: its lines with replies and images, the image and the torn bytes.
pub struct Hand {
    lines: Vec<(String, String, Vec<u8>)>,
    pub image: Vec<u8>,
    torn: Vec<u8>,
}

impl Hand {
    /// The probe's start.
    pub fn new() -> Hand {
        Hand { lines: Vec::new(), image: vec![255; 3 * BLOCK], torn: vec![0x5A; TORN] }
    }

    /// Adds a frame whose reply is given; the image stays.
    pub fn frame(&mut self, frame: Frame, reply: &str) {
        self.lines.push((line(&frame), reply.to_string(), self.image.clone()));
    }

    /// Adds a call that writes and leaves an image.
    pub fn call(&mut self, frame: Frame, reply: &str, image: Vec<u8>) {
        self.image = image;
        self.frame(frame, reply);
    }

    /// Sets a torn byte.
    pub fn set_torn(&mut self, at: usize, byte: u8) {
        self.torn[at] = byte;
        self.frame(Frame::SetTorn(at as u32, byte), "00");
    }

    /// Sets the image's bytes, as frames do.
    pub fn set_image(&mut self, image: &[u8]) {
        for (at, byte) in image.iter().enumerate() {
            if self.image[at] != *byte {
                self.image[at] = *byte;
                self.frame(Frame::SetImage(at as u32, *byte), "00");
            }
        }
    }

    /// A chip that frames filled with pages, each given by its place and data.
    pub fn with_pages(pages: &[(usize, Vec<u8>)]) -> Hand {
        let mut hand = Hand::new();
        for (place, data) in pages {
            let image = hand.after(&write(*place, data), 3);
            hand.set_image(&image);
        }
        hand
    }

    /// The image after the first operations of a list, as many as allowed, done whole, and the next torn.
    pub fn after(&self, operations: &[Operation], allowance: usize) -> Vec<u8> {
        let mut image = self.image.clone();
        for operation in operations.iter().take(allowance) {
            chip::done(SMALL, &mut image, operation);
        }
        if let Some(operation) = operations.get(allowance) {
            chip::torn(SMALL, &mut image, operation, &self.torn);
        }
        image
    }

    /// A judge that has accepted all lines.
    pub fn judge(&self) -> Judge {
        let mut judge = Judge::new();
        for (line, reply, image) in &self.lines {
            judge.line(line.as_bytes(), reply, image).unwrap();
        }
        judge
    }

    /// Whether the judge accepts a reply and an image after all lines.
    pub fn accepts(&self, frame: Frame, reply: &str, image: &[u8]) -> bool {
        self.judge().line(line(&frame).as_bytes(), reply, image).is_ok()
    }

    /// Of all counts that add up to a sum, those that the judge accepts with a refusal and an image.
    pub fn accepted(&self, frame: Frame, refusal: u32, sum: u32, image: &[u8]) -> Vec<[u32; 3]> {
        counts_of(sum).into_iter().filter(|counts| self.accepts(frame, &reply(refusal, *counts), image)).collect()
    }
}
