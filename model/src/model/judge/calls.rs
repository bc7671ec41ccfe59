//! Insert, delete, look up, block report and show: calls that write no image byte.
use super::{expect, two, Judge};
use crate::model::chip;
use crate::model::erases;
use crate::model::frame;
use crate::model::geometry::Geometry;
use crate::model::image;
use crate::model::plain::{Answer, Call, ABSENT, NO_ROOM, PENDING, SIZE};
use crate::model::unit::{HEAD, UNIT};
use std::fmt::Write;

impl Judge {
    /// Insert or delete.
    pub(super) fn update(&mut self, call: Call, reply: &str) -> Result<(), String> {
        if let Some(refusal) = self.plain.off_or_size(self.lengths(), false) {
            return expect(reply, &two(refusal));
        }
        if !self.fixed() {
            return self.open_update(call, reply);
        }
        match self.plain.call(call, self.lengths(), false, false) {
            Answer::Refused(refusal) => expect(reply, &two(refusal)),
            _ => {
                self.forecasts.end();
                expect(reply, "00")
            }
        }
    }

    /// Insert or delete whose answer is open: a number that the call can give; accepted, the state is wild.
    fn open_update(&mut self, call: Call, reply: &str) -> Result<(), String> {
        let other = if matches!(call, Call::Insert(..)) { NO_ROOM } else { ABSENT };
        let refusal = refusal_of(reply, &[(0, 0), (PENDING, 0), (other, 0)])?;
        if refusal == 0 {
            self.forecasts.end();
            self.wild = true;
        }
        Ok(())
    }

    /// Look up: the value in P and the pages read.
    pub(super) fn look_up(&mut self, key: u32, reply: &str) -> Result<(), String> {
        if let Some(refusal) = self.plain.off_or_size(self.lengths(), false) {
            return expect(reply, &two(refusal));
        }
        if !self.fixed() {
            return refusal_of(reply, &[(0, 10), (ABSENT, 2)]).map(|_| ());
        }
        let pages = self.pages_read(key);
        match self.plain.call(Call::LookUp(key), self.lengths(), false, false) {
            Answer::Found(value) => expect(reply, &format!("00{value:08X}{pages:02X}")),
            Answer::Refused(refusal) => expect(reply, &format!("{refusal:02X}{pages:02X}")),
            Answer::Accepted => Err("a look up without a value".to_string()),
        }
    }

    /// The sum of the list lengths on a key's path in P, each by the node's number on flash; unused or freed there it is 0.
    fn pages_read(&self, key: u32) -> usize {
        let Ok(meaning) = &*self.ground else { return 0 };
        self.plain.present.path(key).iter().map(|number| meaning.length(*number as usize)).sum()
    }

    /// Block report: free pages, the first free one and the erases; a refusal stands alone.
    pub(super) fn report(&mut self, block: u32, reply: &str) -> Result<(), String> {
        if let Some(refusal) = self.plain.off_or_size(self.lengths(), false) {
            return expect(reply, &two(refusal));
        }
        if !self.fixed() {
            return refusal_of(reply, &[(0, 4 + erases::DIGITS), (ABSENT, 0)]).map(|_| ());
        }
        if block as usize >= self.plain.blocks {
            return expect(reply, &two(ABSENT));
        }
        let (count, first) = chip::free_pages(self.plain.geometry, self.image(), block as usize);
        let free = format!("00{count:02X}{first:02X}");
        let figure = reply.strip_prefix(&free).and_then(|digits| erases::read(digits.as_bytes()));
        let figure = figure.ok_or_else(|| format!("{free} and 16 digits expected"))?;
        self.erases.hold(block as usize, figure)?;
        if let Some(list) = &mut self.pays {
            self.erases = list.hold(&self.erases)?;
        }
        Ok(())
    }

    /// Show: the units of a live page that passes its own rules in step 2, else an empty part.
    pub(super) fn show(&mut self, page: u32, reply: &str) -> Result<(), String> {
        let geometry = self.named;
        let Some(blocks) = geometry.blocks_of(self.lent) else {
            return expect(reply, &two(SIZE));
        };
        if page as usize >= blocks * geometry.pages {
            return expect(reply, &two(ABSENT));
        }
        expect(reply, &format!("00{}", shown(geometry, chip::page(geometry, self.image(), page as usize))))
    }
}

/// The part of a page that show hands back, in hexadecimal.
pub fn shown(geometry: Geometry, page: &[u8]) -> String {
    let mut digits = String::new();
    if !image::live(geometry, page) {
        return digits;
    }
    let Some(head) = image::own_rules(geometry, page, 0) else { return digits };
    for byte in &page[HEAD..HEAD + head.units * UNIT] {
        write!(digits, "{byte:02X}").expect("a string takes all digits");
    }
    digits
}

/// The refusal of an open reply, which is one of those allowed, each with the number of digits that follow it.
pub fn refusal_of(reply: &str, allowed: &[(u32, usize)]) -> Result<u32, String> {
    let bytes = reply.as_bytes();
    let refusal = bytes.get(..2).and_then(frame::hexadecimal);
    let digits = bytes.iter().all(|byte| byte.is_ascii_digit() || (b'A'..=b'F').contains(byte));
    match refusal {
        Some(refusal) if digits && allowed.contains(&(refusal, bytes.len() - 2)) => Ok(refusal),
        _ => Err(format!("an open answer, but of a form out of {allowed:?}")),
    }
}
