//! Lines that are no frames, among calls.

use super::calls::{step, Keys};
use super::writer::Writer;
use crate::model::geometry::Geometry;
use crate::random::Random;

/// A frame, which the changes below take apart.
fn frame(random: &mut Random) -> Vec<u8> {
    let kind = [0, 1, 2, 3, 4, 5, 6, 7, 9, 0x0A, 0x10, 0x11, 0x12, 0x13, 0x14, 0x15, 0x16, 0x17][random.index(18)];
    let number = random.below(60) as u32;
    match kind {
        1 => format!("01{number:08X}{:08X}", random.next() as u32),
        0x12 | 0x13 => format!("{kind:02X}{number:08X}{:02X}", random.byte()),
        0x09 | 0x15 => format!("{kind:02X}"),
        0x17 => format!("17{:02X}", random.below(3)),
        _ => format!("{kind:02X}{number:08X}"),
    }
    .into_bytes()
}

/// A frame with a digit more or less, a byte that is no digit, another kind, a forecast with a number, or bytes that are no frame at all.
fn broken(random: &mut Random) -> Vec<u8> {
    let mut line = frame(random);
    let at = random.index(line.len());
    match random.below(10) {
        0 => line.truncate(at),
        1 => line.push(b'0'),
        2 => line.insert(at, b'0'),
        3 => line[at] = b"G/:@`abcfx \t\r\0\x80\xFF-+"[random.index(18)],
        4 => line[..2].copy_from_slice(format!("{:02X}", random.byte()).as_bytes()),
        5 => line.make_ascii_lowercase(),
        6 => line.clear(),
        7 => line = format!("09{:08X}", random.below(3)).into_bytes(),
        8 => line = (0..random.below(40)).map(|_| random.byte()).filter(|&b| b != 10).collect(),
        _ => line = vec![b'0'; random.index(3000)],
    }
    line
}

/// A list of calls with lines between them that are no frames.
pub fn make(random: &mut Random, geometry: Geometry) -> Vec<Vec<u8>> {
    let mut writer = Writer::new(geometry);
    let mut keys = Keys::any(random, geometry);
    for _ in 0..10 {
        writer.say(broken(random));
    }
    writer.format(writer.enough());
    for _ in 0..300 {
        if random.once_in(2) {
            writer.say(broken(random));
        } else {
            step(random, &mut writer, &mut keys);
        }
    }
    writer.check();
    writer.lines()
}
