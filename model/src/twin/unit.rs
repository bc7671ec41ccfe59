//! Units: the records of 12 bytes that a page holds, and the header in front of them.

use super::chip::is_blank;
use super::geometry::Geometry;

/// Bytes of a unit.
pub const UNIT: usize = 12;

/// Bytes of a page's header.
pub const HEADER: usize = 8;

/// The value of a reset that frees its node.
pub const FREED: u32 = 255;

/// The greatest level of a node.
const TOP: u32 = 3;

/// What a unit does to its node.
#[derive(Clone, Copy, PartialEq, Eq, Debug)]
pub enum Update {
    Insert(u32, u32),
    Delete(u32),
    Reset(u32),
}

/// Whether a reset may have this value: a level, or the one that frees.
fn is_reset(value: u32) -> bool {
    value <= TOP || value == FREED
}

/// The little-endian number of the two bytes at `at`.
pub fn half(bytes: &[u8], at: usize) -> u32 {
    u32::from(u16::from_le_bytes([bytes[at], bytes[at + 1]]))
}

/// The little-endian number of the four bytes at `at`.
pub fn word(bytes: &[u8], at: usize) -> u32 {
    u32::from_le_bytes([bytes[at], bytes[at + 1], bytes[at + 2], bytes[at + 3]])
}

/// The node that a unit names.
pub fn node_of(unit: &[u8; UNIT]) -> u32 {
    half(unit, 2)
}

/// Whether 12 bytes obey the layout, with a node number below `limit`.
#[inline]
pub fn is_unit(unit: &[u8; UNIT], limit: u32) -> bool {
    let head = word(unit, 0);
    let good = match head & 0xFFFF {
        1 => true,
        2 => word(unit, 8) == 0,
        3 => word(unit, 4) == 0 && is_reset(word(unit, 8)),
        _ => false,
    };
    good && head >> 16 < limit
}

/// The update of a unit, where its bytes obey the layout and its node number is below `limit`.
#[inline]
pub fn decode(unit: &[u8; UNIT], limit: u32) -> Option<Update> {
    if node_of(unit) >= limit {
        return None;
    }
    let (key, value) = (word(unit, 4), word(unit, 8));
    match half(unit, 0) {
        1 => Some(Update::Insert(key, value)),
        2 if value == 0 => Some(Update::Delete(key)),
        3 if key == 0 && is_reset(value) => Some(Update::Reset(value)),
        _ => None,
    }
}

/// The 12 bytes of a unit.
pub fn encode(node: u32, update: Update) -> [u8; UNIT] {
    let (kind, key, value) = match update {
        Update::Insert(key, value) => (1, key, value),
        Update::Delete(key) => (2, key, 0),
        Update::Reset(value) => (3, 0, value),
    };
    let mut unit = [0; UNIT];
    unit[0] = kind;
    unit[2..4].copy_from_slice(&(node as u16).to_le_bytes());
    unit[4..8].copy_from_slice(&key.to_le_bytes());
    unit[8..12].copy_from_slice(&value.to_le_bytes());
    unit
}

/// The units of a page; none where it claims more than it holds.
#[inline]
pub fn units_of(geometry: Geometry, page: &[u8]) -> Option<&[[u8; UNIT]]> {
    let count = half(&page[..HEADER], 6) as usize;
    (count <= geometry.units).then(|| page[HEADER..HEADER + UNIT * count].as_chunks::<UNIT>().0)
}

/// A page's header: commit number, page index, page count of that commit.
#[derive(Clone, Copy)]
pub struct Header {
    pub commit: u32,
    pub index: u8,
    pub count: u8,
}

/// The header of a page, where its data obeys the page's own rules of step 2.
pub fn header_of(geometry: Geometry, page: &[u8]) -> Option<Header> {
    let (head, data) = page[..geometry.area].split_at(HEADER);
    let header = Header { commit: word(head, 0), index: head[4], count: head[5] };
    let units = half(head, 6) as usize;
    let fits = header.commit >= 1 && header.index < header.count && (1..=geometry.units).contains(&units);
    (fits && is_blank(&data[UNIT * units..])).then_some(header)
}

/// The 8 bytes of a header written in front of a page's data.
pub fn put_header(data: &mut [u8], header: Header, units: usize) {
    data[..4].copy_from_slice(&header.commit.to_le_bytes());
    data[4] = header.index;
    data[5] = header.count;
    data[6..8].copy_from_slice(&(units as u16).to_le_bytes());
}
