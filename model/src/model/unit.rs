//! Units of document 01, 'Pages and units': 12 bytes that insert, delete or reset in a node.
use super::geometry::Geometry;

/// Bytes of a unit.
pub const UNIT: usize = 12;
/// Bytes of a page before its units.
pub const HEAD: usize = 8;
/// The greatest level.
pub const TOP: u32 = 3;
/// The value of a reset that frees its node: note 1 of document 02.
pub const FREED: u32 = 255;

/// What a unit does to its node.
#[derive(Clone, Copy, Debug, PartialEq, Eq)]
pub enum Deed {
    /// Kind 1: inserts (key, value), replacing an equal key.
    Insert(u32, u32),
    /// Kind 2: deletes the key.
    Delete(u32),
    /// Kind 3: resets the node to empty at a level, or frees it.
    Reset(u32),
}

/// A unit: its node and what it does.
#[derive(Clone, Copy, Debug, PartialEq, Eq)]
pub struct Unit {
    pub node: u16,
    pub deed: Deed,
}

/// A little-endian number of 32 bits.
pub fn number(bytes: &[u8], at: usize) -> u32 {
    u32::from_le_bytes([bytes[at], bytes[at + 1], bytes[at + 2], bytes[at + 3]])
}

/// A little-endian number of 16 bits.
pub fn half(bytes: &[u8], at: usize) -> u16 {
    u16::from_le_bytes([bytes[at], bytes[at + 1]])
}

/// The 12 bytes of a unit by its fields.
pub fn fields(kind: u8, one: u8, node: u16, key: u32, value: u32) -> [u8; UNIT] {
    let mut bytes = [0; UNIT];
    bytes[0] = kind;
    bytes[1] = one;
    bytes[2..4].copy_from_slice(&node.to_le_bytes());
    bytes[4..8].copy_from_slice(&key.to_le_bytes());
    bytes[8..12].copy_from_slice(&value.to_le_bytes());
    bytes
}

/// The 12 bytes of a unit.
pub fn encode(unit: &Unit) -> [u8; UNIT] {
    match unit.deed {
        Deed::Insert(key, value) => fields(1, 0, unit.node, key, value),
        Deed::Delete(key) => fields(2, 0, unit.node, key, 0),
        Deed::Reset(level) => fields(3, 0, unit.node, 0, level),
    }
}

/// The unit of 12 bytes when they obey the layout on a chip whose node numbers lie below the limit.
pub fn decode(bytes: &[u8], limit: usize) -> Option<Unit> {
    let (node, key, value) = (half(bytes, 2), number(bytes, 4), number(bytes, 8));
    if bytes[1] != 0 || node as usize >= limit {
        return None;
    }
    let deed = match bytes[0] {
        1 => Deed::Insert(key, value),
        2 if value == 0 => Deed::Delete(key),
        3 if key == 0 && (value <= TOP || value == FREED) => Deed::Reset(value),
        _ => return None,
    };
    Some(Unit { node, deed })
}

/// The data area of a page: commit number, page index, page count, units; the rest 255.
pub fn page_data(geometry: Geometry, commit: u32, index: u8, count: u8, units: &[[u8; UNIT]]) -> Vec<u8> {
    let mut data = vec![255; geometry.data];
    data[0..4].copy_from_slice(&commit.to_le_bytes());
    data[4] = index;
    data[5] = count;
    data[6..8].copy_from_slice(&(units.len() as u16).to_le_bytes());
    for (place, unit) in units.iter().enumerate() {
        data[HEAD + place * UNIT..HEAD + (place + 1) * UNIT].copy_from_slice(unit);
    }
    data
}
