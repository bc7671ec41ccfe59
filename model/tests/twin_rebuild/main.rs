//! Rebuilds of the twin on chips that no format began: answers, bytes, cuts, and what follows.
mod answers;
mod chips;
mod cuts;
mod expected;
mod fills;
mod frames;
mod goes_on;
mod reader;
#[path = "../tables/mod.rs"]
mod tables;
mod thin;
mod whole;

use model::twin::geometry::Geometry;

/// The allowance with which no rebuild is cut.
pub const ENOUGH: u32 = 2000;

/// The torn bytes of calls that have power enough.
pub fn torn(part: Geometry) -> Vec<u8> {
    vec![0x5A; part.page()]
}

/// One block in eight, rounded up.
pub fn eighth(blocks: usize) -> usize {
    blocks.div_ceil(8)
}
