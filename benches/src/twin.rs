//! The twin as the benchmarks call it, on the small part: its state, and what a look up and a block report tell as numbers.

use model::twin::geometry::SMALL;
pub use model::twin::state::State;
use model::twin::told::Told;

/// The small part formatted.
pub fn format(state: &mut State, image: &mut [u8], torn: &[u8], allowance: u32) -> Told {
    state.format(SMALL, image, torn, allowance)
}

/// The small part mounted.
pub fn mount(state: &mut State, image: &mut [u8], torn: &[u8], allowance: u32) -> Told {
    state.mount(SMALL, image, torn, allowance)
}

/// The small part rebuilt.
pub fn rebuild(state: &mut State, image: &mut [u8], torn: &[u8], allowance: u32) -> Told {
    state.rebuild(SMALL, image, torn, allowance)
}

/// The refusal, 0 for none, the value found and the pages read.
pub fn look_up(state: &State, image: &[u8], key: u32) -> (u32, u32, u32) {
    let look = state.look_up(image, key);
    (look.refusal, look.value, look.pages)
}

/// The free pages of a block, the first free one and its erases on record; else the refusal.
pub fn block_report(state: &State, image: &[u8], block: u32) -> Result<(u32, u32, u64), u32> {
    state.block_report(image, block).map(|report| (report.free, report.first, report.erases))
}
