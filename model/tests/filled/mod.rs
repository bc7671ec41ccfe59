//! Stores of the twin for tests: formatted ones, and random updates.
use model::random::Random;
use model::twin::geometry::SMALL;
use model::twin::state::State;

/// The torn bytes.
pub const TORN: [u8; SMALL.page()] = [0x5A; SMALL.page()];

/// A store formatted on a chip of this many blocks.
pub fn formatted(blocks: usize) -> (State, Vec<u8>) {
    let (mut state, mut image) = (State::new(), vec![255; blocks * SMALL.block()]);
    state.format(SMALL, &mut image, &TORN, u32::MAX);
    (state, image)
}

/// Updates of random keys of `range`: as many as may be pending, or fewer.
pub fn update(random: &mut Random, state: &mut State, image: &[u8], range: u64) {
    for _ in 0..1 + random.below(40) {
        let key = random.below(range) as u32 * 1_000_003;
        match random.below(5) {
            0 => state.delete(image, key),
            _ => state.insert(image, key, random.next() as u32),
        };
    }
}
