//! The bench program's lines, executed by the twin: document 01, 'Bench program'.

use crate::frame::parse;
use crate::twin::geometry::SMALL;
use crate::twin::state::State;

/// A store that starts off, on a chip of 3 blocks of 255, with torn bytes 5A.
pub struct Bench {
    state: State,
    image: [u8; 3 * SMALL.block()],
    torn: [u8; SMALL.page()],
}

impl Default for Bench {
    /// The program at its start.
    fn default() -> Bench {
        Bench::new()
    }
}

impl Bench {
    /// The program at its start.
    pub fn new() -> Bench {
        Bench { state: State::new(), image: [255; 3 * SMALL.block()], torn: [0x5A; SMALL.page()] }
    }

    /// The state.
    pub fn state(&self) -> &State {
        &self.state
    }

    /// The reply to a line: the refusal and the value found, or FF.
    pub fn line(&mut self, line: &[u8]) -> String {
        match self.call(line) {
            Some((0, Some(value))) => format!("00{value:08X}"),
            Some((refusal, _)) => format!("{refusal:02X}"),
            None => "FF".into(),
        }
    }

    /// The refusal and the value found; none for a line that is no frame.
    fn call(&mut self, line: &[u8]) -> Option<(u32, Option<u32>)> {
        let (kind, len, first, second) = parse(line)?;
        let (state, image, torn) = (&mut self.state, &mut self.image, &self.torn);
        let refusal = match (kind, len) {
            (0, 2) => state.format(SMALL, image, torn, u32::MAX).refusal,
            (1, 18) => state.insert(image, first, second),
            (2, 10) => state.delete(image, first),
            (3, 10) => {
                let look = state.look_up(image, first);
                return Some((look.refusal, Some(look.value)));
            }
            (4, 10) => state.commit(image, torn, first).refusal,
            (5, 10) => state.mount(SMALL, image, torn, first).refusal,
            _ => return None,
        };
        Some((refusal, None))
    }
}
