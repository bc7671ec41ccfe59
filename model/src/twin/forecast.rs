//! Forecast: the operations that a commit made now would do, counted without one of them.

use super::plan::{Plan, Sorted};
use super::state::State;
use super::told::Told;

impl State {
    /// What a commit made now would tell that has power enough: 2, 1, 6.
    pub fn forecast(&self, image: &[u8]) -> Told {
        if let Err(refusal) = self.admit_commit(image) {
            return Told::quiet(refusal);
        }
        let sorted = Sorted::of(self.buffered(), self.limit());
        let mut plan = Plan::empty();
        match self.make_ready(image, &sorted, &mut plan) {
            Some(site) => Told { refusal: 0, counts: site.counts() },
            None => Told::quiet(6),
        }
    }
}
