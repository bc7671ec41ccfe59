//! The tiny store's forecast, a commit of a copy, and the faults of forecasts and of commits that do otherwise.
use super::{reply, Bug, Tiny};
use model::model::chip::{self, Power};
use model::model::counts::Counts;
use model::model::frame::hexadecimal;

impl Tiny {
    /// Forecast.
    pub(super) fn forecast(&mut self) -> String {
        let right = self.foretell();
        let (refusal, counts) = self.faulty(right);
        if self.forecasts == 0 {
            self.first = (refusal, counts);
        }
        self.forecasts += (right.0 == 0) as u32;
        self.harm(right.0);
        reply(refusal, counts)
    }

    /// What a commit made now with power enough and a torn slice of the right length reports.
    fn foretell(&self) -> (u32, Counts) {
        let mut copy = self.clone();
        copy.forecasts = 0;
        if !self.is(Bug::ForecastTornSize) {
            copy.torn_lent = self.geometry.torn;
        }
        let reply = copy.commit(u32::MAX);
        (hexadecimal(&reply.as_bytes()[..2]).unwrap(), Counts::read(&reply.as_bytes()[2..]).unwrap())
    }

    /// The blocks lent that are free.
    fn free_blocks(&self) -> u32 {
        let free = |block: &usize| chip::free_pages(self.geometry, self.image(), *block).0 == self.geometry.pages;
        (0..self.lent / self.geometry.block()).filter(free).count() as u32
    }

    /// The answer that a faulty forecast gives in place of the right one.
    fn faulty(&self, (refusal, counts): (u32, Counts)) -> (u32, Counts) {
        let (programs, marks) = (counts.programs, counts.marks);
        let works = refusal == 0 && counts != Counts::NONE;
        let wrong_size = self.geometry.blocks_of(self.lent).is_none();
        match self.bug {
            Bug::ForecastPageShort if programs > 1 => (0, Counts { programs: programs - 1, marks: marks - 2, ..counts }),
            Bug::ForecastForgetsErases => (refusal, Counts { erases: 0, ..counts }),
            Bug::ForecastErasesFree if works => (0, Counts { erases: counts.erases.max(self.free_blocks().min(1)), ..counts }),
            Bug::ForecastSixOfNothing if refusal == 0 && !works => (6, counts),
            Bug::ForecastTen if counts.sum() > 20 => (10, Counts::NONE),
            Bug::ForecastTellsRefused if refusal != 0 => (refusal, Counts { programs: 1, marks: 2, erases: 0 }),
            Bug::ForecastSizeBeforeOff if wrong_size => (1, Counts::NONE),
            Bug::ForecastTwice if works && self.forecasts % 2 == 1 => (0, Counts { marks: marks + 1, ..counts }),
            Bug::ForecastKept if self.forecasts > 0 && refusal == 0 => self.first,
            _ => (refusal, counts),
        }
    }

    /// What a faulty forecast that is not refused changes.
    fn harm(&mut self, refusal: u32) {
        if refusal != 0 {
            return;
        }
        match (self.bug, &mut self.state) {
            (Bug::ForecastDropsPending, Some(state)) => state.pending = 0,
            (Bug::ForecastTurnsOff, state) => *state = None,
            (Bug::ForecastWrites, _) => self.buffer[45000] = 254,
            _ => {}
        }
    }

    /// Whether a faulty commit leaves out a mark: after a forecast, or where the power is used up.
    pub(super) fn leaves_mark(&self, power: &Power) -> bool {
        match self.bug {
            Bug::CommitOtherwise => self.forecasts > 0,
            Bug::CommitWithLess => power.told().sum() == self.allowance as u64,
            _ => false,
        }
    }
}
