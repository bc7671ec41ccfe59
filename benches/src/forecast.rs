//! A forecast beside the commit of the same pending list, whole and cut at its first operation.

use crate::both::{Both, ALLOWANCE, TORN};
use crate::clock::{median, nanos, reading};
use crate::library::Library;
use crate::random::Random;
use model::twin::told::Told;

/// The calls that are timed; each of them is made first for as many lists.
#[derive(Clone, Copy)]
enum Call {
    Forecast,
    Whole,
    Cut,
}

const CALLS: [Call; 3] = [Call::Forecast, Call::Whole, Call::Cut];

/// The pending lists of a round, so many for each call that is made first.
const LISTS: usize = 8 * CALLS.len();

/// A chip: the medians of the rounds, in nanoseconds a call, and the medians of the ratios of the rounds.
pub struct Row {
    pub blocks: usize,
    pub forecast: f64,
    pub whole: f64,
    pub cut: f64,
    pub to_whole: f64,
    pub to_cut: f64,
}

/// The store that the calls are made on: the library's state and its image.
struct Store {
    library: Library,
    image: Vec<u8>,
}

impl Store {
    /// The store made equal to that of `both`, in place.
    fn set(&mut self, both: &Both) {
        self.library.set(&both.library);
        self.image.copy_from_slice(&both.image);
    }

    /// A call.
    fn make(&mut self, call: Call) -> Told {
        match call {
            Call::Forecast => self.library.forecast(&self.image),
            Call::Whole => self.library.commit(&mut self.image, &TORN, ALLOWANCE),
            Call::Cut => self.library.commit(&mut self.image, &TORN, 0),
        }
    }
}

/// The times of the calls on what is pending in `both`, beginning with one of them. Then it is committed there, and what all tell compared.
fn list(both: &mut Both, at: &mut Store, first: usize, clock: f64) -> [f64; 3] {
    let mut times = [0.0; 3];
    let mut told = [Told::quiet(0); 3];
    for turn in 0..CALLS.len() {
        let call = CALLS[(first + turn) % CALLS.len()];
        at.set(both);
        let mut answer = Told::quiet(0);
        times[call as usize] = nanos(|| answer = at.make(call)) - clock;
        told[call as usize] = answer;
    }
    let whole = both.commit();
    assert_eq!(told, [whole, whole, Told::quiet(10)], "a forecast, its commit, and the commit cut at once");
    times
}

/// A round: the nanoseconds of each call, the mean of its lists.
fn round(both: &mut Both, at: &mut Store, keys: &[u32], random: &mut Random) -> [f64; 3] {
    let clock = reading();
    let mut sums = [0.0; 3];
    for first in 0..LISTS {
        both.events(keys, random);
        let times = list(both, at, first, clock);
        sums.iter_mut().zip(times).for_each(|(sum, time)| *sum += time);
    }
    sums.map(|sum| sum / LISTS as f64)
}

/// The row of a chip from its rounds.
fn row(blocks: usize, rounds: &[[f64; 3]]) -> Row {
    let middle = |figure: &dyn Fn(&[f64; 3]) -> f64| median(&mut rounds.iter().map(figure).collect::<Vec<f64>>());
    Row {
        blocks,
        forecast: middle(&|r| r[0]),
        whole: middle(&|r| r[1]),
        cut: middle(&|r| r[2]),
        to_whole: middle(&|r| r[0] / r[1]),
        to_cut: middle(&|r| r[0] / r[2]),
    }
}

/// The calls at B = 3, 8, 32 on a full tree.
pub fn rows(rounds: usize) -> Vec<Row> {
    let mut rows = Vec::new();
    for blocks in [3, 8, 32] {
        let mut random = Random::new(blocks as u64);
        let (mut both, keys) = Both::filled(blocks, usize::MAX, &mut random);
        both.churn(&keys, 100, &mut random);
        let mut at = Store { library: both.library.clone(), image: both.image.clone() };
        let times: Vec<[f64; 3]> = (0..rounds).map(|_| round(&mut both, &mut at, &keys, &mut random)).collect();
        rows.push(row(blocks, &times));
    }
    rows
}
