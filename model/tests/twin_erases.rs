//! The twin's erases on record: whole erases of finished commits, block by block, since the last finished mount or format.
mod filled;

use filled::{formatted, update, TORN};
use model::probe::Probe;
use model::random::Random;
use model::twin::geometry::SMALL;
use model::twin::state::State;
use model::twin::told::Told;

/// No erase on record.
const NONE: [u64; 32] = [0; 32];

/// Whether a block was erased between two images: only an erase sets a bit.
fn was_erased(before: &[u8], after: &[u8], block: usize) -> bool {
    let bytes = block * SMALL.block()..(block + 1) * SMALL.block();
    before[bytes.clone()].iter().zip(&after[bytes]).any(|(x, y)| y & !x != 0)
}

/// A store on its image, and the erases of each block that its images have shown since the last finished mount or format.
#[derive(Clone)]
struct Worn {
    state: State,
    image: Vec<u8>,
    shown: [u64; 32],
}

impl Worn {
    /// A store formatted on a chip of this many blocks.
    fn new(blocks: usize) -> Worn {
        let (state, image) = formatted(blocks);
        Worn { state, image, shown: NONE }
    }

    /// Updates and a commit with power enough: the figures that rise are those of the blocks erased, as many as it tells.
    /// Returns their number.
    fn round(&mut self, random: &mut Random, range: u64) -> u64 {
        update(random, &mut self.state, &self.image, range);
        let before = self.image.clone();
        let told = self.state.commit(&mut self.image, &TORN, u32::MAX);
        let erased: Vec<usize> = (0..self.state.blocks).filter(|&b| was_erased(&before, &self.image, b)).collect();
        assert_eq!((told.refusal, told.counts.erases as usize), (0, erased.len()));
        erased.iter().for_each(|&b| self.shown[b] += 1);
        assert_eq!(self.state.erases, self.shown);
        u64::from(told.counts.erases)
    }

    /// Rounds until each block has this many erases on record.
    fn wear(&mut self, random: &mut Random, erases: u64) {
        while self.shown[..self.state.blocks].iter().any(|&e| e < erases) {
            self.round(random, 60);
        }
    }

    /// Each block's report tells its figure.
    fn reported(&self) {
        for block in 0..self.state.blocks {
            assert_eq!(self.state.block_report(&self.image, block as u32).map(|r| r.erases), Ok(self.shown[block]));
        }
        assert_eq!(self.state.block_report(&self.image, self.state.blocks as u32), Err(4));
        assert!(self.state.erases[self.state.blocks..].iter().all(|&e| e == 0));
    }
}

/// Figures over commits, and their sum: the erases that the commits told.
#[test]
fn commits() {
    let mut random = Random::new(31);
    for (blocks, range) in [(3, 200), (4, 400), (32, 900)] {
        let mut worn = Worn::new(blocks);
        let told: u64 = (0..200 + 40 * blocks).map(|_| worn.round(&mut random, range)).sum();
        worn.reported();
        assert!(told > 0 && worn.state.erases.iter().sum::<u64>() == told, "{told} erases");
    }
}

/// A finished mount and a finished format start the figures at 0; the format's own erases are not on record.
#[test]
fn mounts_and_formats() {
    let mut random = Random::new(32);
    let mut worn = Worn::new(3);
    for _ in 0..3 {
        worn.wear(&mut random, 2);
        assert_eq!(worn.state.mount(SMALL, &mut worn.image, &TORN, 255).refusal, 0);
        worn.shown = NONE;
        assert_eq!(worn.state.erases, NONE);
        worn.wear(&mut random, 1);
        assert_eq!(worn.state.format(SMALL, &mut worn.image, &TORN, 2000).counts.erases, 3);
        worn.shown = NONE;
        worn.reported();
        assert_eq!(worn.state.erases, NONE);
    }
}

/// A commit that erases a block, cut at every operation: the figures stay, the store is off, and a mount starts them at 0.
#[test]
fn cut_commits() {
    let mut random = Random::new(33);
    let mut worn = Worn::new(3);
    worn.wear(&mut random, 1);
    let need = loop {
        update(&mut random, &mut worn.state, &worn.image, 60);
        let mut next = worn.clone();
        let counts = next.state.commit(&mut next.image, &TORN, u32::MAX).counts;
        if counts.erases > 0 {
            break counts.total();
        }
        worn.round(&mut random, 60);
    };
    for allowance in 0..need {
        let Worn { mut state, mut image, shown } = worn.clone();
        assert_eq!(state.commit(&mut image, &TORN, allowance).refusal, 10);
        assert_eq!(state.erases, shown);
        assert_eq!(state.block_report(&image, 0), Err(2));
        assert_eq!(state.mount(SMALL, &mut image, &TORN, 255).refusal, 0);
        assert_eq!(state.erases, NONE);
    }
}

/// A cut mount and a cut format leave the figures; the store is off.
#[test]
fn cut_mounts_and_formats() {
    let mut random = Random::new(34);
    let mut worn = Worn::new(3);
    worn.wear(&mut random, 1);
    let Worn { mut state, mut image, shown } = worn.clone();
    assert_eq!(state.format(SMALL, &mut image, &TORN, 2).refusal, 10);
    assert_eq!((state.on, state.erases), (false, shown));
    while worn.state.clone().commit(&mut worn.image.clone(), &TORN, u32::MAX).counts.programs < 2 {
        worn.round(&mut random, 300);
        update(&mut random, &mut worn.state, &worn.image, 300);
    }
    let Worn { mut state, mut image, shown } = worn.clone();
    let need = state.clone().commit(&mut image.clone(), &TORN, u32::MAX).counts.total();
    assert_eq!(state.commit(&mut image, &TORN, need - 1).refusal, 10);
    assert_eq!(state.mount(SMALL, &mut image, &TORN, 0).refusal, 10);
    assert_eq!((state.on, state.erases), (false, shown));
}

/// Refused calls, a commit of nothing and calls that write nothing leave the figures.
#[test]
fn quiet_calls() {
    let mut worn = Worn::new(3);
    worn.wear(&mut Random::new(35), 1);
    let Worn { mut state, mut image, shown } = worn;
    assert_eq!(state.commit(&mut image, &TORN, 2000), Told::quiet(0));
    assert_eq!(state.commit(&mut image[1..], &TORN, 2000), Told::quiet(1));
    assert_eq!(state.mount(SMALL, &mut image, &TORN[1..], 255), Told::quiet(1));
    assert_eq!(state.format(SMALL, &mut image[1..], &TORN, 2000), Told::quiet(1));
    assert_eq!(state.insert(&image, 0, 1), 0);
    assert_eq!(state.delete(&image, 0), 0);
    assert_eq!(state.insert(&image[1..], 0, 1), 1);
    assert_eq!((state.on, state.erases), (true, shown));
    state.commit = u32::MAX;
    assert_eq!(state.commit(&mut image, &TORN, 2000), Told::quiet(6));
    assert_eq!((state.on, state.erases), (true, shown));
    image.fill(255);
    assert_eq!(state.mount(SMALL, &mut image, &TORN, 255), Told::quiet(7));
    assert_eq!((state.on, state.erases), (false, shown));
}

/// A figure at its greatest goes on with 0.
#[test]
fn greatest_figure() {
    let (mut random, mut worn) = (Random::new(36), Worn::new(3));
    worn.state.erases = [u64::MAX; 32];
    while worn.state.erases[0] != 0 {
        update(&mut random, &mut worn.state, &worn.image, 60);
        assert_eq!(worn.state.commit(&mut worn.image, &TORN, 2000).refusal, 0);
    }
    assert_eq!(worn.state.block_report(&worn.image, 0).map(|r| r.erases), Ok(0));
}

/// The probe's reply: free pages, first free page, and the figure in 16 digits; a refusal stands alone.
#[test]
fn replies() {
    let mut probe = Probe::new();
    assert_eq!(probe.line(b"0600000000"), "02");
    probe.line(b"00000007D0");
    assert_eq!(probe.line(b"0600000000"), "001F010000000000000000");
    assert_eq!(probe.line(b"0600000003"), "04");
    let mut erases = 0;
    for _ in 0..200 {
        probe.line(b"010000000700000063");
        let told = probe.line(b"04000007D0");
        erases += u64::from_str_radix(&told[18..], 16).unwrap();
    }
    let figures: Vec<String> = (0..3).map(|block| probe.line(format!("06{block:08X}").as_bytes())).collect();
    assert!(figures.iter().all(|reply| reply.len() == 22), "{figures:?}");
    let sum: u64 = figures.iter().map(|reply| u64::from_str_radix(&reply[6..], 16).unwrap()).sum();
    assert!(sum == erases && sum > 0, "{sum} of {erases} erases");
}
