//! The twin's forecast held against its own commit: what it tells a commit with so much power tells, and one with less is cut.
mod filled;

use filled::{formatted, update, TORN};
use model::bench::Bench;
use model::probe::Probe;
use model::random::Random;
use model::twin::chip::is_blank;
use model::twin::geometry::SMALL;
use model::twin::state::{State, BUFFER};
use model::twin::told::{Counts, Told};

/// The forecast of a store: it changes nothing, a commit with as many operations tells the same, and one with fewer is cut at the last.
fn foretold(state: &State, image: &[u8]) -> Told {
    let (before, old) = (state.clone(), image.to_vec());
    let told = state.forecast(image);
    assert!(*state == before && image == old, "a forecast changes nothing");
    let commit = |allowance| state.clone().commit(&mut image.to_vec(), &TORN, allowance);
    let sum = told.counts.total();
    assert_eq!(commit(sum), told);
    assert_eq!(commit(u32::MAX), told);
    if sum > 0 {
        let counts = Counts { marks: told.counts.marks - 1, ..told.counts };
        assert_eq!(commit(sum - 1), Told { refusal: 10, counts });
    }
    told
}

/// A list of calls under way: a store on its image, and how many commits had an erase, pages but no erase, two pages or more, no page.
struct List {
    state: State,
    image: Vec<u8>,
    seen: [u32; 4],
}

impl List {
    /// A store formatted on a chip of this many blocks.
    fn new(blocks: usize) -> List {
        let (state, image) = formatted(blocks);
        List { state, image, seen: [0; 4] }
    }

    /// A commit, which does as its forecast told.
    fn commit(&mut self) {
        let told = foretold(&self.state, &self.image);
        let Counts { programs, marks, erases } = told.counts;
        assert_eq!((told.refusal, marks, programs > 0), (0, 2 * programs, self.state.pending > 0));
        let kinds = [erases > 0, programs > 0 && erases == 0, programs > 1, programs == 0];
        self.seen.iter_mut().zip(kinds).for_each(|(seen, is)| *seen += u32::from(is));
        assert_eq!(self.state.commit(&mut self.image, &TORN, told.counts.total()), told);
        assert!(self.state.on);
    }

    /// A commit cut at any of its operations with these torn bytes, and the mount after it.
    fn cut(&mut self, random: &mut Random, torn: &[u8]) {
        let need = foretold(&self.state, &self.image).counts.total();
        if need > 0 {
            let allowance = random.below(u64::from(need)) as u32;
            let told = self.state.commit(&mut self.image, torn, allowance);
            assert_eq!((told.refusal, told.counts.total()), (10, allowance));
            assert_eq!(self.state.forecast(&self.image), Told::quiet(2));
            assert_eq!(self.state.mount(SMALL, &mut self.image, &TORN, 255).refusal, 0);
        }
    }

    /// Updates, and then a commit, or at times a cut one, a mount that drops them, a format, or another commit.
    fn round(&mut self, random: &mut Random, range: u64) {
        update(random, &mut self.state, &self.image, range);
        match random.below(40) {
            0..=3 => self.cut(random, &TORN),
            4 => self.cut(random, &[0; SMALL.page()]),
            5 => self.cut(random, &[255; SMALL.page()]),
            6 | 7 => assert_eq!(self.state.mount(SMALL, &mut self.image, &TORN, 255).refusal, 0),
            8 if random.once_in(12) => assert_eq!(self.state.format(SMALL, &mut self.image, &TORN, 2000).refusal, 0),
            _ => self.commit(),
        }
        if random.once_in(9) {
            self.commit();
        }
    }
}

/// Random lists on a chip; their commits are of every kind.
fn lists(seed: u64, blocks: usize, rounds: usize, ranges: &[u64]) {
    let mut random = Random::new(seed);
    let mut seen = [0; 4];
    for &range in ranges {
        let mut list = List::new(blocks);
        (0..rounds).for_each(|_| list.round(&mut random, range));
        println!("{blocks} blocks, {range} keys: {:?}", list.seen);
        seen.iter_mut().zip(list.seen).for_each(|(all, own)| *all += own);
    }
    assert!(seen.iter().all(|&seen| seen > 0), "{seen:?}");
}

/// Chips of 3 blocks.
#[test]
fn three_blocks() {
    lists(71, 3, 1000, &[60, 200, 800]);
}

/// Chips of 4 blocks.
#[test]
fn four_blocks() {
    lists(72, 4, 1000, &[60, 300, 900]);
}

/// Chips of 8 blocks.
#[test]
fn eight_blocks() {
    lists(73, 8, 1000, &[400, 1500]);
}

/// Chips of 32 blocks.
#[test]
fn thirty_two_blocks() {
    lists(74, 32, 1500, &[3200]);
}

/// A store of 3 blocks with one update pending.
fn pending() -> (State, Vec<u8>) {
    let (mut state, image) = formatted(3);
    assert_eq!(state.insert(&image, 7, 99), 0);
    (state, image)
}

/// Off is 2 on every size, and a wrong size 1 whatever is pending; nothing pending is 0 with the last number too.
#[test]
fn refusals() {
    let (state, image) = pending();
    for len in [
        0,
        1,
        SMALL.page(),
        2 * SMALL.block(),
        3 * SMALL.block() - 1,
        3 * SMALL.block() + 1,
        4 * SMALL.block(),
        32 * SMALL.block(),
        33 * SMALL.block(),
    ] {
        let lent = vec![255; len];
        assert_eq!(foretold(&State::new(), &lent), Told::quiet(2));
        assert_eq!(foretold(&state, &lent), Told::quiet(1));
        assert_eq!(foretold(&formatted(3).0, &lent), Told::quiet(1));
    }
    assert_eq!(foretold(&State::new(), &image), Told::quiet(2));
    let (mut state, image) = formatted(3);
    assert_eq!(foretold(&state, &image), Told::quiet(0));
    state.commit = u32::MAX;
    assert_eq!(foretold(&state, &image), Told::quiet(0));
}

/// With updates pending the last number is 6, and so is a buffer count above 960.
#[test]
fn last_number() {
    let one = Told { refusal: 0, counts: Counts { programs: 1, marks: 2, erases: 0 } };
    let (mut state, image) = pending();
    for (commit, told) in [(1, one), (u32::MAX - 1, one), (u32::MAX, Told::quiet(6))] {
        state.commit = commit;
        assert_eq!(foretold(&state, &image), told);
        assert_eq!(foretold(&state, &image[1..]), Told::quiet(1));
    }
    let (mut state, image) = pending();
    state.count = BUFFER + 1;
    assert_eq!(foretold(&state, &image), Told::quiet(6));
}

/// A plan without a page is 6: nothing in the buffer, or a unit of no node; and so is a chip without room.
#[test]
fn stuck() {
    let (mut state, image) = pending();
    state.count = 0;
    assert_eq!(foretold(&state, &image), Told::quiet(6));
    let (mut state, image) = pending();
    state.buffer[2] = 24;
    assert_eq!(foretold(&state, &image), Told::quiet(6));
    let (mut state, mut image) = pending();
    for block in 0..3 {
        state.lens[block] = 1;
        state.slots[4 * block] = 32 * block as u32;
    }
    image[..SMALL.block()].iter_mut().for_each(|byte| *byte &= 254);
    assert_eq!(foretold(&state, &image), Told::quiet(6));
}

/// Stores on images changed since, in some bytes, in a block or in all: a forecast still tells what a commit does.
#[test]
fn changed_images() {
    let mut random = Random::new(75);
    let (mut refused, mut erases) = (0, 0);
    let (mut state, mut image) = formatted(3);
    for _ in 0..600 {
        update(&mut random, &mut state, &image, 200);
        let mut changed = image.clone();
        let end = [1, 20, SMALL.block(), 3 * SMALL.block()][random.index(4)];
        for byte in 0..end {
            let at = if end < SMALL.block() { random.index(image.len()) } else { byte };
            changed[at] = [0, 255, random.byte()][random.index(3)];
        }
        let told = foretold(&state, &changed);
        refused += u32::from(told.refusal == 6);
        erases += told.counts.erases;
        state.commit(&mut image, &TORN, 2000);
    }
    println!("{refused} refused, {erases} erases");
    assert!(refused > 0 && erases > 0);
}

/// The blocks that hold no page of a list.
fn unlisted(state: &State) -> Vec<u32> {
    let listed: Vec<u32> = (0..state.limit()).flat_map(|n| state.list(n)).map(|place| place / 32).collect();
    (0..state.blocks as u32).filter(|block| !listed.contains(block)).collect()
}

/// A chip with a full head block whose lists are made to reach all blocks but four: the commit is a snapshot, which erases several.
#[test]
fn snapshot() {
    let mut random = Random::new(76);
    let (mut state, mut image) = formatted(32);
    for _ in 0..1000 {
        update(&mut random, &mut state, &image, 3200);
        assert_eq!(state.commit(&mut image, &TORN, 2000).refusal, 0);
    }
    update(&mut random, &mut state, &image, 3200);
    for &block in &unlisted(&state)[4..] {
        let n = (0..256).find(|&n| state.lens[n] < 4).unwrap();
        state.slots[4 * n + state.lens[n] as usize] = 32 * block;
        state.lens[n] += 1;
    }
    image.chunks_exact_mut(SMALL.page()).filter(|page| is_blank(page)).for_each(|page| page[0] = 0);
    let told = foretold(&state, &image);
    println!("{told:?}");
    assert!(told.refusal == 0 && told.counts.programs > 32 && told.counts.erases > 1);
}

/// The probe's frame 09, which has no number; the bench program has no such frame.
#[test]
fn replies() {
    let mut probe = Probe::new();
    let none = "0".repeat(24);
    assert_eq!(probe.line(b"09"), format!("02{none}"));
    probe.line(b"00000007D0");
    assert_eq!(probe.line(b"09"), format!("00{none}"));
    probe.line(b"010000000700000063");
    assert_eq!(probe.line(b"09"), "00000000010000000200000000");
    for line in ["090", "0900", "0900000000", "090000000000", "090000000000000000", "9", "09 ", "08"] {
        assert_eq!(probe.line(line.as_bytes()), "FF");
    }
    probe.line(b"1400000001");
    assert_eq!(probe.line(b"09"), "00000000010000000200000000");
    probe.line(b"1000000004");
    assert_eq!(probe.line(b"09"), format!("01{none}"));
    let mut bench = Bench::new();
    for line in ["00", "010000000700000063"] {
        assert_eq!(bench.line(line.as_bytes()), "00");
        assert_eq!(bench.line(b"09"), "FF");
    }
}
