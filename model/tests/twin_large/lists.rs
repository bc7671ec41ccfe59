//! Lists of calls without a cut: look ups against a map, mounts that read what commits noted, erases that pay, and figures of commits.
use super::{Store, MOUNT, TORN};
use model::random::Random;
use model::twin::chip::is_blank;
use model::twin::geometry::LARGE;
use model::twin::state::State;
use model::twin::told::Counts;

/// Commits, their pages and erases in all, and the most pages and the most operations of one.
#[derive(Default, Debug)]
struct Figures {
    commits: u32,
    pages: u32,
    erases: u32,
    most_pages: u32,
    most_operations: u32,
}

impl Figures {
    /// One more commit.
    fn add(&mut self, counts: Counts) {
        self.commits += 1;
        self.pages += counts.programs;
        self.erases += counts.erases;
        self.most_pages = self.most_pages.max(counts.programs);
        self.most_operations = self.most_operations.max(counts.total());
    }
}

/// A list under way: the store, its figures, and for each block the commit that erased it last.
struct List {
    store: Store,
    figures: Figures,
    erased: Vec<u32>,
}

impl List {
    /// A list on a chip of this many blocks.
    fn new(blocks: usize) -> List {
        List { store: Store::formatted(blocks), figures: Figures::default(), erased: vec![0; blocks] }
    }

    /// A commit: its lists have at most 4 pages, and its erases pay.
    fn commit(&mut self) {
        let before = self.store.state.erases;
        let counts = self.store.commit();
        if counts.programs > 0 {
            self.figures.add(counts);
        }
        let state = &self.store.state;
        assert!(state.lens.iter().all(|&len| len <= 4));
        for block in (0..state.blocks).filter(|&block| state.erases[block] != before[block]) {
            assert!(self.erased[block] == 0 || self.erased[block] + 2 <= state.commit, "an erase that does not pay");
            self.erased[block] = state.commit;
        }
        if counts.erases > 0 {
            assert!(self.store.image.chunks_exact(LARGE.page()).any(is_blank), "a reclaim without a free page left");
        }
    }

    /// A mount of a copy reads the numbers and the lists that the state has.
    fn read_back(&self) {
        let (state, mut image, mut read) = (&self.store.state, self.store.image.clone(), State::new());
        assert_eq!(read.mount(LARGE, &mut image, &TORN, MOUNT).counts.total(), 0);
        assert!(image == self.store.image && read.on);
        assert_eq!((read.geometry, read.blocks, read.commit, read.free), (LARGE, state.blocks, state.commit, state.free));
        assert!((0..256).all(|n| read.list(n) == state.list(n)));
    }

    /// Updates and a commit; at times fewer updates, a mount that drops them, or a look at everything.
    fn round(&mut self, random: &mut Random, range: u64) {
        let count = if random.once_in(4) { 1 + random.below(16) as u32 } else { 16 };
        self.store.updates(random, range, count);
        if random.once_in(20) {
            self.store.compare(random, range);
            self.store.mount();
        }
        self.commit();
        if random.once_in(20) {
            self.store.compare(random, range);
            self.read_back();
        }
    }
}

/// Lists on a chip, one for each range of keys: no commit is refused or takes more than 4,000 operations.
fn lists(seed: u64, blocks: usize, rounds: usize, ranges: &[u64]) {
    let mut random = Random::new(seed);
    for &range in ranges {
        let mut list = List::new(blocks);
        (0..rounds).for_each(|_| list.round(&mut random, range));
        list.store.compare(&mut random, range);
        let f = &list.figures;
        assert!(f.erases > 0 && f.most_operations <= 4000);
        let average = f64::from(f.pages) / f64::from(f.commits);
        println!("{blocks} blocks, {range} keys, {} nodes: {average:.3} pages a commit, {f:?}", list.store.state.in_use().count());
    }
}

/// Chips of 3 blocks.
#[test]
fn three_blocks() {
    lists(81, 3, 2000, &[40, 200, 1000]);
}

/// Chips of 8 blocks.
#[test]
fn eight_blocks() {
    lists(82, 8, 2000, &[60, 600, 3000]);
}

/// Chips of 32 blocks.
#[test]
fn thirty_two_blocks() {
    lists(83, 32, 2500, &[300, 2600]);
}
