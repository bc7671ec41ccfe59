//! Stores that go on from a rebuild: updates, commits, cuts, mounts and further rebuilds beside a map of the records.
use super::chips::{any_plan, chip};
use super::expected::free_blocks;
use super::tables::{is_thick, records, table_of, Sizes};
use super::whole::rebuild;
use super::{eighth, torn};
use model::random::Random;
use model::twin::geometry::{Geometry, LARGE, SMALL};
use model::twin::state::State;
use std::collections::BTreeMap;

/// A store, its records and those of the last commit, the erases of its blocks since the rebuild or the mount, and the rebuilds done and
/// refused.
struct Store {
    part: Geometry,
    state: State,
    image: Vec<u8>,
    present: BTreeMap<u32, u32>,
    kept: BTreeMap<u32, u32>,
    erases: u64,
    rebuilds: [u32; 2],
}

impl Store {
    /// A chip rebuilt.
    fn new(part: Geometry, mut image: Vec<u8>) -> Store {
        let (state, old) = rebuild(part, &mut image);
        let present: BTreeMap<u32, u32> = records(&old.table).into_iter().collect();
        Store { part, state, image, kept: present.clone(), present, erases: 0, rebuilds: [0; 2] }
    }

    /// A random update, a delete in `deletes` of 8 cases. It is refused with 3, 4 or 5 as it has to be.
    fn update(&mut self, random: &mut Random, deletes: u64) {
        let any = random.next() as u32;
        let own = self.present.range(any..).next().map_or(any, |record| *record.0);
        let key = if random.once_in(3) { any } else { own };
        if random.below(8) < deletes {
            let expected = if self.present.remove(&key).is_some() { 0 } else { 4 };
            assert_eq!(self.state.delete(&self.image, key), expected);
        } else {
            match self.state.insert(&self.image, key, any) {
                0 => drop(self.present.insert(key, any)),
                refusal => assert!(refusal == 5 && !self.present.contains_key(&key)),
            }
        }
    }

    /// The store has the records of the map in a tree without a thin node, a leaf neither.
    fn compare(&self) {
        let table = table_of(&self.state, &self.image);
        assert!(is_thick(&table) && records(&table).into_iter().eq(self.present.iter().map(|(&key, &value)| (key, value))));
        assert_eq!(self.state.erases.iter().sum::<u64>(), self.erases);
        assert!(self.state.lens.iter().all(|&len| len <= 4));
    }

    /// A commit with power enough, or cut, with a mount behind it, which finds the records of before or of after.
    fn commit(&mut self, random: &mut Random) {
        let sum = self.state.forecast(&self.image).counts;
        let cut = random.once_in(6) && self.state.pending > 0;
        let allowance = if cut { random.below(u64::from(sum.total())) as u32 } else { sum.total() };
        let told = self.state.commit(&mut self.image, &torn(self.part), allowance);
        assert_eq!((told.refusal, self.state.on), if cut { (10, false) } else { (0, true) });
        self.erases += u64::from(told.counts.erases);
        if cut {
            self.mount();
            self.present.clone_from(&self.kept);
        }
        self.kept.clone_from(&self.present);
    }

    /// A mount, which is never refused.
    fn mount(&mut self) {
        assert_eq!(self.state.mount(self.part, &mut self.image, &torn(self.part), 255).refusal, 0);
        self.erases = 0;
    }

    /// A further rebuild, which drops what is pending; 5 where too few blocks are free.
    fn rebuild(&mut self) {
        let enough = free_blocks(self.part, &self.image).len() >= eighth(self.state.blocks);
        self.rebuilds[usize::from(enough)] += 1;
        if enough {
            self.state = rebuild(self.part, &mut self.image).0;
            self.present.clone_from(&self.kept);
            self.erases = 0;
            return;
        }
        let before = self.state.clone();
        assert_eq!(self.state.rebuild(self.part, &mut self.image, &torn(self.part), 0).refusal, 5);
        assert!(self.state == before);
    }

    /// So many rounds of updates and a commit.
    fn rounds(&mut self, random: &mut Random, rounds: usize) {
        for round in 0..rounds {
            let deletes = [2, 7, 1, 4][round / 12 % 4];
            (0..1 + random.index(16)).for_each(|_| self.update(random, deletes));
            if random.once_in(8) {
                self.rebuild();
            }
            self.commit(random);
            if random.once_in(12) {
                self.mount();
            }
            self.compare();
        }
    }
}

/// A chip that a format began is rebuilt again and again, each time into one free block more, until too few are left.
#[test]
fn again_and_again() {
    for (part, blocks) in [(SMALL, 3), (SMALL, 8), (SMALL, 9), (SMALL, 32), (LARGE, 3), (LARGE, 9)] {
        let mut image = vec![0; blocks * part.block()];
        assert_eq!(State::new().format(part, &mut image, &torn(part), u32::MAX).refusal, 0);
        let mut store = Store::new(part, image);
        (0..2 * blocks).for_each(|_| store.rebuild());
        assert_eq!(store.rebuilds, [blocks + eighth(blocks) + 1, blocks - eighth(blocks) - 1].map(|count| count as u32));
        (0..30).for_each(|key| assert_eq!(store.state.insert(&store.image, key, key), if key < 16 { 0 } else { 3 }));
        assert_eq!(store.state.commit(&mut store.image, &torn(part), 3).refusal, 0);
    }
}

/// Random chips of so many blocks rebuilt, and so many rounds on each.
fn chips(part: Geometry, blocks: usize, chips: usize, rounds: usize) {
    let (mut random, mut rebuilds) = (Random::new(blocks as u64), [0; 2]);
    for i in 0..chips {
        let sizes = [Sizes::Slim, Sizes::Any, Sizes::Ends][i % 3];
        let plan = any_plan(&mut random, blocks, (i % 4) as u32, sizes, eighth(blocks));
        let mut store = Store::new(part, chip(&mut random, part, blocks, &plan));
        store.rounds(&mut random, rounds);
        (0..2).for_each(|j| rebuilds[j] += store.rebuilds[j]);
    }
    println!("B = {blocks}, pages of {} bytes: further rebuilds refused and done {rebuilds:?}", part.page());
    assert!(rebuilds[0] > 0);
}

/// Chips of 3 blocks.
#[test]
fn three_blocks() {
    chips(SMALL, 3, 24, 120);
    chips(LARGE, 3, 8, 150);
}

/// Chips of 8 and 9 blocks.
#[test]
fn eight_and_nine_blocks() {
    chips(SMALL, 8, 12, 120);
    chips(SMALL, 9, 12, 120);
    chips(LARGE, 9, 4, 60);
}

/// Chips of 32 blocks.
#[test]
fn thirty_two_blocks() {
    chips(SMALL, 32, 4, 100);
    chips(LARGE, 32, 3, 30);
}
