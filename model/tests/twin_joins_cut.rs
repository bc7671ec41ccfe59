//! Commits of the twin with joins, moves and numbers used again, cut at every allowance: a mount finds the nodes of before or of after.
mod tables;

use model::random::Random;
use model::twin::geometry::{Geometry, LARGE, SMALL};
use model::twin::state::State;
use tables::{is_thick, records, table_of, Table};

/// A store, and what its cuts had: commits, of these such that free a number and such that use a freed one again, and ends old and new.
struct Run {
    part: Geometry,
    state: State,
    image: Vec<u8>,
    seen: [u32; 5],
}

impl Run {
    /// A chip of so many blocks, formatted.
    fn new(part: Geometry, blocks: usize) -> Run {
        let (mut state, mut image) = (State::new(), vec![255; blocks * part.block()]);
        state.format(part, &mut image, &vec![0x5A; part.page()], u32::MAX);
        Run { part, state, image, seen: [0; 5] }
    }

    /// An update, a delete in `deletes` of 8 cases; mostly around a key, so that leaves there split and join again.
    fn update(&mut self, random: &mut Random, deletes: u64) {
        let own = records(&table_of(&self.state, &self.image));
        match own.get(random.index(own.len().max(1))) {
            Some(&(key, _)) if random.below(8) < deletes => drop(self.state.delete(&self.image, key)),
            _ => drop(self.state.insert(&self.image, random.below(4000) as u32, random.next() as u32)),
        }
    }

    /// The mount after a cut has one of the two tables, and goes on from it. Whether it is the new one.
    fn mounted(&self, mut image: Vec<u8>, before: &Table, after: &Table, random: &mut Random) -> bool {
        let mut state = State::new();
        assert_eq!(state.mount(self.part, &mut image, &vec![0; self.part.page()], 255).refusal, 0);
        let table = table_of(&state, &image);
        assert!(table == *before || table == *after, "neither the nodes of before nor those of after");
        let mut run = Run { part: self.part, state, image, seen: [0; 5] };
        (0..3).for_each(|_| run.update(random, 5));
        let went_on = table_of(&run.state, &run.image);
        assert_eq!(run.state.commit(&mut run.image, &vec![0; self.part.page()], 4000).refusal, 0);
        assert_eq!(run.state.mount(self.part, &mut run.image, &vec![0; self.part.page()], 255).refusal, 0);
        assert!(table_of(&run.state, &run.image) == went_on);
        table == *after
    }

    /// The commit cut at every allowance with a torn slice.
    fn cut(&mut self, before: &Table, torn: &[u8], random: &mut Random) {
        let after = table_of(&self.state, &self.image);
        for allowance in 0..self.state.forecast(&self.image).counts.total() {
            let (mut state, mut image) = (self.state.clone(), self.image.clone());
            let told = state.commit(&mut image, torn, allowance);
            assert_eq!((told.refusal, told.counts.total(), state.on), (10, allowance, false));
            let new = self.mounted(image, before, &after, random);
            self.seen[3 + usize::from(new)] += 1;
        }
    }

    /// Whether the pending updates free a number that is on flash, and whether they use one that is freed there.
    fn reuse(&self, before: &Table) -> (bool, bool) {
        let after = table_of(&self.state, &self.image);
        let frees = before.keys().any(|number| !after.contains_key(number));
        (frees, self.state.listed().any(|number| !before.contains_key(&number) && after.contains_key(&number)))
    }

    /// 16 updates and a commit, cut everywhere first with several torn slices where it frees a number or uses one again.
    fn round(&mut self, random: &mut Random, deletes: u64) {
        let before = table_of(&self.state, &self.image);
        while self.state.pending < 16 {
            self.update(random, deletes);
        }
        let (frees, again) = self.reuse(&before);
        if frees || again {
            self.seen[0] += 1;
            self.seen[1] += u32::from(frees);
            self.seen[2] += u32::from(again);
            let any: Vec<u8> = (0..self.part.page()).map(|_| random.byte()).collect();
            for torn in [vec![0; self.part.page()], vec![0x5A; self.part.page()], any] {
                self.cut(&before, &torn, random);
            }
        }
        assert_eq!(self.state.commit(&mut self.image, &vec![0; self.part.page()], 4000).refusal, 0);
        assert!(is_thick(&table_of(&self.state, &self.image)));
    }
}

/// Turns of mostly inserts and of mostly deletes on a chip.
fn turns(part: Geometry, blocks: usize, rounds: usize) {
    let (mut random, mut run) = (Random::new(blocks as u64), Run::new(part, blocks));
    for round in 0..rounds {
        run.round(&mut random, [1, 1, 2, 5, 7, 4, 3, 6][round / 4 % 8]);
    }
    println!("B = {blocks}, pages of {} bytes: {:?}", part.page(), run.seen);
    assert!(run.seen.iter().all(|&seen| seen > 4));
}

/// Chips of the small part.
#[test]
fn small() {
    turns(SMALL, 3, 130);
    turns(SMALL, 5, 80);
}

/// A chip of the large part.
#[test]
fn large() {
    turns(LARGE, 3, 60);
}
