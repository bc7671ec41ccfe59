//! Scripts of every kind on both parts, run by the twin and held by the judge, and what their commits reach.
use model::crash::Case;
use model::model::counts::Counts;
use model::model::frame::{parse, Frame};
use model::model::geometry::Geometry;
use model::model::judge::Judge;
use model::probe::Probe;
use model::random::Random;
use model::scripts::KINDS;
use model::twin::state::State;
use model::twin::unit::word;
use std::time::Instant;

/// What scripts have: lines, commits that were cut, and commits that wrote pages; of these, those of several pages, those of several pages
/// in which all nodes stand, those after which a list has four pages, and those of a list that a format began; and the erases.
#[derive(Default, Debug)]
struct Reached {
    scripts: usize,
    lines: usize,
    cut: u32,
    commits: u32,
    several: u32,
    whole: u32,
    fours: u32,
    begun: u32,
    erases: u32,
}

/// Whether all nodes and all freed numbers stand in pages of the newest commit alone.
fn is_whole(state: &State, image: &[u8]) -> bool {
    let newest = |place: u32| word(&image[place as usize * state.geometry.page()..], 0) == state.commit;
    state.listed().all(|n| state.list(n).len() == 1 && newest(state.list(n)[0]))
}

impl Reached {
    /// A commit's reply taken into account.
    fn commit(&mut self, reply: &str, twin: &Probe, begun: bool) {
        let counts = Counts::read(&reply.as_bytes()[2..]).unwrap();
        self.cut += u32::from(reply.starts_with("0A"));
        if !reply.starts_with("00") || counts.programs == 0 {
            return;
        }
        self.commits += 1;
        self.several += u32::from(counts.programs > 1);
        self.whole += u32::from(counts.programs > 1 && is_whole(twin.state(), twin.image()));
        self.fours += u32::from(twin.state().lens.contains(&4));
        self.begun += u32::from(begun);
        self.erases += counts.erases;
    }

    /// A script run; the judge has to accept it.
    fn run(&mut self, name: &str, seed: u64, script: &[Vec<u8>]) {
        let (mut twin, mut judge) = (Probe::new(), Judge::new());
        for line in script {
            let reply = twin.line(line);
            judge.line(line, &reply, twin.image()).unwrap_or_else(|why| panic!("{name}, seed {seed}: {why}"));
            if let Some(Frame::Commit(_)) = parse(line) {
                self.commit(&reply, &twin, judge.all_fixed());
            }
        }
        self.scripts += 1;
        self.lines += script.len();
    }

    /// Another one added.
    fn add(&mut self, other: &Reached) {
        self.scripts += other.scripts;
        self.lines += other.lines;
        self.cut += other.cut;
        self.commits += other.commits;
        self.several += other.several;
        self.whole += other.whole;
        self.fours += other.fours;
        self.begun += other.begun;
        self.erases += other.erases;
    }
}

/// So many scripts of a maker.
fn reach(name: &str, scripts: u64, make: impl Fn(&mut Random) -> Vec<Vec<u8>>) -> Reached {
    let (start, mut reached) = (Instant::now(), Reached::default());
    for seed in 0..scripts {
        reached.run(name, seed, &make(&mut Random::new(seed)));
    }
    println!("{name}: {:.2?} {reached:?}", start.elapsed());
    reached
}

/// Scripts of all kinds on a part, so many of each, and of the crash test.
fn all(part: Geometry, scripts: u64, crashes: u64) -> Reached {
    let mut sum = Reached::default();
    for kind in &KINDS {
        sum.add(&reach(kind.name, scripts, |random| (kind.make)(random, part)));
    }
    sum.add(&reach("crash", crashes, |random| Case::new(random, part).replays(random).lines));
    println!("all: {sum:?}");
    sum
}

/// Scripts on the small part.
#[test]
fn small() {
    let sum = all(Geometry::SMALL, 16, 3);
    assert!(sum.several > 300 && sum.whole > 10 && sum.fours > 300 && sum.erases > 100 && sum.cut > 300);
}

/// Scripts on the large part.
#[test]
fn large() {
    let sum = all(Geometry::LARGE, 10, 6);
    assert!(sum.several > 50 && sum.whole > 2 && sum.fours > 50 && sum.erases > 50 && sum.cut > 200);
}
