//! Scripts of the kind heights, run by the twin and held by the judge, and what they reach on both parts; the stored ones too.
use model::model::frame::{parse, Frame};
use model::model::geometry::Geometry;
use model::model::judge::Judge;
use model::model::tree::{Tree, FULL};
use model::probe::Probe;
use model::random::Random;
use model::runner;
use model::scripts::heights;
use std::path::Path;

/// How often each was met, by the level of node 0 before it.
#[derive(Default, Debug)]
struct Seen {
    /// Node 0 split.
    splits: [u32; 4],
    /// Node 0 took over its child.
    overs: [u32; 4],
    /// Inserts refused with 5, and those of them where all nodes of the path are full.
    fives: [u32; 4],
    full: [u32; 4],
    /// Finished commits, mounts and rebuilds.
    commits: [u32; 4],
    mounts: [u32; 4],
    rebuilds: [u32; 4],
}

/// Whether all nodes of a key's path are full.
fn is_full(tree: &Tree, key: u32) -> bool {
    tree.path(key).iter().all(|number| tree.node(*number).entries.len() == FULL)
}

impl Seen {
    /// A call, its reply, and P before and after it. No node is above level 3.
    fn call(&mut self, frame: Frame, reply: &str, before: &Tree, after: &Tree) {
        let (level, now) = (before.node(0).level as usize, after.node(0).level as usize);
        assert!(now <= 3);
        match (frame, &reply[..2]) {
            (Frame::Insert(..), "00") => self.splits[level] += (now > level) as u32,
            (Frame::Insert(key, _), "05") => {
                self.fives[level] += 1;
                self.full[level] += is_full(before, key) as u32;
            }
            (Frame::Delete(_), "00") => self.overs[level] += (now < level) as u32,
            (Frame::Commit(_), "00") => self.commits[level] += 1,
            (Frame::Mount(_), "00") => self.mounts[level] += 1,
            (Frame::Rebuild(_), "00") => self.rebuilds[level] += 1,
            _ => {}
        }
    }

    /// A script run by the twin; the judge has to accept it.
    fn run(&mut self, script: &[Vec<u8>]) {
        let (mut twin, mut judge) = (Probe::new(), Judge::new());
        for line in script {
            let frame = parse(line).filter(|_| judge.store().on);
            let before = frame.map(|_| judge.store().present.clone());
            let reply = twin.line(line);
            judge.line(line, &reply, twin.image()).unwrap();
            if let (Some(frame), Some(before)) = (frame, before) {
                self.call(frame, &reply, &before, &judge.store().present);
            }
        }
    }
}

/// So many scripts on a part: node 0 splits at level 2 and falls from level 3, inserts lack numbers at both, and no root at level 3 splits.
fn scripts(part: Geometry, count: u64) {
    let mut seen = Seen::default();
    for seed in 0..count {
        seen.run(&heights::make(&mut Random::new(seed), part));
    }
    println!("{seen:?}");
    assert!(seen.splits[2] > 20 && seen.overs[3] > 10 && seen.splits[3] == 0);
    assert!(seen.fives[2] > 0 && seen.fives[3] > 0 && seen.full[2] > 0 && seen.full[3] == 0);
    assert!(seen.commits[3] > 10 && seen.mounts[3] > 10 && seen.rebuilds[3] > 0);
}

/// Scripts on the small part.
#[test]
fn small() {
    scripts(Geometry::SMALL, 24);
}

/// Scripts on the large part.
#[test]
fn large() {
    scripts(Geometry::LARGE, 24);
}

/// The stored scripts of this kind split node 0 at level 2.
#[test]
fn stored() {
    for name in ["heights", "large-heights"] {
        let path = Path::new(env!("CARGO_MANIFEST_DIR")).join("scripts").join(name).with_extension("in");
        let mut seen = Seen::default();
        seen.run(&runner::lines_of(&std::fs::read(path).unwrap()));
        println!("{name}: {seen:?}");
        assert!(seen.splits[2] > 1 && seen.overs[3] > 0 && seen.splits[3] == 0);
    }
}
