//! The judge against a tiny store on scripts in which node 0 splits at level 2: right answers pass, each fault there is seen.
#[allow(dead_code)]
mod tiny;

use model::model::geometry::Geometry;
use model::model::judge::Judge;
use model::random::Random;
use model::scripts::heights;
use tiny::{Bug, Tiny};

/// The part of these scripts: one of its blocks has room for all nodes of a large tree.
const LARGE: Geometry = Geometry::LARGE;

/// A script run by the tiny store; the splits of node 0 at level 2 that the judge accepted, or what it found.
fn run(bug: Bug, script: &[Vec<u8>]) -> Result<u32, String> {
    let (mut tiny, mut judge, mut splits) = (Tiny::new(Geometry::SMALL, bug), Judge::new(), 0);
    for line in script {
        let reply = tiny.line(line);
        let level = judge.store().on.then(|| judge.store().present.node(0).level);
        judge.line(line, &reply, tiny.image())?;
        splits += (level == Some(2) && line.starts_with(b"01") && judge.store().present.node(0).level == 3) as u32;
    }
    Ok(splits)
}

/// Scripts on chips that a format began, and in how many of them the judge accepts a split of node 0 at level 2 at least.
const SCRIPTS: u64 = 24;
const LEAST: usize = 6;

/// The scripts.
fn scripts() -> impl Iterator<Item = Vec<Vec<u8>>> {
    (0..SCRIPTS).map(|seed| heights::formatted(&mut Random::new(seed), LARGE))
}

/// A store that is right passes, and node 0 splits at level 2.
#[test]
fn right_heights_pass() {
    let splits: Vec<u32> = scripts().map(|script| run(Bug::None, &script).unwrap()).collect();
    println!("splits at level 2: {splits:?}");
    assert!(splits.iter().filter(|count| **count > 0).count() >= LEAST);
}

/// Every fault where node 0 splits at level 2 is seen by the judge.
#[test]
fn each_fault_in_height_is_seen() {
    for bug in Bug::HEIGHT {
        let seen: Vec<String> = scripts().filter_map(|script| run(bug, &script).err()).collect();
        println!("{bug:?}: seen in {} scripts: {}", seen.len(), seen.first().cloned().unwrap_or_default());
        assert!(seen.len() >= LEAST, "{bug:?} was seen in {} scripts", seen.len());
    }
}
