//! Scripts of the kind joins, run by the twin and held by the judge, and what they reach on both parts.
mod seen;

use model::model::frame::{parse, Frame};
use model::model::geometry::Geometry;
use model::model::image::meaning;
use model::model::judge::Judge;
use model::model::plain::Plain;
use model::model::tree::Tree;
use model::probe::Probe;
use model::random::Random;
use model::scripts::joins;
use seen::Seen;

/// Takes what an update reached from the judge's store before and after it.
fn look(seen: &mut Seen, frame: Frame, reply: &str, before: &Tree, after: &Plain, image: &[u8]) {
    match frame {
        Frame::Delete(key) if reply == "00" => seen.delete(key, before, &after.present),
        Frame::Insert(..) if reply == "00" || reply == "05" => {
            let taken = before.nodes.iter().flatten().count() != after.present.nodes.iter().flatten().count();
            let means = taken.then(|| meaning(after.geometry, image, after.blocks).ok()).flatten();
            seen.insert(reply == "00", before, &after.present, means.as_ref());
        }
        _ => {}
    }
}

/// A script run by the twin; the judge has to accept it.
fn run(seed: u64, script: &[Vec<u8>], seen: &mut Seen) {
    let (mut twin, mut judge) = (Probe::new(), Judge::new());
    for line in script {
        let update = parse(line).filter(|frame| matches!(frame, Frame::Insert(..) | Frame::Delete(_)));
        let before = update.map(|_| judge.store().present.clone());
        let reply = twin.line(line);
        judge.line(line, &reply, twin.image()).unwrap_or_else(|why| panic!("seed {seed}: {why}"));
        if let (Some(frame), Some(before)) = (update, before) {
            look(seen, frame, &reply, &before, judge.store(), twin.image());
        }
        if let Some(Frame::Commit(_) | Frame::Mount(_)) = parse(line) {
            seen.written();
        }
    }
}

/// So many scripts on a part; all is reached.
fn scripts(part: Geometry, count: u64) {
    let mut seen = Seen::default();
    let mut lines = 0;
    for seed in 0..count {
        let script = joins::make(&mut Random::new(seed), part);
        lines += script.len();
        run(seed, &script, &mut seen);
    }
    println!("{lines} lines, {}", seen.told());
    assert!(seen.least() > 0);
}

/// Scripts on the small part.
#[test]
fn small() {
    scripts(Geometry::SMALL, 24);
}

/// Scripts on the large part.
#[test]
fn large() {
    scripts(Geometry::LARGE, 24);
}
