//! Crash tests of rebuilds: cut at every operation, the chip mounted, rebuilt again and used on; run by the twin and held by the judge.
use model::crash::Case;
use model::model::frame::{parse, Frame};
use model::model::geometry::Geometry;
use model::model::image::{meaning, Meaning};
use model::model::judge::Judge;
use model::probe::Probe;
use model::random::Random;

/// Cut rebuilds: in the marks of void pages, in the pages with the old tree left, with the new one left; and those finished, and refused
/// with 5.
#[derive(Default, Debug)]
struct Seen {
    marks: u32,
    pages: u32,
    anew: u32,
    finished: u32,
    five: u32,
}

impl Seen {
    /// A rebuild's reply, with what the image meant before it and means after it.
    fn take(&mut self, reply: &str, before: &Meaning, after: &Meaning) {
        match &reply[..2] {
            "00" => self.finished += 1,
            "05" => self.five += 1,
            "0A" if after.greatest != before.greatest => self.anew += 1,
            "0A" if u32::from_str_radix(&reply[10..18], 16).unwrap() < before.void.len() as u32 => self.marks += 1,
            "0A" => self.pages += 1,
            _ => {}
        }
    }
}

/// A script run by the twin; the judge has to accept it.
fn run(seed: u64, geometry: Geometry, script: &[Vec<u8>], seen: &mut Seen) {
    let (mut twin, mut judge) = (Probe::new(), Judge::new());
    let read = |twin: &Probe| meaning(geometry, twin.image(), twin.image().len() / geometry.block());
    for line in script {
        let before = matches!(parse(line), Some(Frame::Rebuild(_))).then(|| read(&twin));
        let reply = twin.line(line);
        judge.line(line, &reply, twin.image()).unwrap_or_else(|why| panic!("seed {seed}: {why}"));
        if let Some(Ok(before)) = before {
            seen.take(&reply, &before, &read(&twin).expect("a meaning after a rebuild"));
        }
    }
}

/// Some cases of a part; cuts at all places are met.
fn cases(part: Geometry) {
    let mut seen = Seen::default();
    for seed in 21..24 {
        let mut random = Random::new(seed);
        let script = Case::new(&mut random, part).replays(&mut random).lines;
        run(seed, part, &script, &mut seen);
    }
    println!("{seen:?}");
    assert!(seen.marks > 2 && seen.pages > 30 && seen.anew > 2 && seen.finished > 20);
}

/// Cases on the small part.
#[test]
fn small() {
    cases(Geometry::SMALL);
}

/// Cases on the large part.
#[test]
fn large() {
    cases(Geometry::LARGE);
}
