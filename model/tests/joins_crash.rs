//! Crash tests of commits that free a node: cut at every operation, the chip mounted and read; run by the twin and held by the judge.
use model::crash::Case;
use model::model::frame::{parse, Frame};
use model::model::geometry::Geometry;
use model::model::judge::Judge;
use model::model::plain::Plain;
use model::probe::Probe;
use model::random::Random;

/// Whether the pending updates of a store free a node of K.
fn frees(store: &Plain) -> bool {
    store.on && store.kept.nodes.iter().zip(&store.present.nodes).any(|(kept, present)| kept.is_some() && present.is_none())
}

/// The cut commits that would have freed a node, by whether the image after them means P.
fn cuts(seed: u64, script: &[Vec<u8>]) -> [u32; 2] {
    let (mut twin, mut judge) = (Probe::new(), Judge::new());
    let mut cuts = [0; 2];
    for line in script {
        let commit = matches!(parse(line), Some(Frame::Commit(_))) && frees(judge.store());
        let (reply, number) = (twin.line(line), judge.store().number);
        judge.line(line, &reply, twin.image()).unwrap_or_else(|why| panic!("seed {seed}: {why}"));
        if commit && reply.starts_with("0A") {
            cuts[(judge.store().number > number) as usize] += 1;
        }
    }
    cuts
}

/// Two cases of a part, each of which ends before a commit that frees a node.
fn cases(part: Geometry) {
    let mut sum = [0; 2];
    for seed in [11, 16] {
        let mut random = Random::new(seed);
        let [kept, present] = cuts(seed, &Case::new(&mut random, part).replays(&mut random).lines);
        sum = [sum[0] + kept, sum[1] + present];
    }
    println!("{} cut commits left K, {} left P", sum[0], sum[1]);
    assert!(sum[0] > 20);
}

/// Cases on the small part.
#[test]
fn small() {
    cases(Geometry::SMALL);
}

/// Cases on the large part.
#[test]
fn large() {
    cases(Geometry::LARGE);
}
