//! Scripts of the kind rebuilds, run by the twin and held by the judge, and what they reach on both parts.
use model::model::chip;
use model::model::frame::{parse, Frame};
use model::model::geometry::Geometry;
use model::model::image::{meaning, Meaning};
use model::model::judge::Judge;
use model::model::plain::Plain;
use model::probe::Probe;
use model::random::Random;
use model::scripts::rebuilds;
use std::collections::BTreeMap;

/// How often each thing was met.
type Seen = BTreeMap<String, u32>;

/// All that has to be met.
const ALL: [&str; 27] = [
    "answer 00",
    "answer 01",
    "answer 05",
    "answer 06",
    "answer 07",
    "answer 08",
    "answer 09",
    "answer 0A",
    "off",
    "on with nothing pending",
    "on with updates pending",
    "in a list",
    "thin at level 1",
    "thin at level 2",
    "thin at level 3",
    "not thin",
    "void pages",
    "freed numbers",
    "just enough free blocks",
    "one free block fewer",
    "6 and one free block fewer",
    "two blocks or more",
    "cut in the marks",
    "cut in the pages",
    "cut with the new tree",
    "again after a cut",
    "mount 12",
];

/// The blocks of an image that are wholly free.
fn free(geometry: Geometry, image: &[u8]) -> usize {
    (0..image.len() / geometry.block()).filter(|block| chip::wholly_free(geometry, image, *block)).count()
}

/// What a rebuild met before it, given the answer, the store and what the image means.
fn before(answer: &str, store: &Plain, listed: bool, geometry: Geometry, image: &[u8], means: Option<&Meaning>) -> Vec<String> {
    let mut met = vec![format!("answer {answer}")];
    met.push(match (store.on, store.pending) {
        (false, _) => "off".to_string(),
        (true, 0) => "on with nothing pending".to_string(),
        (true, _) => "on with updates pending".to_string(),
    });
    let Some(means) = means.filter(|_| answer != "01") else { return met };
    let (blocks, share) = (image.len() / geometry.block(), (image.len() / geometry.block()).div_ceil(8));
    let level = means.tree.node(0).level;
    let fewer = free(geometry, image) + 1 == share;
    let finds = [
        (listed, "in a list"),
        (!means.tree.thin(), "not thin"),
        (!means.void.is_empty(), "void pages"),
        ((0..8 * blocks).any(|number| means.freed(number)), "freed numbers"),
        (free(geometry, image) == share, "just enough free blocks"),
        (fewer, "one free block fewer"),
        (fewer && answer == "06", "6 and one free block fewer"),
        (share > 1 && answer == "00", "two blocks or more"),
    ];
    met.extend(finds.iter().filter(|(is, _)| *is).map(|(_, name)| name.to_string()));
    met.extend(means.tree.thin().then(|| format!("thin at level {level}")));
    met
}

/// What a cut rebuild left.
fn cut(reply: &str, number: u32, voids: usize, after: Option<&Meaning>) -> &'static str {
    if after.is_some_and(|means| means.greatest == number + 1) {
        return "cut with the new tree";
    }
    let pages = u32::from_str_radix(&reply[2..10], 16).unwrap();
    let marks = u32::from_str_radix(&reply[10..18], 16).unwrap();
    if pages == 0 && (marks as usize) < voids {
        "cut in the marks"
    } else {
        "cut in the pages"
    }
}

/// A script run by the twin; the judge has to accept it.
fn run(seed: u64, script: &[Vec<u8>], seen: &mut Seen) {
    let (mut twin, mut judge) = (Probe::new(), Judge::new());
    let mut was_cut = false;
    let mut note = |name: String| *seen.entry(name).or_default() += 1;
    for line in script {
        let frame = parse(line);
        let rebuild = matches!(frame, Some(Frame::Rebuild(_)));
        let geometry = if twin.names_large() { Geometry::LARGE } else { Geometry::SMALL };
        let held = rebuild.then(|| (twin.image().to_vec(), judge.store().clone(), judge.all_fixed()));
        let reply = twin.line(line);
        judge.line(line, &reply, twin.image()).unwrap_or_else(|why| panic!("seed {seed}: {why}"));
        match frame {
            Some(Frame::Mount(_)) => note(format!("mount {}", u8::from_str_radix(&reply[..2], 16).unwrap())),
            Some(Frame::Commit(_) | Frame::Format(_)) => was_cut = false,
            _ => {}
        }
        let Some((image, store, listed)) = held else { continue };
        let blocks = geometry.blocks_of(image.len());
        let means = blocks.and_then(|blocks| meaning(geometry, &image, blocks).ok());
        before(&reply[..2], &store, listed, geometry, &image, means.as_ref()).into_iter().for_each(&mut note);
        if was_cut && reply.starts_with("00") {
            note("again after a cut".to_string());
        }
        was_cut = reply.starts_with("0A");
        if let (true, Some(means), Some(blocks)) = (was_cut, means, blocks) {
            let after = meaning(geometry, twin.image(), blocks).ok();
            note(cut(&reply, means.greatest, means.void.len(), after.as_ref()).to_string());
        }
    }
}

/// So many scripts on a part; all is met.
fn scripts(part: Geometry, count: u64) {
    let mut seen = Seen::new();
    let mut lines = 0;
    for seed in 0..count {
        let script = rebuilds::make(&mut Random::new(seed), part);
        lines += script.len();
        run(seed, &script, &mut seen);
    }
    println!("{lines} lines, {seen:#?}");
    for name in ALL {
        assert!(seen.contains_key(name), "{name}");
    }
}

/// Scripts on the small part.
#[test]
fn small() {
    scripts(Geometry::SMALL, 60);
}

/// Scripts on the large part.
#[test]
fn large() {
    scripts(Geometry::LARGE, 60);
}
