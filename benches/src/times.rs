//! Times of the calls: the proved library against the twin, alternately in one process.

use crate::both::{Both, ALLOWANCE, BLOCK, PENDING, TORN};
use crate::clock::{median, nanos, reading};
use crate::random::Random;
use crate::twin;
use std::hint::black_box;

/// The median, least and greatest of the rounds of one call: nanoseconds a call, and the ratio of library to twin.
#[derive(Clone)]
pub struct Row {
    pub call: String,
    pub blocks: usize,
    pub note: String,
    pub library: f64,
    pub twin: f64,
    pub ratio: f64,
    pub low: f64,
    pub high: f64,
}

/// One round: nanoseconds a call of the library and of the twin.
pub type Round = (f64, f64);

/// The row of a call from its rounds.
pub fn row(call: &str, blocks: usize, note: String, rounds: &[Round]) -> Row {
    let mut ratios: Vec<f64> = rounds.iter().map(|r| r.0 / r.1).collect();
    let ratio = median(&mut ratios);
    Row {
        call: call.to_string(),
        blocks,
        note,
        library: median(&mut rounds.iter().map(|r| r.0).collect::<Vec<_>>()),
        twin: median(&mut rounds.iter().map(|r| r.1).collect::<Vec<_>>()),
        ratio,
        low: ratios[0],
        high: ratios[ratios.len() - 1],
    }
}

/// Calls that change nothing, for each number of a list; their answers are compared in each round.
fn asked<A: Clone + PartialEq>(list: &[u32], rounds: usize, library: impl Fn(u32) -> A, twin: impl Fn(u32) -> A) -> Vec<Round> {
    let mut answers = vec![None; list.len()];
    let mut others = answers.clone();
    let n = list.len() as f64;
    let mut turn = || {
        let clock = reading();
        let ours = nanos(|| list.iter().zip(&mut answers).for_each(|(number, told)| *told = Some(library(*number)))) - clock;
        let theirs = nanos(|| list.iter().zip(&mut others).for_each(|(number, told)| *told = Some(twin(*number)))) - clock;
        assert!(answers == others, "the answers differ");
        (ours / n, theirs / n)
    };
    (0..rounds).map(|_| turn()).collect()
}

/// Look ups of random keys of the tree.
pub fn look_up(both: &Both, keys: &[u32], rounds: usize, random: &mut Random) -> Vec<Round> {
    let list: Vec<u32> = (0..512).map(|_| random.pick(keys)).collect();
    let library = |key| both.library.look_up(black_box(&both.image), key);
    asked(&list, rounds, library, |key| twin::look_up(&both.twin, black_box(&both.twin_image), key))
}

/// Reports of all blocks in turn; a round is all blocks 64 times.
fn block_report(both: &Both, rounds: usize) -> Vec<Round> {
    let blocks = (both.image.len() / BLOCK) as u32;
    let list: Vec<u32> = (0..64).flat_map(|_| 0..blocks).collect();
    let library = |block| both.library.block_report(black_box(&both.image), block);
    asked(&list, rounds, library, |block| twin::block_report(&both.twin, black_box(&both.twin_image), block))
}

/// The times of inserts of `list`, of library and twin, each into the state of `both`; what they leave is compared by look ups.
fn insert_list(both: &Both, at: &mut Both, list: &[u32], clock: f64) -> Round {
    at.library.set(&both.library);
    let library = nanos(|| {
        for &key in list {
            assert_eq!(at.library.insert(black_box(&both.image), key, key), 0);
        }
    }) - clock;
    at.twin.clone_from(&both.twin);
    let twin = nanos(|| {
        for &key in list {
            assert_eq!(at.twin.insert(black_box(&both.twin_image), key, key), 0);
        }
    }) - clock;
    at.look_ups(list);
    (library, twin)
}

/// Inserts of `count` random keys of the tree, each list into the same state; a round is 32 lists.
pub fn insert(both: &Both, keys: &[u32], count: usize, rounds: usize, random: &mut Random) -> Vec<Round> {
    let mut at = both.clone();
    let mut turn = || {
        let clock = reading();
        let (mut library, mut twin) = (0.0, 0.0);
        for _ in 0..32 {
            let list: Vec<u32> = (0..count).map(|_| random.pick(keys)).collect();
            let (l, t) = insert_list(both, &mut at, &list, clock);
            library += l;
            twin += t;
        }
        let n = (32 * count) as f64;
        (library / n, twin / n)
    };
    (0..rounds).map(|_| turn()).collect()
}

/// A commit of 16 events: the times of library and twin, and the pages that it wrote.
pub fn one_commit(both: &mut Both, keys: &[u32], random: &mut Random) -> (f64, f64, u32) {
    both.events(keys, random);
    let clock = reading();
    let (mut told, mut other) = (None, None);
    let library = nanos(|| told = Some(both.library.commit(&mut both.image, &TORN, ALLOWANCE))) - clock;
    let twin = nanos(|| other = Some(both.twin.commit(&mut both.twin_image, &TORN, ALLOWANCE))) - clock;
    let (told, other) = (told.unwrap(), other.unwrap());
    assert_eq!(told, other);
    assert!(both.image == both.twin_image, "the images differ after a commit");
    both.pending = 0;
    (library, twin, told.counts.programs)
}

/// Commits of 16 events, each a random key of the tree with another value; a round is 20 of them in turn.
pub fn commit(both: &mut Both, keys: &[u32], rounds: usize, random: &mut Random) -> Vec<Round> {
    (0..rounds)
        .map(|_| {
            let (mut library, mut twin) = (0.0, 0.0);
            for _ in 0..20 {
                let (l, t, _) = one_commit(both, keys, random);
                library += l;
                twin += t;
            }
            (library / 20.0, twin / 20.0)
        })
        .collect()
}

/// Forecasts with 16 events pending, as of commits, each followed by the commit; a round is 20 of them in turn.
fn forecast(both: &mut Both, keys: &[u32], rounds: usize, random: &mut Random) -> Vec<Round> {
    let mut turn = || {
        let clock = reading();
        let (mut library, mut twin) = (0.0, 0.0);
        for _ in 0..20 {
            both.events(keys, random);
            let (mut told, mut other) = (None, None);
            library += nanos(|| told = Some(both.library.forecast(black_box(&both.image)))) - clock;
            twin += nanos(|| other = Some(both.twin.forecast(black_box(&both.twin_image)))) - clock;
            assert_eq!(told, other, "the forecasts");
            assert_eq!(told, Some(both.commit()), "a forecast and its commit");
        }
        (library / 20.0, twin / 20.0)
    };
    (0..rounds).map(|_| turn()).collect()
}

/// Mounts of the image; a round is 4 of them.
pub fn mount(both: &mut Both, rounds: usize) -> Vec<Round> {
    let mut turn = || {
        let clock = reading();
        let (mut library, mut twin) = (0.0, 0.0);
        for _ in 0..4 {
            library += nanos(|| assert_eq!(both.library.mount(&mut both.image, &TORN, ALLOWANCE).refusal, 0)) - clock;
            twin += nanos(|| assert_eq!(twin::mount(&mut both.twin, &mut both.twin_image, &TORN, ALLOWANCE).refusal, 0)) - clock;
        }
        assert!(both.image == both.twin_image, "the images differ after a mount");
        (library / 4.0, twin / 4.0)
    };
    (0..rounds).map(|_| turn()).collect()
}

/// Rebuilds of the image, each of a copy.
fn rebuild(both: &Both, rounds: usize) -> Vec<Round> {
    let mut at = both.clone();
    let mut turn = || {
        at.image.copy_from_slice(&both.image);
        at.twin_image.copy_from_slice(&both.twin_image);
        let clock = reading();
        let library = nanos(|| assert_eq!(at.library.rebuild(&mut at.image, &TORN, ALLOWANCE).refusal, 0)) - clock;
        let twin = nanos(|| assert_eq!(twin::rebuild(&mut at.twin, &mut at.twin_image, &TORN, ALLOWANCE).refusal, 0)) - clock;
        assert!(at.image == at.twin_image, "the images differ after a rebuild");
        (library, twin)
    };
    (0..rounds).map(|_| turn()).collect()
}

/// Formats of the image; a round is 4 of them.
pub fn format(blocks: usize, rounds: usize) -> Vec<Round> {
    let mut both = Both::formatted(blocks);
    let mut turn = || {
        let clock = reading();
        let (mut library, mut twin) = (0.0, 0.0);
        for _ in 0..4 {
            library += nanos(|| assert_eq!(both.library.format(&mut both.image, &TORN, ALLOWANCE).refusal, 0)) - clock;
            twin += nanos(|| assert_eq!(twin::format(&mut both.twin, &mut both.twin_image, &TORN, ALLOWANCE).refusal, 0)) - clock;
        }
        assert!(both.image == both.twin_image, "the images differ after a format");
        (library / 4.0, twin / 4.0)
    };
    (0..rounds).map(|_| turn()).collect()
}

/// The first table: each call at B = 3, 8, 32 on a full tree.
pub fn table(rounds: usize) -> Vec<Row> {
    let mut rows = Vec::new();
    for blocks in [3, 8, 32] {
        let mut random = Random::new(blocks as u64);
        let (mut both, keys) = Both::filled(blocks, usize::MAX, &mut random);
        // Before the tree is used, while enough blocks are wholly free.
        let rebuilt = row("rebuild", blocks, format!("{} keys, root of level {}", keys.len(), both.root_level()), &rebuild(&both, rounds));
        both.churn(&keys, 100, &mut random);
        let note = format!("{} keys, {} live pages, root of level {}", keys.len(), both.live_pages(), both.root_level());
        rows.push(row("look up", blocks, note.clone(), &look_up(&both, &keys, rounds, &mut random)));
        rows.push(row("insert", blocks, note.clone(), &insert(&both, &keys, PENDING, rounds, &mut random)));
        rows.push(row("commit", blocks, note.clone(), &commit(&mut both, &keys, rounds, &mut random)));
        rows.push(row("forecast", blocks, note.clone(), &forecast(&mut both.clone(), &keys, rounds, &mut random)));
        rows.push(row("mount", blocks, note.clone(), &mount(&mut both, rounds)));
        rows.push(rebuilt);
        rows.push(row("block report", blocks, note.clone(), &block_report(&both, rounds)));
        rows.push(row("format", blocks, String::new(), &format(blocks, rounds)));
    }
    rows
}
