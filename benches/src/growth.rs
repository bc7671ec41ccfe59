//! How the calls grow: look up by levels, insert by pending updates, commit by pages, mount by live pages.

use crate::both::{Both, PENDING};
use crate::random::Random;
use crate::times::{insert, look_up, mount, one_commit, row, Row};

/// Look ups in trees of 12 keys, of 100, of 1,000, and in a full one, on a chip of 32 blocks.
fn look_ups(rounds: usize) -> Vec<Row> {
    let mut rows = Vec::new();
    for limit in [12, 100, 1000, usize::MAX] {
        let mut random = Random::new(7);
        let (mut both, keys) = Both::filled(32, limit, &mut random);
        both.churn(&keys, 20, &mut random);
        let note = format!("{} keys, {} levels", keys.len(), both.root_level() + 1);
        rows.push(row("look up", 32, note, &look_up(&both, &keys, rounds, &mut random)));
    }
    rows
}

/// An insert with 0 to 15 updates pending, in a full tree on a chip of 32 blocks.
fn inserts(rounds: usize) -> Vec<Row> {
    let mut random = Random::new(7);
    let (mut both, keys) = Both::filled(32, usize::MAX, &mut random);
    both.churn(&keys, 20, &mut random);
    let mut rows = Vec::new();
    for pending in 0..PENDING {
        if [0, 5, 10, 15].contains(&pending) {
            rows.push(row("insert", 32, format!("{pending} pending"), &insert(&both, &keys, 1, rounds, &mut random)));
        }
        assert_eq!(both.insert(random.pick(&keys), 1), 0);
    }
    rows
}

/// Commits of 16 events in a full tree on a chip of 8 blocks, by the pages that they wrote; a round is one commit.
fn commits(rounds: usize) -> Vec<Row> {
    let mut random = Random::new(7);
    let (mut both, keys) = Both::filled(8, usize::MAX, &mut random);
    let mut found: Vec<Vec<(f64, f64)>> = vec![Vec::new(); 400];
    for _ in 0..20 * rounds {
        let (library, twin, pages) = one_commit(&mut both, &keys, &mut random);
        found[pages as usize].push((library, twin));
    }
    let there = found.iter().enumerate().filter(|f| !f.1.is_empty());
    there.map(|(pages, rounds)| row("commit", 8, format!("{pages} pages, {} commits", rounds.len()), rounds)).collect()
}

/// Mounts of a chip of 32 blocks with more and more live pages.
fn mounts(rounds: usize) -> Vec<Row> {
    let mut rows = Vec::new();
    for (limit, commits) in [(12, 0), (500, 0), (usize::MAX, 0), (usize::MAX, 100), (usize::MAX, 300)] {
        let mut random = Random::new(7);
        let (mut both, keys) = Both::filled(32, limit, &mut random);
        both.churn(&keys, commits, &mut random);
        let note = format!("{} keys, {} live pages", keys.len(), both.live_pages());
        rows.push(row("mount", 32, note, &mount(&mut both, rounds)));
    }
    rows
}

/// The second table.
pub fn table(rounds: usize) -> Vec<Row> {
    [look_ups(rounds), inserts(rounds), commits(rounds), mounts(rounds)].concat()
}
