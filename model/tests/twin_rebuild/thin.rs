//! Mounts of thin trees: 12, and what it leaves.
use super::chips::{any_plan, chip};
use super::reader::read;
use super::tables::{image_of, is_thin, leaf, node, Entry, Node, Sizes, Table};
use super::torn;
use model::random::Random;
use model::twin::geometry::{Geometry, LARGE, SMALL};
use model::twin::state::State;
use model::twin::told::Told;

/// The mount of a chip that is this table.
fn mounted(part: Geometry, blocks: usize, table: &Table) -> u32 {
    State::new().mount(part, &mut image_of(part, blocks, table), &torn(part), 255).refusal
}

/// Node 0 above so many leaves, each of so many records.
fn flat(leaves: u32, records: u32) -> Table {
    let root: Vec<Entry> = (0..leaves).map(|i| (100 * i, 1 + i)).collect();
    let leaves = (0..leaves).map(|i| (1 + i, leaf(100 * i..100 * i + records)));
    leaves.chain([(0, node(1, &root))]).collect()
}

/// Node 0 above two nodes with so many leaves each.
fn high(first: u32, second: u32) -> Table {
    let mut table: Table = flat(first + second, 1);
    let entries = table.remove(&0).unwrap().entries;
    let at = first as usize;
    table.insert(40, Node { level: 1, entries: entries[..at].to_vec() });
    table.insert(41, Node { level: 1, entries: entries[at..].to_vec() });
    table.insert(0, node(2, &[(0, 40), (entries[at].0, 41)]));
    table
}

/// Node 0 above level 0 has 2 entries or more, or the tree is thin; leaves of any size are not.
#[test]
fn node_0() {
    for records in [0, 1, 7, 8, 16] {
        assert_eq!([1, 2, 7, 8, 16].map(|leaves| mounted(SMALL, 8, &flat(leaves, records))), [12, 0, 0, 0, 0]);
        assert_eq!(mounted(SMALL, 3, &[(0, leaf(0..records))].into_iter().collect()), 0);
    }
}

/// An interior node other than node 0 has 8 entries or more.
#[test]
fn interior_nodes() {
    for part in [SMALL, LARGE] {
        let pairs = [(8, 8), (7, 8), (8, 7), (7, 7), (1, 16), (16, 1), (16, 16)];
        assert_eq!(pairs.map(|(first, second)| mounted(part, 8, &high(first, second))), [0, 12, 12, 12, 12, 12, 0]);
    }
}

/// 9 comes before 12.
#[test]
fn no_tree() {
    let mut table = flat(1, 3);
    table.insert(9, leaf(0..1));
    assert_eq!(mounted(SMALL, 3, &table), 9);
}

/// On random chips 12 is given where the tree is thin, before 10: the void pages stay, and the state is off.
#[test]
fn random_chips() {
    let (mut random, mut seen) = (Random::new(12), [0; 2]);
    for round in 0..600 {
        let (part, blocks) = (if round % 4 == 0 { LARGE } else { SMALL }, [3, 8, 9, 32][round / 4 % 4]);
        let sizes = [Sizes::Any, Sizes::Ends, Sizes::Slim][round % 3];
        let plan = any_plan(&mut random, blocks, (round / 16 % 4) as u32, sizes, 1);
        let image = chip(&mut random, part, blocks, &plan);
        let (mut state, mut lent) = (State { on: true, ..State::new() }, image.clone());
        let told = state.mount(part, &mut lent, &torn(part), 0);
        let (thin, voids) = (is_thin(&plan.table), read(part, &image).voids.len());
        match thin {
            true => assert!(told == Told::quiet(12) && lent == image && !state.on),
            false => assert_eq!((told.refusal, state.on), if voids > 0 { (10, false) } else { (0, true) }),
        }
        seen[usize::from(thin)] += 1;
    }
    assert!(seen.iter().all(|&count| count > 100), "{seen:?}");
}
