//! Full trees, which have all node numbers and no room for a record: a rebuild of one fills one block in eight.
use super::chips::{chip, Plan};
use super::expected::free_blocks;
use super::tables::{records, Node, Table};
use super::whole::rebuild;
use super::{eighth, torn, ENOUGH};
use model::random::Random;
use model::twin::geometry::{Geometry, LARGE, SMALL};

/// A tree of two or more levels with numbers below 8 * B, all in use: full leaves, numbered from the last down, under as few nodes as can be.
fn full(blocks: usize) -> Table {
    let numbers = 8 * blocks as u32;
    let leaves = (1..numbers).rev().find(|leaves| 1 + leaves + leaves.div_ceil(16) <= numbers).unwrap();
    let mut table = Table::new();
    for i in 0..leaves {
        let entries = (0..16).map(|j| (32 * i + 2 * j, i ^ j)).collect();
        table.insert(numbers - 1 - i, Node { level: 0, entries });
    }
    let stems: Vec<Vec<u32>> = (0..leaves).collect::<Vec<_>>().chunks(16).map(<[u32]>::to_vec).collect();
    let mut root = Vec::new();
    for (i, stem) in stems.iter().enumerate() {
        let number = 1 + i as u32;
        root.push((32 * stem[0], number));
        table.insert(number, Node { level: 1, entries: stem.iter().map(|&i| (32 * i, numbers - 1 - i)).collect() });
    }
    table.insert(0, Node { level: 2, entries: root });
    assert_eq!(table.len(), numbers as usize);
    table
}

/// The rebuild of a full tree has so many pages. Then inserts are refused with 5, and commits go on.
fn fills(part: Geometry, blocks: usize, pages: usize) {
    let plan = Plan { table: full(blocks), freed: 0, number: 6, voids: 0, free: eighth(blocks) };
    let mut image = chip(&mut Random::new(blocks as u64), part, blocks, &plan);
    let free = free_blocks(part, &image);
    let (mut state, old) = rebuild(part, &mut image);
    let taken = free.iter().flat_map(|block| block * part.pages..(block + 1) * part.pages);
    let blank = |place: &usize| image[place * part.page()..][..part.page()].iter().all(|&byte| byte == 255);
    assert_eq!(taken.filter(|place| !blank(place)).count(), pages);
    assert_eq!((state.free.count(), state.insert(&image, 1, 1), state.pending), (0, 5, 0));
    for (i, (key, value)) in records(&old.table).into_iter().enumerate().take(400) {
        assert_eq!(state.insert(&image, key, !value), 0);
        if i % 9 == 8 {
            assert_eq!(state.commit(&mut image, &torn(part), ENOUGH).refusal, 0);
        }
    }
    assert_eq!(state.mount(part, &mut image, &torn(part), 0).refusal, 0);
    assert_eq!((state.delete(&image, 0), state.insert(&image, 1, 1)), (0, 0));
}

/// Of 8 blocks: all 32 pages of one block.
#[test]
fn eight_blocks() {
    fills(SMALL, 8, 32);
    fills(LARGE, 8, 7);
}

/// Of 32 blocks: all 128 pages of four blocks.
#[test]
fn thirty_two_blocks() {
    fills(SMALL, 32, 128);
    fills(LARGE, 32, 26);
}

/// Of 3 and 9 blocks.
#[test]
fn three_and_nine_blocks() {
    fills(SMALL, 3, 11);
    fills(SMALL, 9, 35);
}
