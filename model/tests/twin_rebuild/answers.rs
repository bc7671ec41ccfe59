//! The answers of a rebuild, their order, and what each leaves of the state and the image.
use super::chips::{any_plan, chip, Plan};
use super::tables::{leaf, node, random_tree, Sizes};
use super::{eighth, torn, ENOUGH};
use model::random::Random;
use model::twin::geometry::{Geometry, LARGE, SMALL};
use model::twin::state::State;
use model::twin::told::Told;

/// A state that is on for a chip of its own, with an update pending.
fn busy() -> State {
    let (mut state, mut image) = (State::new(), vec![255; 4 * SMALL.block()]);
    state.format(SMALL, &mut image, &torn(SMALL), ENOUGH);
    assert_eq!(state.insert(&image, 1, 2), 0);
    state
}

/// A rebuild that is refused without an operation and leaves the image. Whether the state is off; it is else as it was.
fn refused(part: Geometry, image: &[u8], torn: &[u8], allowance: u32, refusal: u32) -> bool {
    let (before, mut state, mut lent) = (busy(), busy(), image.to_vec());
    assert_eq!(state.rebuild(part, &mut lent, torn, allowance), Told::quiet(refusal));
    assert!(lent == image);
    assert!(state == State { on: state.on, ..before });
    !state.on
}

/// A chip of a slim tree with so many free blocks and this greatest standing number.
fn slim(random: &mut Random, part: Geometry, blocks: usize, free: usize, number: u32) -> Vec<u8> {
    let voids = if number == u32::MAX { 0 } else { 3 };
    let table = random_tree(random, blocks as u32, 2, Sizes::Slim);
    chip(random, part, blocks, &Plan { table, freed: 2, number, voids, free })
}

/// 1: the image or the torn slice has a wrong length. Nothing is changed.
#[test]
fn sizes() {
    let image = slim(&mut Random::new(1), SMALL, 3, 1, 5);
    assert!(!refused(SMALL, &image[..image.len() - 1], &torn(SMALL), 255, 1));
    assert!(!refused(SMALL, &image[..2 * SMALL.block()], &torn(SMALL), 255, 1));
    assert!(!refused(SMALL, &vec![255; 33 * SMALL.block()], &torn(SMALL), 255, 1));
    assert!(!refused(SMALL, &image, &torn(SMALL)[1..], 255, 1));
    assert!(!refused(LARGE, &image, &torn(LARGE), 255, 1));
    assert!(!refused(SMALL, &image, &torn(LARGE), 255, 1));
}

/// 7, 8 and 9 as mount gives them, whatever blocks are free; the state is off.
#[test]
fn as_mount() {
    let mut random = Random::new(2);
    let (mut seen, mut others) = ([0; 13], 0);
    for round in 0..3000 {
        let (part, blocks) = (if round % 5 == 0 { LARGE } else { SMALL }, [3, 8][round % 2]);
        let free = [eighth(blocks), eighth(blocks) - 1][round / 2 % 2];
        let plan = any_plan(&mut random, blocks, (round / 4 % 4) as u32, Sizes::Any, free);
        let mut image = chip(&mut random, part, blocks, &plan);
        let live: Vec<usize> = (0..image.len() / part.page()).filter(|place| image[place * part.page() + part.area + 1] == 0).collect();
        let page = live[random.index(live.len())] * part.page();
        image[page + [random.index(8), 8 + random.index(120), part.area + 1][random.index(3)]] = random.byte();
        let mounted = State::new().mount(part, &mut image.clone(), &torn(part), 255).refusal;
        seen[mounted as usize] += 1;
        match mounted {
            7..=9 => assert!(refused(part, &image, &torn(part), 255, mounted)),
            _ => {
                others += u32::from([0, 5, 6].contains(&State::new().rebuild(part, &mut image.clone(), &torn(part), 255 + 3 * 128).refusal))
            }
        }
    }
    assert!(refused(SMALL, &[255; 3 * SMALL.block()], &torn(SMALL), 255, 7));
    println!("mounts by refusal {seen:?}");
    assert!(others == seen[0] + seen[12] && [0, 8, 9, 12].iter().all(|&refusal: &usize| seen[refusal] > 50));
}

/// 6: the greatest standing number is the last one. It comes before 5; nothing is changed.
#[test]
fn last_number() {
    let mut random = Random::new(3);
    for (part, blocks) in [(SMALL, 3), (SMALL, 9), (LARGE, 8)] {
        for free in [eighth(blocks), 0] {
            assert!(!refused(part, &slim(&mut random, part, blocks, free, u32::MAX), &torn(part), 0, 6));
        }
    }
}

/// With the last number but one it is done; then no commit and no rebuild is left.
#[test]
fn last_number_but_one() {
    let mut image = slim(&mut Random::new(4), SMALL, 8, 2, u32::MAX - 1);
    let mut state = busy();
    assert_eq!(state.rebuild(SMALL, &mut image, &torn(SMALL), ENOUGH).refusal, 0);
    assert_eq!((state.commit, state.insert(&image, 1, 1)), (u32::MAX, 0));
    assert_eq!(state.commit(&mut image, &torn(SMALL), ENOUGH), Told::quiet(6));
    assert!(!refused(SMALL, &image, &torn(SMALL), ENOUGH, 6));
}

/// 5: one free block fewer than it takes. It comes before 10; nothing is changed. With one more it is done.
#[test]
fn free_blocks() {
    let mut random = Random::new(5);
    for (part, blocks) in [(SMALL, 3), (SMALL, 8), (SMALL, 9), (SMALL, 32), (LARGE, 3), (LARGE, 8), (LARGE, 9), (LARGE, 32)] {
        for allowance in [0, ENOUGH] {
            let image = slim(&mut random, part, blocks, eighth(blocks) - 1, 7);
            assert!(!refused(part, &image, &torn(part), allowance, 5));
        }
        let mut image = slim(&mut random, part, blocks, eighth(blocks), 7);
        assert_eq!(State::new().rebuild(part, &mut image, &torn(part), ENOUGH).refusal, 0);
    }
}

/// 10: the state is the one given, off; the first void page has the torn byte.
#[test]
fn no_power() {
    let image = slim(&mut Random::new(6), SMALL, 3, 1, 5);
    let (before, mut state, mut lent) = (busy(), busy(), image.clone());
    assert_eq!(state.rebuild(SMALL, &mut lent, &torn(SMALL), 0), Told::quiet(10));
    assert!(state == State { on: false, ..before });
    assert_eq!(image.iter().zip(&lent).filter(|(old, new)| old != new).map(|(_, new)| *new).collect::<Vec<_>>(), [0x5A]);
}

/// A chip of one leaf, of any size, is rebuilt too: one page.
#[test]
fn one_leaf() {
    for size in [0, 1, 16] {
        let table = [(0, leaf(0..size))].into_iter().collect();
        let mut image = chip(&mut Random::new(7), SMALL, 3, &Plan { table, freed: 0, number: 2, voids: 0, free: 1 });
        let told = State::new().rebuild(SMALL, &mut image, &torn(SMALL), ENOUGH);
        assert_eq!((told.refusal, told.counts.programs, told.counts.marks, told.counts.erases), (0, 1, 2, 0));
    }
}

/// A chain of nodes of one entry each, and an empty leaf under it: node 0 is an empty leaf, and the other numbers are freed.
#[test]
fn empty_chain() {
    let chain = [(0, node(3, &[(0, 9)])), (9, node(2, &[(0, 4)])), (4, node(1, &[(0, 7)])), (7, leaf(0..0))];
    let table = chain.into_iter().collect();
    let mut image = chip(&mut Random::new(8), SMALL, 3, &Plan { table, freed: 0, number: 2, voids: 0, free: 1 });
    let mut state = State::new();
    assert_eq!(state.rebuild(SMALL, &mut image, &torn(SMALL), 3).refusal, 0);
    assert_eq!(state.in_use().collect::<Vec<_>>(), [0]);
    assert_eq!(state.listed().collect::<Vec<_>>(), [0, 4, 7, 9]);
}
