//! Rebuilds cut at every allowance with several torn slices: the bytes as they are defined, the old tree or the new one, and then a second
//! rebuild or a mount.
use super::chips::{any_plan, chip};
use super::expected::{free_blocks, ops, rebuilt, run, takes_effect};
use super::reader::read;
use super::tables::{is_thin, records, Sizes, Table};
use super::{eighth, torn, ENOUGH};
use model::random::Random;
use model::twin::geometry::{Geometry, LARGE, SMALL};
use model::twin::state::State;

/// What was seen: ends old and new, mounts refused with 12, second rebuilds, and such as are refused with 5.
#[derive(Default, Debug)]
struct Seen {
    old: u32,
    new: u32,
    thin: u32,
    again: u32,
    full: u32,
}

/// A mount after a cut: 12 where the tree is thin, which changes nothing; else the marks of the void pages.
fn mounts(part: Geometry, image: &[u8], table: &Table, seen: &mut Seen) {
    let (mut state, mut lent) = (State::new(), image.to_vec());
    let told = state.mount(part, &mut lent, &torn(part), 255);
    match is_thin(table) {
        true => assert!((told.refusal, told.counts.total(), state.on) == (12, 0, false) && lent == image),
        false => assert!(told.refusal == 0 && state.on && told.counts.marks as usize == read(part, image).voids.len()),
    }
    seen.thin += u32::from(told.refusal == 12);
}

/// A second rebuild after a cut: 5 where too few blocks are left, which changes nothing, else the new tree.
fn again(part: Geometry, mut image: Vec<u8>, table: &Table, seen: &mut Seen) {
    let enough = free_blocks(part, &image).len() >= eighth(image.len() / part.block());
    let (mut state, before) = (State::new(), image.clone());
    let told = state.rebuild(part, &mut image, &torn(part), ENOUGH);
    assert_eq!((told.refusal, state.on), if enough { (0, true) } else { (5, false) });
    let expected = rebuilt(records(table));
    assert!(if enough { read(part, &image).table == expected } else { image == before });
    seen.again += u32::from(enough);
    seen.full += u32::from(!enough);
}

/// A rebuild of a chip cut with a torn slice at every allowance, or at every one of a step.
fn cut(part: Geometry, image: &[u8], torn: &[u8], step: usize, seen: &mut Seen) {
    let old = read(part, image);
    let (ops, new) = (ops(part, image, &old), rebuilt(records(&old.table)));
    let last = ops.len() - 1;
    for allowance in (0..ops.len()).filter(|&n| n % step == 0 || n == last || n == old.voids.len()) {
        let (mut state, mut cut, mut defined) = (State { on: true, ..State::new() }, image.to_vec(), image.to_vec());
        let told = state.rebuild(part, &mut cut, torn, allowance as u32);
        let counts = run(part, &mut defined, torn, allowance, &ops);
        assert_eq!((told.refusal, told.counts, told.counts.total() as usize), (10, counts, allowance));
        assert!(state == State::new() && cut == defined);
        let found = read(part, &cut);
        let expected = if takes_effect(torn, allowance, ops.len()) { (&new, old.number + 1) } else { (&old.table, old.number) };
        assert!((&found.table, found.number) == expected);
        *if found.number > old.number { &mut seen.new } else { &mut seen.old } += 1;
        mounts(part, &cut, &found.table, seen);
        again(part, cut, &found.table, seen);
    }
}

/// Torn slices: equal bytes, random ones, and a page of the new commit with its marks set.
fn slices(random: &mut Random, part: Geometry, image: &[u8]) -> Vec<Vec<u8>> {
    let equal = [0, 0x5A, 255].map(|byte| vec![byte; part.page()]);
    let any = (0..part.page()).map(|_| random.byte()).collect();
    let mut after = image.to_vec();
    assert_eq!(State::new().rebuild(part, &mut after, &torn(part), ENOUGH).refusal, 0);
    let pages = image.chunks_exact(part.page()).zip(after.chunks_exact(part.page()));
    let written = pages.filter(|(old, new)| old != new && new[0] != 255).map(|(_, new)| new.to_vec());
    equal.into_iter().chain([any]).chain(written.take(1)).collect()
}

/// Random chips of so many blocks, each cut everywhere, or at every allowance of a step.
fn chips(part: Geometry, blocks: usize, rounds: usize, step: usize) {
    let (mut random, mut seen) = (Random::new(blocks as u64), Seen::default());
    for round in 0..rounds {
        let sizes = [Sizes::Slim, Sizes::Any, Sizes::Slim, Sizes::Thin][round / 4 % 4];
        let more = [0, 0, 1, eighth(blocks)][random.index(4)].min(blocks - 1 - eighth(blocks));
        let plan = any_plan(&mut random, blocks, (round % 4) as u32, sizes, eighth(blocks) + more);
        let image = chip(&mut random, part, blocks, &plan);
        for torn in slices(&mut random, part, &image) {
            cut(part, &image, &torn, step, &mut seen);
        }
    }
    println!("B = {blocks}, pages of {} bytes: {seen:?}", part.page());
    let Seen { old, new, thin, again, full } = seen;
    assert!([old, new, thin, again, full].iter().all(|&count| count > 4));
}

/// Chips of the small part of 3 blocks.
#[test]
fn three_blocks() {
    chips(SMALL, 3, 32, 1);
}

/// Of 8 and 9 blocks.
#[test]
fn eight_and_nine_blocks() {
    chips(SMALL, 8, 16, 1);
    chips(SMALL, 9, 12, 1);
}

/// Of 32 blocks.
#[test]
fn thirty_two_blocks() {
    chips(SMALL, 32, 8, 7);
}

/// Chips of the large part.
#[test]
fn large() {
    chips(LARGE, 3, 16, 1);
    chips(LARGE, 9, 8, 5);
    chips(LARGE, 32, 8, 23);
}
