//! Chips that are mounted as the other part, and chips of noise: a refusal or a mount by the steps, and calls that end.
use super::{Store, ENOUGH, MOUNT, TORN};
use model::random::Random;
use model::twin::geometry::{Geometry, LARGE, SMALL};
use model::twin::state::State;
use model::twin::unit::{half, word};

/// Bytes of a chip of 24 small blocks or of 3 large ones.
const LEN: usize = 3 * LARGE.block();

/// Whether a page's data obeys the page's own rules of step 2.
fn obeys(geometry: Geometry, page: &[u8]) -> bool {
    let units = half(page, 6) as usize;
    let counts = word(page, 0) > 0 && page[4] < page[5] && (1..=geometry.units).contains(&units);
    counts && page[8 + 12 * units..geometry.area].iter().all(|&byte| byte == 255)
}

/// What step 1 and the pages' own rules of step 2 say of an image, where they refuse it.
fn first_steps(geometry: Geometry, image: &[u8]) -> Option<u32> {
    let pages = image.chunks_exact(geometry.page());
    let mut live = pages.filter(|page| page[geometry.area + 1] == 0 && page[geometry.area + 2] != 0).peekable();
    match live.peek() {
        None => Some(7),
        Some(_) => (!live.all(|page| obeys(geometry, page))).then_some(8),
    }
}

/// All calls on a state after a mount; commit may do anything, but it ends.
fn calls(state: &mut State, image: &mut [u8], torn: &[u8], random: &mut Random) {
    for _ in 0..12 {
        let key = random.next() as u32;
        state.look_up(image, key);
        state.delete(image, key);
        state.insert(image, key, key);
    }
    state.forecast(image);
    state.block_report(image, 1).unwrap();
    state.commit(image, torn, ENOUGH);
    state.mount(state.geometry, image, torn, MOUNT);
}

/// A mount of an image by a geometry: 7 or 8 where the first steps say so, else 0, 8 or 9, and the calls after it. The refusal.
fn mount(geometry: Geometry, image: &[u8], random: &mut Random) -> u32 {
    let (mut state, mut lent, torn) = (State::new(), image.to_vec(), &TORN[..geometry.page()]);
    let refusal = state.mount(geometry, &mut lent, torn, ENOUGH).refusal;
    match first_steps(geometry, image) {
        Some(expected) => assert_eq!(refusal, expected),
        None => assert!([0, 7, 8, 9].contains(&refusal)),
    }
    assert_eq!(state.on, refusal == 0);
    if state.on {
        calls(&mut state, &mut lent, torn, random);
    } else {
        assert!(lent == image);
    }
    refusal
}

/// Small stores of 24 blocks mounted as large ones of 3.
#[test]
fn small_as_large() {
    let (mut random, torn) = (Random::new(86), &TORN[..SMALL.page()]);
    let (mut state, mut image, mut seen) = (State::new(), vec![255; LEN], [0; 10]);
    state.format(SMALL, &mut image, torn, 2000);
    for _ in 0..150 {
        for _ in 0..1 + random.below(16) {
            state.insert(&image, random.below(1500) as u32, random.below(70_000) as u32);
        }
        assert_eq!(state.commit(&mut image, torn, 2000).refusal, 0);
        seen[mount(LARGE, &image, &mut random) as usize] += 1;
        assert_eq!(mount(SMALL, &image, &mut random), 0);
    }
    println!("24 small blocks as 3 large ones, refusals 0 to 9: {seen:?}");
}

/// Large stores of 3 blocks mounted as small ones of 24. Some values are the second half of a small header: page 0 of 1, 42 units.
#[test]
fn large_as_small() {
    let (mut random, mut store, mut seen) = (Random::new(87), Store::formatted(3), [0; 10]);
    for _ in 0..150 {
        for _ in 0..1 + random.below(16) {
            let value = if random.once_in(2) { 0x002A_0100 } else { random.below(70_000) as u32 };
            store.state.insert(&store.image, random.below(300) as u32, value);
        }
        store.commit();
        seen[mount(SMALL, &store.image, &mut random) as usize] += 1;
        assert_eq!(mount(LARGE, &store.image, &mut random), 0);
    }
    println!("3 large blocks as 24 small ones, refusals 0 to 9: {seen:?}");
}

/// An image on which each part finds a store of its own: the other's live page is not live to it.
#[test]
fn both() {
    let mut image = Store::formatted(3).image;
    let (mut small, mut other) = (State::new(), vec![255; LEN]);
    small.format(SMALL, &mut other, &TORN[..SMALL.page()], 2000);
    assert_eq!(small.insert(&other, 7, 99), 0);
    assert_eq!(small.commit(&mut other, &TORN[..SMALL.page()], 2000).counts.programs, 1);
    image[LARGE.page()..][..2 * SMALL.page()].copy_from_slice(&other[..2 * SMALL.page()]);
    let mut random = Random::new(88);
    for (geometry, refusal, commit) in [(SMALL, 0, 2), (LARGE, 4, 1)] {
        let (mut state, mut lent) = (State::new(), image.clone());
        assert_eq!(state.mount(geometry, &mut lent, &TORN[..geometry.page()], MOUNT).refusal, 0);
        assert_eq!((state.geometry, state.look_up(&lent, 7).refusal, state.commit), (geometry, refusal, commit));
        assert_eq!(mount(geometry, &image, &mut random), 0);
    }
}

/// Chips of noise in which some bytes are 0 or 255, whole or over a store.
#[test]
fn noise() {
    let (mut random, mut seen) = (Random::new(89), [0; 10]);
    let mut store = Store::formatted(3);
    for round in 0..300 {
        store.updates(&mut random, 300, 16);
        store.commit();
        let mut image = store.image.clone();
        let bytes = [1, 3, 20, LEN][random.index(4)];
        for i in 0..bytes {
            let at = if bytes == LEN { i } else { random.index(LARGE.page() * 20) };
            image[at] = [0, 255, image[at] ^ 1, random.byte()][random.index(4)];
        }
        seen[mount([LARGE, SMALL][round % 2], &image, &mut random) as usize] += 1;
    }
    println!("noise, refusals 0 to 9: {seen:?}");
    assert!(seen[0] > 0 && seen[8] > 0);
}
