//! What the twin's format, mount and commit count: the operations done whole, by kind, at every allowance.
mod filled;

use filled::{formatted, update, TORN};
use model::random::Random;
use model::twin::chip::is_live;
use model::twin::geometry::SMALL;
use model::twin::state::State;
use model::twin::told::{Counts, Kind, Told};
use model::twin::unit::word;

/// The kinds of a call's operations: blocks erased, and then pages written.
fn kinds(erases: u32, pages: u32) -> Vec<Kind> {
    let page = [Kind::Mark, Kind::Program, Kind::Mark];
    (0..erases).map(|_| Kind::Erase).chain((0..pages).flat_map(|_| page)).collect()
}

/// With every allowance a call counts as many operations from the start of the list, and is refused with 10 where the list is longer.
fn cut_everywhere(kinds: &[Kind], call: impl Fn(u32) -> Told) {
    let mut counts = Counts::default();
    for (allowance, &kind) in kinds.iter().enumerate() {
        assert_eq!(call(allowance as u32), Told { refusal: 10, counts });
        assert_eq!(counts.total(), allowance as u32);
        counts.take(Some(kind));
    }
    for allowance in [kinds.len() as u32, u32::MAX] {
        assert_eq!(call(allowance), Told { refusal: 0, counts });
    }
}

/// The pages of a commit number on an image.
fn pages_of(image: &[u8], commit: u32) -> u32 {
    image.chunks_exact(SMALL.page()).filter(|page| is_live(SMALL, page) && word(page, 0) == commit).count() as u32
}

/// A format erases all blocks and writes one page.
#[test]
fn formats() {
    for blocks in [3, 8, 32] {
        let (state, image) = formatted(blocks);
        cut_everywhere(&kinds(blocks as u32, 1), |allowance| state.clone().format(SMALL, &mut image.clone(), &TORN, allowance));
    }
}

/// A commit erases blocks and writes its pages; a mount after its last operation was torn marks all of its pages but one.
fn commit_and_mount(state: &State, image: &[u8], counts: Counts) {
    let commit = |image: &mut [u8], allowance| state.clone().commit(image, &TORN, allowance);
    cut_everywhere(&kinds(counts.erases, counts.programs), |allowance| commit(&mut image.to_vec(), allowance));
    let mut torn = image.to_vec();
    commit(&mut torn, counts.total() - 1);
    let voids = vec![Kind::Mark; counts.programs as usize - 1];
    cut_everywhere(&voids, |allowance| State::new().mount(SMALL, &mut torn.clone(), &TORN, allowance));
}

/// Commits of random updates, some of which erase a block and some of which have several pages, and mounts after them.
#[test]
fn commits_and_mounts() {
    let mut random = Random::new(21);
    for (blocks, range) in [(3, 300), (8, 900)] {
        let (mut state, mut image) = formatted(blocks);
        let (mut erases, mut pages) = (0, 0);
        for _ in 0..400 {
            update(&mut random, &mut state, &image, range);
            if state.pending == 0 {
                continue;
            }
            let (before, old) = (state.clone(), image.clone());
            let counts = state.commit(&mut image, &TORN, u32::MAX).counts;
            assert_eq!(counts.programs, pages_of(&image, state.commit));
            commit_and_mount(&before, &old, counts);
            erases += counts.erases;
            pages = pages.max(counts.programs);
        }
        assert!(erases > 0 && pages > 2, "{erases} erases, {pages} pages at most");
    }
}

/// A call that is refused, but not with 10, counts nothing; nor does a commit of nothing.
#[test]
fn quiet_calls() {
    let (mut state, mut image) = formatted(3);
    assert_eq!(state.commit(&mut image, &TORN, 2000), Told::quiet(0));
    assert_eq!(state.commit(&mut image[1..], &TORN, 2000), Told::quiet(1));
    assert_eq!(state.mount(SMALL, &mut image[1..], &TORN, 255), Told::quiet(1));
    assert_eq!(state.format(SMALL, &mut image, &TORN[1..], 2000), Told::quiet(1));
    image[0] = 0;
    assert_eq!(state.mount(SMALL, &mut image, &TORN, 255), Told::quiet(8));
    assert_eq!(state.commit(&mut image, &TORN, 2000), Told::quiet(2));
    assert_eq!(State::new().mount(SMALL, &mut [255; 3 * SMALL.block()], &TORN, 255), Told::quiet(7));
}
