//! Freed numbers of the twin on flash: what a mount makes of them, the pages that a look up tells, and how commits keep them.
mod tables;

use model::twin::geometry::SMALL;
use model::twin::state::State;
use model::twin::unit::{encode, Header, Update, FREED, UNIT};
use model::twin::view::Stage;
use tables::{image_of, leaf, node, put_page, table_of, Table};

/// The torn bytes.
const TORN: [u8; SMALL.page()] = [0x5A; SMALL.page()];

/// Two leaves of 8 keys under node 0.
fn two() -> Table {
    [(0, node(1, &[(0, 1), (100, 2)])), (1, leaf(0..8)), (2, leaf(100..108))].into_iter().collect()
}

/// Updates of nodes as the units of a page.
fn units(updates: &[(u32, Update)]) -> Vec<[u8; UNIT]> {
    updates.iter().map(|&(number, update)| encode(number, update)).collect()
}

/// A page that is a commit of its own, one for each list of updates.
fn put_commits(image: &mut [u8], commits: &[&[(u32, Update)]]) {
    for (i, updates) in commits.iter().enumerate() {
        let header = Header { commit: 2 + i as u32, index: 0, count: 1 };
        put_page(SMALL, image, 3 + i, header, &units(updates));
    }
}

/// The mount of a chip of 3 blocks with two leaves under node 0, and behind it commits of these updates.
fn mount(commits: &[&[(u32, Update)]]) -> (u32, State, Vec<u8>) {
    let (mut state, mut image) = (State::new(), image_of(SMALL, 3, &two()));
    put_commits(&mut image, commits);
    let refusal = state.mount(SMALL, &mut image, &TORN, 255).refusal;
    (refusal, state, image)
}

/// A reset of a number that frees it.
fn free(number: u32) -> (u32, Update) {
    (number, Update::Reset(FREED))
}

/// A freed number is no node: it need not be reached, has the page of its reset as list, and is not in use.
#[test]
fn freed_numbers_mount() {
    let (refusal, state, image) = mount(&[&[free(7), free(3)]]);
    assert_eq!((refusal, state.list(7), state.list(3), state.list(4)), (0, &[3][..], &[3][..], &[][..]));
    assert_eq!(table_of(&state, &image), two());
    assert_eq!(state.in_use().collect::<Vec<_>>(), [0, 1, 2]);
    assert_eq!(state.stored(&image, 7, 24).stage, Stage::Freed);
}

/// A number freed and begun anew by a further reset, in one page and over several.
#[test]
fn begun_anew_mount() {
    let again = [free(2), (2, Update::Reset(0)), (2, Update::Insert(100, 1))];
    for commits in [&[&again[..]][..], &[&again[..1], &again[1..]], &[&again[..1], &again[..1], &again[1..2], &again[2..]]] {
        let (refusal, state, image) = mount(commits);
        let mut table = two();
        table.insert(2, node(0, &[(100, 1)]));
        assert_eq!((refusal, table_of(&state, &image)), (0, table));
    }
}

/// A list ends with the reset that frees: five pages before it count nothing.
#[test]
fn long_lists_end() {
    let more: Vec<[(u32, Update); 1]> = (0..4).map(|i| [(2, Update::Insert(101 + i, i))]).collect();
    let mut commits: Vec<&[(u32, Update)]> = more.iter().map(|update| &update[..]).collect();
    assert_eq!(mount(&commits).0, 8);
    let last = [free(2), (2, Update::Reset(0))];
    commits.push(&last);
    assert_eq!((mount(&commits).0, mount(&commits).1.list(2)), (0, &[7][..]));
}

/// An insert or a delete behind the reset that frees, and resets of other values: 8.
#[test]
fn units_of_freed_numbers() {
    assert_eq!(mount(&[&[free(5), (5, Update::Insert(1, 1))]]).0, 8);
    assert_eq!(mount(&[&[free(5)], &[(5, Update::Delete(1))]]).0, 8);
    assert_eq!(mount(&[&[free(5), (5, Update::Delete(1)), free(5)]]).0, 0);
    assert_eq!(mount(&[&[free(5), (5, Update::Delete(1)), (5, Update::Reset(0))]]).0, 9);
    for value in [4, 5, 254, 256, 255 << 8 | 255, u32::MAX] {
        assert_eq!(mount(&[&[(5, Update::Reset(value))]]).0, 8);
    }
}

/// A parent that names a freed number, and node 0 freed: 9. Node 0 with one entry: 12.
#[test]
fn freed_nodes_of_a_tree() {
    assert_eq!(mount(&[&[free(2)]]).0, 9);
    assert_eq!(mount(&[&[free(2)], &[(0, Update::Delete(100))]]).0, 12);
    assert_eq!(mount(&[&[free(0)]]).0, 9);
    assert_eq!(mount(&[&[free(0), free(1), free(2)]]).0, 9);
    assert_eq!(mount(&[&[free(1), free(2), (0, Update::Reset(0))]]).0, 0);
}

/// The pages that look ups of some keys tell.
fn pages(state: &State, image: &[u8], keys: &[u32]) -> Vec<u32> {
    keys.iter().map(|&key| state.look_up(image, key).pages).collect()
}

/// A commit with power enough.
fn commit(state: &mut State, image: &mut [u8]) {
    assert_eq!(state.commit(image, &TORN, 2000).refusal, 0);
}

/// A length is that of the number on flash: of a number used there also where another node has it by now, 0 where it is freed there.
#[test]
fn pages_by_number() {
    let (_, mut state, mut image) = mount(&[&[(1, Update::Insert(8, 8))]]);
    assert_eq!(pages(&state, &image, &[0, 100]), [3, 2]);
    (0..2).for_each(|key| assert_eq!(state.delete(&image, key), 0));
    assert_eq!((state.in_use().count(), pages(&state, &image, &[5, 0])), (1, vec![1, 1]));
    (200..202).for_each(|key| assert_eq!(state.insert(&image, key, 1), 0));
    assert_eq!((state.in_use().count(), pages(&state, &image, &[5, 200])), (3, vec![3, 2]));
    (200..202).for_each(|key| assert_eq!(state.delete(&image, key), 0));
    assert_eq!(state.in_use().count(), 1);
    commit(&mut state, &mut image);
    assert_eq!((state.list(1).len(), state.list(2).len(), pages(&state, &image, &[5])), (1, 1, vec![1]));
    (200..202).for_each(|key| assert_eq!(state.insert(&image, key, 1), 0));
    assert_eq!((state.in_use().count(), pages(&state, &image, &[5, 200])), (3, vec![1, 1]));
    commit(&mut state, &mut image);
    assert_eq!(pages(&state, &image, &[5, 200]), [2, 2]);
}

/// A number freed in the buffer is written anew as one unit, also where it was never on flash.
#[test]
fn freed_in_the_buffer() {
    let (mut state, mut image) = (State::new(), vec![255; 3 * SMALL.block()]);
    state.format(SMALL, &mut image, &TORN, 2000);
    (0..16).for_each(|key| assert_eq!(state.insert(&image, key, 1), 0));
    commit(&mut state, &mut image);
    assert_eq!(state.insert(&image, 16, 1), 0);
    (0..2).for_each(|key| assert_eq!(state.delete(&image, key), 0));
    assert_eq!((state.in_use().count(), state.list(1).len()), (1, 0));
    commit(&mut state, &mut image);
    let page = &image[2 * SMALL.page()..];
    assert_eq!(page[6..8], [1 + 15 + 2, 0]);
    assert_eq!(page[8 + 16 * UNIT..8 + 18 * UNIT], units(&[free(1), free(2)]).concat());
    assert_eq!((state.list(1), state.list(2), state.list(3)), (&[2][..], &[2][..], &[][..]));
}

/// A snapshot writes freed numbers too, and untouched ones not.
#[test]
fn snapshots_keep_freed_numbers() {
    let mut image = image_of(SMALL, 3, &two());
    put_commits(&mut image, &[&[free(9), free(20)]]);
    put_page(SMALL, &mut image, 32, Header { commit: 3, index: 0, count: 1 }, &units(&[free(5)]));
    image[SMALL.block() + SMALL.page()..2 * SMALL.block()].chunks_exact_mut(SMALL.page()).for_each(|page| page[0] = 0);
    let mut state = State::new();
    assert_eq!(state.mount(SMALL, &mut image, &TORN, 255).refusal, 0);
    assert_eq!(state.insert(&image, 50, 50), 0);
    commit(&mut state, &mut image);
    assert_eq!(state.listed().collect::<Vec<_>>(), [0, 1, 2, 5, 9, 20]);
    assert!(state.listed().all(|n| state.list(n).len() == 1 && state.list(n)[0] / 32 == 2));
    let mut read = State::new();
    assert_eq!(read.mount(SMALL, &mut image, &TORN, 255).refusal, 0);
    assert!(table_of(&read, &image) == table_of(&state, &image));
}

/// Room that a delta leaves takes the freed numbers of the oldest block, which becomes unused.
#[test]
fn deltas_move_freed_numbers() {
    let mut image = vec![255; 8 * SMALL.block()];
    put_page(SMALL, &mut image, 0, Header { commit: 1, index: 0, count: 1 }, &units(&[free(9), free(20)]));
    put_page(SMALL, &mut image, 32, Header { commit: 2, index: 0, count: 1 }, &units(&[(0, Update::Reset(0))]));
    let mut state = State::new();
    assert_eq!(state.mount(SMALL, &mut image, &TORN, 255).refusal, 0);
    assert_eq!(state.insert(&image, 50, 50), 0);
    commit(&mut state, &mut image);
    assert_eq!((state.list(9), state.list(20)), (&[33][..], &[33][..]));
}
