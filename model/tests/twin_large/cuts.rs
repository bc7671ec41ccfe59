//! Commits cut at every allowance with several torn slices: the mount after it reads the records from before or after.
use super::{Map, Store, ENOUGH, MOUNT, TORN};
use model::random::Random;
use model::twin::geometry::LARGE;
use model::twin::state::State;

/// Torn slices: equal bytes, random ones, and a page that the commit would write, with its marks set.
fn slices(random: &mut Random, store: &Store) -> Vec<Vec<u8>> {
    let equal = [0x5A, 0, 255, 1].map(|byte| vec![byte; LARGE.page()]);
    let any = (0..LARGE.page()).map(|_| random.byte()).collect();
    let mut after = store.clone();
    after.commit();
    let pages = store.image.chunks_exact(LARGE.page()).zip(after.image.chunks_exact(LARGE.page()));
    let written = pages.filter(|(old, new)| old != new && new[0] != 255).map(|(_, new)| new.to_vec());
    equal.into_iter().chain([any]).chain(written.take(1)).collect()
}

/// A mount after a cut, itself cut at each of its operations first.
fn mounted(store: &mut Store) {
    store.state = State::new();
    for allowance in 0..=MOUNT {
        let told = store.state.mount(LARGE, &mut store.image, &TORN, allowance);
        assert_eq!(store.state.on, told.refusal == 0);
        if store.state.on {
            return;
        }
        assert_eq!((told.refusal, told.counts.total()), (10, allowance));
    }
    panic!("a mount that needs more than {MOUNT} operations");
}

/// The store after a cut holds the records of before or of after and goes on from them. Whether it holds those of after.
fn goes_on(store: &mut Store, random: &mut Random, range: u64) -> bool {
    let keys: Vec<u32> = store.kept.keys().chain(store.present.keys()).copied().collect();
    let (before, after): (Map, Map) = (store.kept.clone(), store.present.clone());
    let is_new = store.holds(&after, &keys);
    assert!(is_new || store.holds(&before, &keys), "neither the records of before nor those of after");
    store.present = if is_new { after } else { before };
    store.updates(random, range, 4);
    store.commit();
    store.compare(random, range);
    is_new
}

/// The commit of a store cut at every allowance with a torn slice; whether each end was seen.
pub fn cut_at(store: &Store, torn: &[u8], random: &mut Random, range: u64) -> [bool; 2] {
    let mut seen = [false; 2];
    for allowance in 0..store.state.forecast(&store.image).counts.total() {
        let mut cut = store.clone();
        let told = cut.state.commit(&mut cut.image, torn, allowance);
        assert_eq!((told.refusal, told.counts.total(), cut.state.on), (10, allowance, false));
        mounted(&mut cut);
        seen[usize::from(goes_on(&mut cut, random, range))] = true;
    }
    seen
}

/// The same with each of several torn slices.
fn cut_everywhere(store: &Store, random: &mut Random, range: u64) -> [bool; 2] {
    let slices = slices(random, store);
    slices.iter().map(|torn| cut_at(store, torn, random, range)).fold([false; 2], |[a, b], [c, d]| [a || c, b || d])
}

/// Commits of a list, of which those that erase, and some others, are cut everywhere, up to `most` of each.
fn cuts(seed: u64, blocks: usize, range: u64, most: usize) {
    let mut random = Random::new(seed);
    let mut store = Store::formatted(blocks);
    let (mut with, mut without, mut seen) = (0, 0, [false; 2]);
    while with < most || without < most {
        store.updates(&mut random, range, 16);
        let erases = store.state.forecast(&store.image).counts.erases;
        let kind = if erases > 0 { &mut with } else { &mut without };
        if store.state.pending > 0 && *kind < most && (erases > 0 || random.once_in(30)) {
            *kind += 1;
            let own = cut_everywhere(&store, &mut random, range);
            (0..2).for_each(|i| seen[i] |= own[i]);
        }
        store.commit();
    }
    assert_eq!(seen, [true; 2]);
}

/// Chips of 3 blocks.
#[test]
fn three_blocks() {
    cuts(91, 3, 200, 12);
}

/// Chips of 8 blocks.
#[test]
fn eight_blocks() {
    cuts(92, 8, 600, 8);
}

/// A chip of 32 blocks.
#[test]
fn thirty_two_blocks() {
    cuts(93, 32, 2600, 3);
}

/// A format cut at every allowance leaves the state off; with its operations it is finished.
#[test]
fn formats() {
    for blocks in [3, 8, 32] {
        let store = Store::formatted(blocks);
        for allowance in (0..blocks as u32 + 3).chain([ENOUGH]) {
            let Store { mut state, mut image, .. } = store.clone();
            let told = state.format(LARGE, &mut image, &TORN, allowance);
            assert_eq!((told.refusal, state.on), if allowance == ENOUGH { (0, true) } else { (10, false) });
        }
    }
}

/// A record inserted; a commit where 16 are pending.
fn put(store: &mut Store, key: u32) {
    if store.state.pending == 16 {
        store.commit();
    }
    assert_eq!(store.state.insert(&store.image, key, !key), 0);
    store.present.insert(key, !key);
}

/// A store whose first `leaves` leaves are full: records in key order leave 9 in each, and 7 join them.
fn full_leaves(blocks: usize, leaves: u32) -> Store {
    let mut store = Store::formatted(blocks);
    (0..9 * leaves + 8).for_each(|i| put(&mut store, 16 * i));
    for i in (0..9 * leaves).filter(|i| i % 9 < 7) {
        put(&mut store, 16 * i + 1);
    }
    store.commit();
    store
}

/// A commit of records for full leaves, each of which splits, has several pages; it is cut everywhere.
#[test]
fn several_pages() {
    let mut random = Random::new(94);
    for (blocks, leaves, count) in [(3, 10, 9), (8, 30, 16), (32, 100, 16)] {
        let mut store = full_leaves(blocks, leaves);
        (0..count).for_each(|leaf| put(&mut store, 9 * 16 * leaf + 2));
        let counts = store.state.forecast(&store.image).counts;
        println!("{blocks} blocks, {count} leaves split: {counts:?}, {} units buffered", store.state.count);
        assert!(counts.programs > 1);
        assert_eq!(cut_everywhere(&store, &mut random, 100), [true; 2]);
    }
}
