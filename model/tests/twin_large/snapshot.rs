//! A snapshot on the large part: a chip made by hand, whose nodes stand in all blocks but the spare ones.
use super::{cuts, Map, Store, ENOUGH, MOUNT, TORN};
use model::random::Random;
use model::twin::geometry::LARGE;
use model::twin::state::State;
use model::twin::unit::{encode, put_header, Header, Update};
use model::twin::view::{key_of, value_of};

/// Blocks of the chip, and how many of them hold pages.
const BLOCKS: usize = 32;
const HELD: u32 = 29;

/// The units of a node written anew.
fn anew(store: &Store, number: u32) -> Vec<u8> {
    let view = store.state.view(&store.image, number);
    let entries = view.entries().iter().map(|&entry| Update::Insert(key_of(entry), value_of(entry)));
    [Update::Reset(view.level)].into_iter().chain(entries).flat_map(|update| encode(number, update)).collect()
}

/// The nodes of a store in as many commits as blocks are held, each in the first page of its block. No other page of the last is free.
fn spread(store: &Store) -> Vec<u8> {
    let mut image = vec![255; BLOCKS * LARGE.block()];
    for block in 0..HELD {
        let units: Vec<u8> =
            store.state.in_use().skip(block as usize).step_by(HELD as usize).flat_map(|number| anew(store, number)).collect();
        let page = &mut image[block as usize * LARGE.block()..][..LARGE.page()];
        put_header(page, Header { commit: block + 1, index: 0, count: 1 }, units.len() / 12);
        page[8..8 + units.len()].copy_from_slice(&units);
        page[LARGE.area..LARGE.area + 2].fill(0);
    }
    let last = &mut image[(HELD as usize - 1) * LARGE.block()..][..LARGE.block()];
    last.chunks_exact_mut(LARGE.page()).skip(1).for_each(|page| page[0] = 0);
    image
}

/// A store with nearly all nodes, on such a chip.
fn made(random: &mut Random) -> Store {
    let mut store = Store::formatted(BLOCKS);
    for _ in 0..600 {
        store.updates(random, 9000, 16);
        store.commit();
    }
    let (mut state, mut image, kept): (_, _, Map) = (State::new(), spread(&store), store.kept);
    assert_eq!(state.mount(LARGE, &mut image, &TORN, MOUNT).refusal, 0);
    Store { state, image, present: kept.clone(), kept }
}

/// The commit writes all nodes into the spare blocks with at most 4 pages a block of the chip, cut anywhere or finished.
#[test]
fn all_nodes() {
    let mut random = Random::new(95);
    let mut store = made(&mut random);
    store.updates(&mut random, 9000, 8);
    let counts = store.state.forecast(&store.image).counts;
    println!("a snapshot of {} nodes: {counts:?}, {} operations", store.state.in_use().count(), counts.total());
    assert!(counts.programs > 10 && counts.programs <= 4 * BLOCKS as u32 && counts.total() <= ENOUGH);
    cuts::cut_at(&store, &[0x5A; LARGE.page()], &mut random, 2600);
    store.commit();
    store.compare(&mut random, 2600);
    assert!((0..store.state.limit()).all(|n| store.state.list(n).iter().all(|&place| LARGE.block_of(place as usize) >= HELD as usize)));
}
