//! Block reports of 64 pages, and shows of pages of up to 170 units.
use super::{Store, MOUNT, TORN};
use model::random::Random;
use model::twin::geometry::{LARGE, SMALL};
use model::twin::show::show;
use model::twin::state::State;
use model::twin::unit::{encode, put_header, Header, Update};

/// The free pages of a block and the first free one.
fn report(store: &Store, block: u32) -> (u32, u32) {
    let report = store.state.block_report(&store.image, block).unwrap();
    (report.free, report.first)
}

/// Reports after a format, and as pages of the last block get a byte that is not 255.
#[test]
fn reports() {
    let mut store = Store::formatted(3);
    assert_eq!([0, 1, 2].map(|block| report(&store, block)), [(63, 1), (64, 0), (64, 0)]);
    assert_eq!(store.state.block_report(&store.image, 3).err(), Some(4));
    for page in 0..64 {
        store.image[2 * LARGE.block() + page * LARGE.page() + 33 * page] = 254;
        assert_eq!(report(&store, 2), (63 - page as u32, page as u32 + 1));
    }
    assert_eq!((report(&store, 1), report(&store, 2)), ((64, 0), (0, 64)));
}

/// A small block without a free page still reports 32.
#[test]
fn full_small_block() {
    let (mut state, mut image) = (State::new(), vec![0; 3 * SMALL.block()]);
    state.format(SMALL, &mut image, &TORN[..SMALL.page()], 2000);
    image[SMALL.block()..2 * SMALL.block()].fill(0);
    let report = state.block_report(&image, 1).unwrap();
    assert_eq!((report.free, report.first), (0, 32));
}

/// A chip of 3 blocks with one page, of this many units: leaf 0 reset, and key 1 inserted again and again.
fn one_page(units: usize) -> Vec<u8> {
    let mut image = vec![255; 3 * LARGE.block()];
    put_header(&mut image, Header { commit: 1, index: 0, count: 1 }, units);
    for unit in 0..units.min(170) {
        let update = if unit == 0 { Update::Reset(0) } else { Update::Insert(1, unit as u32) };
        image[8 + 12 * unit..][..12].copy_from_slice(&encode(0, update));
    }
    image[LARGE.area..LARGE.area + 2].fill(0);
    image
}

/// 1, 42, 43 and 170 units pass step 2 of the large part; none and 171 give 8 and are not shown.
#[test]
fn units() {
    for (units, refusal) in [(0, 8), (1, 0), (42, 0), (43, 0), (170, 0), (171, 8), (65535, 8)] {
        let mut image = one_page(units);
        let shown = if refusal == 0 { (8, 12 * units) } else { (0, 0) };
        assert_eq!((show(LARGE, &image, 0), show(LARGE, &image, 1)), (Ok(shown), Ok((0, 0))));
        assert_eq!((show(LARGE, &image, 191), show(LARGE, &image, 192)), (Ok((0, 0)), Err(4)));
        assert_eq!(State::new().mount(LARGE, &mut image, &TORN, MOUNT).refusal, refusal);
    }
}

/// The pages that commits write are shown, some of them with more units than a small page holds.
#[test]
fn written() {
    let (mut random, mut store, mut most) = (Random::new(85), Store::formatted(3), 0);
    for _ in 0..60 {
        store.updates(&mut random, 300, 16);
        store.commit();
        for place in 0..192 {
            let (start, len) = show(LARGE, &store.image, place).unwrap();
            let page = &store.image[place as usize * LARGE.page()..][..LARGE.page()];
            assert_eq!((start, len), if page[0] == 255 { (0, 0) } else { (place as usize * LARGE.page() + 8, 12 * usize::from(page[6])) });
            most = most.max(len / 12);
        }
    }
    println!("{most} units in a page at most");
    assert!(most > 42);
}
