//! Refusal 1: lengths of image and torn slice around the right ones, by the geometry named or by the state's.
use super::{Store, ENOUGH, MOUNT, TORN};
use model::twin::geometry::{Geometry, LARGE, SMALL};
use model::twin::show::show;
use model::twin::state::State;
use model::twin::told::Told;

/// Lengths of torn slices.
const TORNS: [usize; 8] = [0, 1, 527, 528, 529, 2111, 2112, 2113];

/// Format, mount and show on an image of this length: 1 where it is no chip of the geometry, or the torn slice has another length.
fn named(geometry: Geometry, len: usize, torn: usize, is_chip: bool) {
    let (mut image, torn, is_sized) = (vec![255; len], vec![90; torn], is_chip && torn == geometry.page());
    let mut state = State::new();
    assert_eq!(state.mount(geometry, &mut image, &torn, MOUNT), Told::quiet(if is_sized { 7 } else { 1 }));
    assert!(image.iter().all(|&byte| byte == 255));
    assert_eq!(state.format(geometry, &mut image, &torn, ENOUGH).refusal, u32::from(!is_sized));
    assert_eq!(state.on, is_sized);
    let pages = (len / geometry.page()) as u32;
    for (page, refusal) in [(0, None), (pages.saturating_sub(1), None), (pages, Some(4)), (u32::MAX, Some(4))] {
        assert_eq!(show(geometry, &image, page).err(), if is_chip { refusal } else { Some(1) });
    }
}

/// Chips of 0 to 33 blocks of either part, whole or a byte off.
#[test]
fn named_geometry() {
    for geometry in [SMALL, LARGE] {
        for blocks in [0, 1, 2, 3, 4, 8, 24, 31, 32, 33] {
            let len = blocks * geometry.block();
            let is_chip = (3..=32).contains(&blocks);
            TORNS.iter().for_each(|&torn| named(geometry, len, torn, is_chip));
            named(geometry, len + 1, geometry.page(), false);
            named(geometry, len.saturating_sub(1), geometry.page(), false);
        }
    }
}

/// Sizes of the papers.
#[test]
fn numbers() {
    assert_eq!((SMALL.page(), SMALL.block(), LARGE.page(), LARGE.block()), (528, 16_896, 2_112, 135_168));
    assert_eq!(24 * SMALL.block(), 3 * LARGE.block());
    assert_eq!((SMALL.blocks_of(3 * LARGE.block()), LARGE.blocks_of(24 * SMALL.block())), (24, 3));
    assert_eq!((LARGE.blocks_of(3 * SMALL.block()), LARGE.blocks_of(32 * SMALL.block()), SMALL.blocks_of(4 * LARGE.block())), (0, 4, 32));
    for geometry in [SMALL, LARGE] {
        assert_eq!(geometry.units, (geometry.area - 8) / 12);
        assert!((0..2048).all(|place| geometry.block_of(place) == place / geometry.pages));
    }
}

/// The calls that go by the state's geometry give this refusal and change nothing.
fn held(store: &Store, image: &mut [u8], torn: &[u8], refusal: u32) {
    let mut state = store.state.clone();
    assert_eq!(state.commit(image, torn, ENOUGH), Told::quiet(refusal));
    assert!(state == store.state);
}

/// An image of another length, or a torn slice of another, on stores of either part.
#[test]
fn held_geometry() {
    let mut store = Store::formatted(3);
    assert_eq!(store.state.insert(&store.image, 7, 99), 0);
    let block = LARGE.block();
    for len in [0, 1, SMALL.block(), 3 * SMALL.block(), 3 * block - 1, 3 * block + 1, 2 * block, 4 * block, 32 * block] {
        let mut image = vec![255; len];
        held(&store, &mut image, &TORN, 1);
        let mut state = store.state.clone();
        assert_eq!((state.insert(&image, 8, 1), state.delete(&image, 7), state.look_up(&image, 7).refusal), (1, 1, 1));
        assert_eq!((state.forecast(&image), state.block_report(&image, 0).err()), (Told::quiet(1), Some(1)));
        assert!(state == store.state && image.iter().all(|&byte| byte == 255));
    }
    for torn in TORNS.into_iter().filter(|&torn| torn != LARGE.page()) {
        held(&store, &mut store.image.clone(), &vec![90; torn], 1);
    }
    assert_eq!(store.commit().programs, 1);
}

/// A store of 24 small blocks is not lent a large torn slice, and a mount refused with 1 leaves the geometry as it was.
#[test]
fn same_length() {
    let (mut state, mut image) = (State::new(), vec![255; 24 * SMALL.block()]);
    assert_eq!(state.format(SMALL, &mut image, &TORN[..SMALL.page()], 2000).refusal, 0);
    assert_eq!(state.insert(&image, 7, 99), 0);
    assert_eq!(state.commit(&mut image, &TORN, 2000), Told::quiet(1));
    assert_eq!(state.mount(SMALL, &mut image, &TORN, MOUNT), Told::quiet(1));
    assert_eq!(state.mount(LARGE, &mut image, &TORN[..SMALL.page()], MOUNT), Told::quiet(1));
    assert_eq!(state.format(LARGE, &mut image[1..], &TORN, ENOUGH), Told::quiet(1));
    assert_eq!((state.geometry, state.pending, state.on), (SMALL, 1, true));
    assert_eq!(state.commit(&mut image, &TORN[..SMALL.page()], 2000).counts.programs, 1);
}
