//! Refusal 1 and the bounds of the plain store, read with the geometry chosen.
use crate::{BOTH, LARGE, SMALL};
use model::model::geometry::Geometry;
use model::model::plain::{Answer, Call, Lengths, Plain};

/// A call that is not cut.
fn call(plain: &mut Plain, call: Call, image: usize, torn: usize) -> Answer {
    plain.call(call, Lengths { image, torn }, false, false)
}

/// A store formatted on a number of blocks of a part.
fn formatted(geometry: Geometry, blocks: usize) -> Plain {
    let mut plain = Plain::new();
    let image = blocks * geometry.block();
    assert_eq!(call(&mut plain, Call::Format(geometry, geometry.never_cut), image, geometry.torn), Answer::Accepted);
    assert_eq!((plain.geometry, plain.blocks, plain.present.nodes.len()), (geometry, blocks, 8 * blocks));
    plain
}

/// The lengths around those of 3 to 32 blocks: right ones alone have a B.
#[test]
fn lengths_of_images() {
    for blocks in 0..40 {
        let length = blocks * LARGE.block();
        assert_eq!(LARGE.blocks_of(length), (3..=32).contains(&blocks).then_some(blocks));
        for other in [length + 1, length + SMALL.block(), length + LARGE.page(), length + LARGE.block() - 1] {
            assert_eq!(LARGE.blocks_of(other), None);
        }
    }
    assert_eq!((SMALL.blocks_of(BOTH), LARGE.blocks_of(BOTH)), (Some(24), Some(3)));
    assert_eq!((SMALL.blocks_of(4 * LARGE.block()), LARGE.blocks_of(4 * LARGE.block())), (Some(32), Some(4)));
    assert_eq!((SMALL.blocks_of(5 * LARGE.block()), LARGE.blocks_of(23 * SMALL.block())), (None, None));
}

/// Format and mount give 1 for the geometry that they name, whatever the store's is.
#[test]
fn format_and_mount() {
    for mut plain in [Plain::new(), formatted(LARGE, 3), formatted(SMALL, 3)] {
        let before = (plain.on, plain.geometry, plain.blocks);
        let wrong = [2 * LARGE.block(), BOTH - 1, BOTH + 1, 33 * LARGE.block(), 3 * SMALL.block(), 0];
        for image in wrong {
            assert_eq!(call(&mut plain, Call::Format(LARGE, 4000), image, 2112), Answer::Refused(1));
            assert_eq!(call(&mut plain, Call::Mount(LARGE, 255), image, 2112), Answer::Refused(1));
        }
        for torn in [0, 528, 2047, 2048, 2111, 2113] {
            assert_eq!(call(&mut plain, Call::Format(LARGE, 4000), BOTH, torn), Answer::Refused(1));
            assert_eq!(call(&mut plain, Call::Mount(LARGE, 255), BOTH, torn), Answer::Refused(1));
        }
        assert_eq!(call(&mut plain, Call::Format(SMALL, 2000), BOTH, 2112), Answer::Refused(1));
        assert_eq!((plain.on, plain.geometry, plain.blocks), before);
    }
}

/// The other calls give 1 for the store's geometry and B; 2 comes first.
#[test]
fn other_calls() {
    let calls = [Call::Insert(1, 1), Call::Delete(1), Call::LookUp(1), Call::Commit(4000)];
    for one in calls {
        assert_eq!(call(&mut Plain::new(), one, BOTH, 2112), Answer::Refused(2));
        let mut plain = formatted(LARGE, 4);
        for image in [BOTH, 5 * LARGE.block(), 4 * LARGE.block() - 1, 4 * SMALL.block(), 24 * SMALL.block(), 0] {
            assert_eq!(call(&mut plain, one, image, 2112), Answer::Refused(1), "{one:?} with {image} bytes");
        }
        let right = [Answer::Accepted, Answer::Refused(4)];
        assert!(right.contains(&call(&mut plain, one, 32 * SMALL.block(), 2112)), "{one:?}");
    }
    let mut plain = formatted(LARGE, 4);
    for torn in [0, 528, 2111, 2113] {
        assert_eq!(call(&mut plain, Call::Commit(4000), 4 * LARGE.block(), torn), Answer::Refused(1));
        assert_eq!(call(&mut plain, Call::Insert(1, 1), 4 * LARGE.block(), torn), Answer::Accepted);
    }
}

/// No format or commit is cut with 4,000 or more, no mount with 255 or more; with one less each may be.
#[test]
fn bounds_of_cuts() {
    let lengths = Lengths { image: BOTH, torn: LARGE.torn };
    let cut = |one: Call, pending: bool| {
        let mut plain = formatted(LARGE, 3);
        if pending {
            call(&mut plain, Call::Insert(1, 1), BOTH, 0);
        }
        plain.call(one, lengths, true, false) == Answer::Refused(10)
    };
    assert!(cut(Call::Commit(3999), true) && cut(Call::Commit(2000), true));
    assert!(!cut(Call::Commit(4000), true) && !cut(Call::Commit(0), false));
    assert!(cut(Call::Format(LARGE, 3999), false) && !cut(Call::Format(LARGE, 4000), false));
    assert!(cut(Call::Mount(LARGE, 254), true) && !cut(Call::Mount(LARGE, 255), true));
}

/// A format that names the other part changes geometry and B; the rest reads with them.
#[test]
fn formats_of_both_parts() {
    let mut plain = formatted(LARGE, 3);
    assert_eq!(call(&mut plain, Call::Format(SMALL, 2000), BOTH, 528), Answer::Accepted);
    assert_eq!((plain.geometry, plain.blocks, plain.present.nodes.len()), (SMALL, 24, 192));
    call(&mut plain, Call::Insert(1, 1), BOTH, 528);
    assert_eq!(call(&mut plain, Call::Commit(2000), BOTH, 2112), Answer::Refused(1));
    assert_eq!(plain.call(Call::Commit(2000), Lengths { image: BOTH, torn: 528 }, true, false), Answer::Accepted);
    assert_eq!(plain.call(Call::Format(LARGE, 2000), Lengths { image: BOTH, torn: 2112 }, true, false), Answer::Refused(10));
    assert_eq!((plain.geometry, plain.on), (SMALL, false));
}
