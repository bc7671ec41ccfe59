//! Thin trees and rebuild by hand: document 02, note 6.
mod cuts;
#[allow(dead_code)]
#[path = "../hand/mod.rs"]
mod hand;
mod refusals;
mod starts;
mod thin;
mod wrong;

use hand::{data, obsolete, write, Hand};
use model::model::chip::Operation;
use model::model::geometry::Geometry;
use model::model::unit::{Deed, FREED};

/// The part of these tests.
const SMALL: Geometry = Geometry::SMALL;
/// Bytes of a block.
const BLOCK: usize = SMALL.block();
/// Torn bytes.
const TORN: usize = SMALL.torn;
/// Where the page of the new commit goes: the first of the last block.
const NEW: usize = 64;
/// Where the void page is.
const VOID: usize = 3;

/// The pages of a thin chip of 3 blocks, the last two of them free. Commit 5: node 0 has one entry, node 1 is its leaf of three records,
/// number 7 is freed. A void page of commit 6.
fn thin_pages() -> Vec<(usize, Vec<u8>)> {
    let nodes = [
        (0, Deed::Reset(1)),
        (0, Deed::Insert(0, 1)),
        (1, Deed::Reset(0)),
        (1, Deed::Insert(4, 40)),
        (1, Deed::Insert(5, 50)),
        (1, Deed::Insert(6, 60)),
        (7, Deed::Reset(FREED)),
    ];
    vec![(0, data(5, 0, 1, &nodes)), (VOID, data(6, 0, 2, &[(0, Deed::Reset(0))]))]
}

/// The thin chip, set by frames.
fn thin_chip() -> Hand {
    Hand::with_pages(&thin_pages())
}

/// The units of the three records as one leaf, and of the numbers that go.
fn leaf(freed: &[u16]) -> Vec<(u16, Deed)> {
    let mut units = vec![(0, Deed::Reset(0)), (0, Deed::Insert(4, 40)), (0, Deed::Insert(5, 50)), (0, Deed::Insert(6, 60))];
    units.extend(freed.iter().map(|number| (*number, Deed::Reset(FREED))));
    units
}

/// The operations of a rebuild that writes one page: the mark of the void page, then the page.
fn operations(place: usize, page: &[u8]) -> Vec<Operation<'_>> {
    obsolete(&[VOID]).into_iter().chain(write(place, page)).collect()
}
