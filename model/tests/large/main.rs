//! The model on the large part: document 02, note 9.
mod cases;
mod foreign;
mod lists;
mod named;
mod other;
mod parts;
mod sizes;
#[allow(dead_code)]
#[path = "../tiny/mod.rs"]
mod tiny;
mod torn;

use model::model::chip::{self, Power};
use model::model::geometry::Geometry;
use model::model::unit::{encode, page_data, Deed, Unit, UNIT};

/// The large part.
const LARGE: Geometry = Geometry::LARGE;
/// The small part.
const SMALL: Geometry = Geometry::SMALL;
/// Bytes of an image of 3 large blocks, which are those of 24 small ones.
const BOTH: usize = 3 * LARGE.block();

/// An insert in a node.
fn insert(node: u16, key: u32, value: u32) -> [u8; UNIT] {
    encode(&Unit { node, deed: Deed::Insert(key, value) })
}

/// A reset.
fn reset(node: u16, level: u32) -> [u8; UNIT] {
    encode(&Unit { node, deed: Deed::Reset(level) })
}

/// A reset of node 0 as a leaf and inserts of keys 1 to 16 in turn, so many units in all.
fn leaf(units: usize) -> Vec<[u8; UNIT]> {
    let inserts = (1..units as u32).map(|at| insert(0, 1 + at % 16, at));
    [reset(0, 0)].into_iter().chain(inserts).collect()
}

/// Writes a page, given by commit number, index, count and units, at a place.
fn write(geometry: Geometry, image: &mut [u8], place: usize, page: (u32, u8, u8), units: &[[u8; UNIT]]) {
    let mut power = Power::new(geometry, u32::MAX, &[]);
    assert!(chip::write_page(image, &mut power, place, &page_data(geometry, page.0, page.1, page.2, units)));
}

/// An image as a finished format of a part leaves it.
fn formatted(geometry: Geometry, blocks: usize) -> Vec<u8> {
    let mut image = vec![255; blocks * geometry.block()];
    write(geometry, &mut image, 0, (1, 0, 1), &[reset(0, 0)]);
    image
}
