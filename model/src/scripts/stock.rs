//! Chips in stock that a rebuild takes, or does not: foreign trees of all heights, thin ones mostly.

use super::blocks;
use super::images::weight;
use crate::model::foreign::{self, Free, Stock};
use crate::model::geometry::Geometry;
use crate::random::Random;

/// The most bytes of an image other than 255 that a script uploads.
const UPLOAD: usize = 40_000;
/// The sizes of chips: those on both sides of a further block in eight, and the small ones more often.
const SIZES: [u32; 14] = [3, 3, 3, 4, 4, 5, 7, 8, 9, 10, 16, 17, 31, 32];

/// How many blocks are wholly free: enough most often.
fn free(random: &mut Random) -> Free {
    [Free::Enough, Free::Enough, Free::Enough, Free::More, Free::OneFewer][random.index(5)]
}

/// The greatest standing number: any, the last or the one before it.
fn number(random: &mut Random) -> Option<u32> {
    [None, None, None, None, None, Some(u32::MAX), Some(u32::MAX - 1)][random.index(7)]
}

/// A chip in stock, at times one whose tree is not thin.
pub fn image(random: &mut Random, geometry: Geometry) -> Vec<u8> {
    let stock = Stock { free: free(random), number: number(random) };
    of(random, geometry, &SIZES, stock)
}

/// A thin chip of few blocks that a rebuild takes.
pub fn ready(random: &mut Random, geometry: Geometry) -> Vec<u8> {
    let stock = Stock { free: [Free::Enough, Free::More][random.index(2)], number: None };
    of(random, geometry, &[3, 3, 3, 4, 5], stock)
}

/// A chip in stock of one of several sizes; the levels of its root from 1 to 3, each as often as another.
fn of(random: &mut Random, geometry: Geometry, sizes: &[u32], stock: Stock) -> Vec<u8> {
    loop {
        let size = blocks(random, geometry, sizes) as usize;
        let level = 1 + random.below(3) as u32;
        let tree = match random.once_in(6) {
            true => foreign::valid_of(random, geometry, size).1,
            false => foreign::thin_tree(random, size, level),
        };
        let image = foreign::stock(random, geometry, size, &tree, stock);
        if weight(&image) <= UPLOAD {
            return image;
        }
    }
}
