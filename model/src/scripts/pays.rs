//! Lists after one format, without a cut: commits that erase the blocks again and again, mounts and calls that change nothing between them.

use super::calls::{update, Keys};
use super::erases::refused;
use super::writer::Writer;
use crate::model::geometry::Geometry;
use crate::random::Random;

/// Which updates a list has: inserts and deletes of keys of a range, of a few keys alone, or inserts of rising keys.
enum Updates {
    Any(Keys),
    Few,
    Rising(u32),
}

impl Updates {
    /// One of the three.
    fn pick(random: &mut Random, geometry: Geometry) -> Updates {
        match random.below(4) {
            0 => Updates::Few,
            1 => Updates::Rising(0),
            _ => Updates::Any(Keys::any(random, geometry)),
        }
    }

    /// The next update; rising keys start again when no more fits.
    fn next(&mut self, random: &mut Random, writer: &mut Writer) {
        match self {
            Updates::Any(keys) => drop(update(random, writer, keys)),
            Updates::Few => drop(writer.insert(random.below(3) as u32, random.next() as u32)),
            Updates::Rising(key) => {
                let refusal = writer.insert(*key, random.next() as u32);
                *key = if refusal == 5 { 0 } else { *key + 1 };
            }
        }
    }
}

/// What follows a commit: where it erased a block, in half of the cases a mount; else mostly nothing.
fn between(random: &mut Random, writer: &mut Writer, erased: bool) {
    match random.below(if erased { 8 } else { 160 }) {
        0..=2 => drop(writer.mount(255)),
        3 => {
            writer.mount(0);
            writer.reports();
        }
        4 => drop(writer.commit(0)),
        5 => refused(writer),
        6 => drop(writer.look_up(random.below(200) as u32)),
        _ => {}
    }
}

/// Commits of few updates each, with power enough; the figures of the blocks are asked for whenever one has changed.
pub fn make(random: &mut Random, geometry: Geometry) -> Vec<Vec<u8>> {
    let mut writer = Writer::new(geometry);
    let mut updates = Updates::pick(random, geometry);
    writer.lend([3, 3, 3, 3, 4, 6][random.index(6)]);
    writer.format(writer.enough());
    for _ in 0..600 + random.below(600) {
        for _ in 0..[1, 1, 1, 1, 1, 2, 16][random.index(7)] {
            updates.next(random, &mut writer);
        }
        let erased = writer.probe().need(4).erases > 0;
        writer.commit([writer.enough(), u32::MAX][random.index(2)]);
        between(random, &mut writer, erased);
    }
    writer.reports();
    writer.check();
    writer.lines()
}
