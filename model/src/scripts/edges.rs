//! Full trees, the least and the greatest key, and 17 pending updates.

use super::blocks;
use super::calls::{step, Keys};
use super::wide::Wide;
use super::writer::Writer;
use crate::model::geometry::Geometry;
use crate::random::Random;

/// Keys in an order that fills nodes: rising, falling, random, or from both ends.
fn order(random: &mut Random, i: u32, way: u64) -> u32 {
    match way {
        0 => i * 3,
        1 => u32::MAX - i * 3,
        2 => random.next() as u32,
        _ if i.is_multiple_of(2) => i,
        _ => u32::MAX - i,
    }
}

/// The next key: spread over the leaves, or in order.
fn next(random: &mut Random, writer: &Writer, i: u32, way: u64, wide: &mut Option<Wide>) -> u32 {
    match wide {
        Some(wide) => wide.pick(random, writer),
        None => order(random, i, way),
    }
}

/// Inserts until the tree step is refused with 5, in an order or spread over the leaves, with commits between them, then updates of the
/// full tree.
pub fn full(random: &mut Random, geometry: Geometry) -> Vec<Vec<u8>> {
    let mut writer = Writer::new(geometry);
    writer.lend([3, 3, 3, 3, 4, 5, 8][random.index(7)]);
    writer.format(writer.enough());
    let way = random.below(4);
    let mut wide = random.once_in(3).then(Wide::default);
    let mut keys = Keys::any(random, geometry);
    let mut i = 0;
    while writer.insert(next(random, &writer, i, way, &mut wide), i) != 5 {
        i += 1;
        if random.once_in(14) && wide.is_none() || writer.probe().state().pending == 16 {
            writer.insert(0, i);
            writer.delete(u32::MAX);
            writer.commit(writer.enough());
        }
    }
    writer.check();
    for _ in 0..200 {
        let old = random.below(u64::from(i)) as u32;
        let key = order(random, old, way.min(1));
        match random.below(4) {
            0 => writer.insert(key, 7),
            1 => writer.delete(key),
            _ => writer.look_up(key),
        };
        step(random, &mut writer, &mut keys);
    }
    writer.check();
    writer.lines()
}

/// 17 pending updates and more, of few keys with 0 and the greatest among them, then a forecast and a commit or a mount.
pub fn pending(random: &mut Random, geometry: Geometry) -> Vec<Vec<u8>> {
    let mut writer = Writer::new(geometry);
    writer.lend(blocks(random, geometry, &[3, 4, 8, 32]));
    writer.format(writer.enough());
    for _ in 0..12 {
        for _ in 0..16 + random.below(20) {
            let key = [0, 1, 2, u32::MAX, u32::MAX - 1, 1 << 31][random.index(6)];
            match random.below(3) {
                0 => writer.delete(key),
                1 => writer.look_up(key),
                _ => writer.insert(key, random.next() as u32),
            };
        }
        writer.forecast();
        match random.below(3) {
            0 => writer.mount(255),
            _ => writer.commit(writer.enough()),
        };
        writer.check();
    }
    writer.lines()
}
