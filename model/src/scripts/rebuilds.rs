//! Rebuilds: of thin chips that no format began, cut anywhere and called again, refused with each number, on and off, with updates
//! pending; of chips of a list; and the lists that go on from them.

use super::calls::{read, step, update, Keys};
use super::images::{any_image, damaged_image, renumber};
use super::stock;
use super::torn;
use super::writer::Writer;
use crate::model::geometry::Geometry;
use crate::model::image::meaning;
use crate::model::plain::POWER;
use crate::random::Random;

/// Kinds of torn bytes for a rebuild that is cut at every operation: 0, 5A, 255, random ones with byte 0 equal to 0.
const TORN: [u64; 4] = [0, 1, 2, 5];
/// Operations of a rebuild that is cut at every one of them at most.
const SHORT: u32 = 60;

/// The keys of the records that the image has.
fn keys_of(writer: &Writer) -> Vec<u32> {
    let (geometry, image) = (writer.geometry(), writer.probe().image());
    let means = meaning(geometry, image, image.len() / geometry.block());
    means.map_or(Vec::new(), |means| means.tree.records().into_iter().map(|record| record.0).collect())
}

/// A checksum, reports of all blocks, and look ups of keys, of some beside them and of the ends.
fn look(random: &mut Random, writer: &mut Writer, keys: &[u32], most: usize) {
    writer.check();
    writer.reports();
    let from = random.index(keys.len());
    for key in keys.iter().skip(from).chain(&keys[..from]).take(most) {
        writer.look_up(*key);
        if random.once_in(4) {
            writer.look_up(key.wrapping_add(1));
        }
    }
    for key in [0, u32::MAX] {
        writer.look_up(key);
    }
}

/// Updates near the records of the chip, and commits of them, cut at times; a store that is off is mounted, and left where it stays off.
fn go_on(random: &mut Random, writer: &mut Writer, rounds: u64) {
    let records = keys_of(writer);
    let mut keys = Keys::any(random, writer.geometry());
    if !writer.is_on() && writer.mount(255) != 0 {
        return step(random, writer, &mut keys);
    }
    for _ in 0..random.below(rounds + 1) {
        for _ in 0..1 + random.below(16) {
            let near = records.get(random.index(records.len())).copied();
            match (random.below(4), near) {
                (0 | 1, Some(key)) => writer.delete(key),
                (2, Some(key)) => writer.insert(key.wrapping_add(random.below(3) as u32), random.next() as u32),
                _ => update(random, writer, &mut keys),
            };
        }
        if random.once_in(3) {
            writer.forecast();
        }
        let allowance = if random.once_in(4) { writer.allowance(random, 4) } else { writer.enough() };
        writer.commit(allowance);
        writer.check();
        if !writer.is_on() || random.once_in(8) {
            writer.mount(255);
        }
    }
    for _ in 0..random.below(6 * rounds + 1) {
        step(random, writer, &mut keys);
    }
    look(random, writer, &records, 12);
}

/// A store that is on, off or was never on, at times with updates pending, before the chip in stock is lent.
fn before(random: &mut Random, writer: &mut Writer, size: u32) {
    let mut keys = Keys::any(random, writer.geometry());
    if random.once_in(2) {
        writer.lend(if random.once_in(4) { 3 + random.below(4) as u32 } else { size });
        writer.format(writer.enough());
        for _ in 0..random.below(18) {
            update(random, writer, &mut keys);
        }
        if random.once_in(3) {
            writer.commit(if random.once_in(2) { writer.enough() } else { 2 });
        }
    }
}

/// Rebuilds of a chip that are cut, each followed by a mount, at times by a rebuild that goes on, and the image set back or not.
fn cut_some(random: &mut Random, writer: &mut Writer, image: &[u8], keys: &[u32]) {
    for _ in 0..random.below(5) {
        torn::tear(random, writer);
        let need = writer.probe().need(10).total();
        let voids = writer.probe().need(5).total();
        let allowance = match random.below(4) {
            0 => need.saturating_sub(1),
            1 => random.below(u64::from(voids) + 1) as u32,
            _ => random.below(u64::from(need) + 1) as u32,
        };
        writer.rebuild(allowance);
        writer.check();
        if random.once_in(2) {
            writer.mount(if random.once_in(3) { 1 } else { 255 });
            look(random, writer, keys, 6);
        }
        if random.once_in(2) {
            writer.upload(image);
        }
    }
}

/// A chip in stock: what mount says of it, rebuilds cut and finished, again, and a list that goes on.
fn stocked(random: &mut Random, writer: &mut Writer, image: &[u8]) {
    before(random, writer, (image.len() / writer.geometry().block()) as u32);
    writer.bring(image);
    let keys = keys_of(writer);
    writer.check();
    if random.once_in(2) {
        writer.mount([0, 1, 255][random.index(3)]);
        look(random, writer, &keys, 4);
    }
    cut_some(random, writer, image, &keys);
    for _ in 0..1 + random.below(2) {
        writer.rebuild([writer.enough(), u32::MAX][random.index(2)]);
        look(random, writer, &keys, 40);
        if random.once_in(3) {
            writer.mount(255);
        }
        go_on(random, writer, 5);
    }
}

/// A thin chip of few blocks, its rebuild cut at every operation with torn bytes of a kind; each time the chip is mounted, rebuilt again
/// and used on, and its image set back.
pub fn cut_all(random: &mut Random, writer: &mut Writer, kind: u64) -> usize {
    let image = loop {
        let image = stock::ready(random, writer.geometry());
        writer.bring(&image);
        if writer.probe().need(10).total() <= SHORT {
            break image;
        }
    };
    let keys = keys_of(writer);
    let bytes = torn::bytes(random, writer, kind);
    writer.tear(&bytes);
    let mut replays = 0;
    for allowance in 0.. {
        writer.upload(&image);
        let refusal = writer.rebuild(allowance);
        replays += 1;
        look(random, writer, &keys, 2);
        if random.once_in(2) {
            writer.mount(255);
            look(random, writer, &keys, 10);
        }
        if writer.rebuild(writer.enough()) == 0 || writer.is_on() {
            look(random, writer, &keys, 10);
            go_on(random, writer, 1);
        }
        if refusal != POWER {
            break;
        }
    }
    replays
}

/// A chip of a list: rebuilds with updates pending, cut and finished, after cut commits, and at the last numbers.
fn listed(random: &mut Random, writer: &mut Writer) {
    let mut keys = Keys::any(random, writer.geometry());
    let sizes = [3, 3, 4, 5, 8, 9, 16, 32];
    writer.lend(keys.blocks(random, writer.geometry(), &sizes));
    writer.format(writer.enough());
    for _ in 0..2 + random.below(6) {
        for _ in 0..random.below(60) {
            step(random, writer, &mut keys);
        }
        if random.once_in(3) && writer.is_on() {
            let need = writer.probe().need(4).total();
            writer.commit(need.saturating_sub(1));
        }
        if random.once_in(8) && writer.is_on() {
            renumber(writer, u32::MAX - random.below(2) as u32);
        }
        torn::tear(random, writer);
        let allowance = if random.once_in(2) { writer.allowance(random, 10) } else { writer.enough() };
        writer.rebuild(allowance);
        let stored = keys_of(writer);
        look(random, writer, &stored, 12);
        if !writer.is_on() {
            writer.mount(255);
        }
    }
}

/// Chips that mount takes or refuses with 7, 8 or 9; the store is on at times.
fn refused(random: &mut Random, writer: &mut Writer) {
    let geometry = writer.geometry();
    for _ in 0..1 + random.below(2) {
        let image = match random.below(3) {
            0 => any_image(random, geometry),
            _ => damaged_image(random, geometry),
        };
        before(random, writer, (image.len() / geometry.block()) as u32);
        writer.bring(&image);
        writer.rebuild(if random.once_in(3) { 0 } else { writer.enough() });
        let keys = keys_of(writer);
        look(random, writer, &keys, 8);
        go_on(random, writer, 2);
        if random.once_in(3) {
            writer.lend(3 + random.below(3) as u32);
            writer.rebuild(writer.enough());
            writer.noise(random.next() as u32);
            writer.rebuild(writer.enough());
            writer.check();
        }
    }
}

/// Rebuilds with image and torn lengths that are not right, and lines of 0A that are no frame; nothing changes.
fn odd(random: &mut Random, writer: &mut Writer) {
    let mut keys = Keys::any(random, writer.geometry());
    let (length, torn, block) = (writer.probe().image().len(), writer.geometry().torn, writer.geometry().block());
    for other in [length - 1, length + 1, length + block - 1, 2 * block, 0] {
        writer.lend_bytes(other as u32);
        writer.rebuild(writer.enough());
    }
    writer.lend_bytes(length as u32);
    for other in [torn - 1, torn + 1, 0, 528 + 2112 - torn] {
        writer.lend_torn(other as u32);
        writer.rebuild([0, writer.enough()][random.index(2)]);
    }
    writer.lend_torn(torn as u32);
    for line in ["0A", "0A00", "0A000007D", "0A000007D00", "0A000007D000", "0A000007D0000007D0", "0A000007Dg", "0a000007D0", "0B000007D0"] {
        writer.say(line.as_bytes().to_vec());
    }
    read(random, writer, &mut keys);
    writer.check();
}

/// Some of these, in any order.
pub fn make(random: &mut Random, geometry: Geometry) -> Vec<Vec<u8>> {
    let mut writer = Writer::new(geometry);
    odd(random, &mut writer);
    for _ in 0..2 + random.below(3) {
        match random.below(8) {
            0 => listed(random, &mut writer),
            1 => refused(random, &mut writer),
            2 if random.once_in(3) => {
                let kind = TORN[random.index(TORN.len())];
                cut_all(random, &mut writer, kind);
            }
            _ => {
                let image = stock::image(random, geometry);
                stocked(random, &mut writer, &image);
            }
        }
        if random.once_in(3) && writer.probe().image().len() >= 3 * geometry.block() {
            odd(random, &mut writer);
        }
    }
    writer.check();
    writer.lines()
}
