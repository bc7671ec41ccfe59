//! Forecasts at all places: off, at wrong sizes, with nothing to sixteen updates pending, before commits with allowances around the sum,
//! after cuts and mounts, on chips that no format began, at the last commit numbers and on images changed and set back.

use super::calls::{read, update, Keys};
use super::changed::change;
use super::images::{any_image, renumber};
use super::torn::tear;
use super::writer::Writer;
use crate::model::geometry::Geometry;
use crate::random::Random;

/// Forecasts with the image lent at other lengths, and at its own again.
fn sizes(random: &mut Random, writer: &mut Writer) {
    let (len, block) = (writer.probe().image().len(), writer.geometry().block());
    for other in [len - 1, len + 1, len + block, len - block, random.index(33 * block)] {
        writer.lend_bytes(other as u32);
        writer.forecast();
    }
    writer.commit(writer.enough());
    writer.lend_bytes(len as u32);
    writer.forecast();
}

/// Forecasts with torn slices of other lengths, at times with a commit that is refused for it.
fn odd_torn(random: &mut Random, writer: &mut Writer) {
    let torn = writer.geometry().torn;
    for len in [0, 1, torn - 1, torn + 1, torn + 72, random.index(torn)] {
        writer.lend_torn(len as u32);
        writer.forecast();
    }
    if random.once_in(2) {
        writer.commit(writer.enough());
    }
    writer.lend_torn(torn as u32);
    writer.forecast();
}

/// What changes neither state nor image, or sets the image back: reads, other torn bytes, other lengths, a byte changed and set back.
fn quiet(random: &mut Random, writer: &mut Writer, keys: &mut Keys) {
    match random.below(14) {
        0 => sizes(random, writer),
        1 => odd_torn(random, writer),
        2 => tear(random, writer),
        3 => {
            let at = random.index(writer.probe().image().len());
            let byte = writer.probe().image()[at];
            writer.set(at, random.byte());
            writer.forecast();
            writer.set(at, byte);
        }
        4 => drop(writer.delete(1 << 31)),
        _ => read(random, writer, keys),
    }
    writer.forecast();
}

/// An allowance for the pending commit: the sum foretold, one less, more, much less, or any below.
fn allowance(random: &mut Random, writer: &Writer) -> u32 {
    let sum = writer.probe().need(4).total();
    match random.below(12) {
        0 => sum.saturating_sub(1),
        1 => 0,
        2 => random.below(u64::from(sum) + 1) as u32,
        3 => sum + 1,
        4 | 5 => [writer.enough(), u32::MAX][random.index(2)],
        _ => sum,
    }
}

/// A commit, in half of the cases with a forecast right before it, in one of eight with a further one between its refusal and itself.
fn commit(random: &mut Random, writer: &mut Writer) {
    if random.once_in(8) {
        let torn = writer.geometry().torn;
        writer.lend_torn(random.index(torn + 72) as u32);
        writer.commit(writer.enough());
        writer.forecast();
        writer.lend_torn(torn as u32);
    }
    if random.once_in(2) {
        writer.forecast();
    }
    let allowance = allowance(random, writer);
    writer.commit(allowance);
    writer.forecast();
}

/// A store that is off mounted again: cut at times, with forecasts between.
fn mount(random: &mut Random, writer: &mut Writer) {
    if random.once_in(3) {
        let allowance = writer.allowance(random, 5);
        writer.mount(allowance);
        writer.forecast();
    }
    writer.mount(255);
    writer.forecast();
}

/// Updates, up to 16 accepted and more refused, with forecasts between; a commit; a mount where it was cut, and at times else.
fn round(random: &mut Random, writer: &mut Writer, keys: &mut Keys) {
    for _ in 0..keys.many(random, &[0, 1, 1, 2, 3, 8, 18]) {
        update(random, writer, keys);
        if random.once_in(6) {
            writer.forecast();
        }
    }
    for _ in 0..random.below(3) {
        quiet(random, writer, keys);
    }
    commit(random, writer);
    if !writer.is_on() || random.once_in(20) {
        mount(random, writer);
    }
}

/// Rounds without much between the commits, until one has to erase a block, then rounds.
fn worn(random: &mut Random, writer: &mut Writer, keys: &mut Keys) {
    for _ in 0..150 {
        for _ in 0..[1, 1, 16][random.index(3)] {
            update(random, writer, keys);
        }
        if writer.probe().need(4).erases > 0 {
            break;
        }
        writer.commit(writer.enough());
    }
    for _ in 0..10 + random.below(40) {
        round(random, writer, keys);
    }
}

/// A chip that no format began, mounted.
fn foreign(random: &mut Random, writer: &mut Writer, keys: &mut Keys) {
    let image = any_image(random, writer.geometry());
    writer.bring(&image);
    writer.forecast();
    mount(random, writer);
    for _ in 0..4 + random.below(12) {
        round(random, writer, keys);
    }
}

/// The last commit numbers.
fn last(random: &mut Random, writer: &mut Writer, keys: &mut Keys) {
    renumber(writer, u32::MAX - random.below(3) as u32);
    writer.forecast();
    mount(random, writer);
    for _ in 0..4 + random.below(6) {
        round(random, writer, keys);
    }
}

/// Updates pending while the image is changed, with a forecast after each change, and set back at times.
fn changed(random: &mut Random, writer: &mut Writer, keys: &mut Keys) {
    for _ in 0..1 + random.below(6) {
        for _ in 0..1 + random.below(8) {
            update(random, writer, keys);
        }
        let before = writer.probe().image().to_vec();
        writer.forecast();
        for _ in 0..1 + random.below(3) {
            change(random, writer);
            writer.forecast();
        }
        let far = writer.probe().image().iter().zip(&before).filter(|(a, b)| a != b).count() > 2000;
        if !far && random.once_in(2) {
            writer.upload(&before);
        }
        quiet(random, writer, keys);
        commit(random, writer);
        if !writer.is_on() {
            mount(random, writer);
        }
    }
}

/// A list of calls with forecasts, and behind it in three of four cases one of the other chips and images.
pub fn make(random: &mut Random, geometry: Geometry) -> Vec<Vec<u8>> {
    let mut writer = Writer::new(geometry);
    let mut keys = Keys::any(random, geometry);
    writer.forecast();
    writer.lend(keys.blocks(random, geometry, &[3, 3, 3, 4, 5, 8, 32]));
    sizes(random, &mut writer);
    let allowance = writer.allowance(random, 0);
    writer.format(allowance);
    writer.forecast();
    writer.format(writer.enough());
    sizes(random, &mut writer);
    keys.begin(random, &mut writer);
    for _ in 0..random.below(60) {
        round(random, &mut writer, &mut keys);
    }
    match random.below(5) {
        0 | 1 => worn(random, &mut writer, &mut keys),
        2 => foreign(random, &mut writer, &mut keys),
        3 => last(random, &mut writer, &mut keys),
        _ => changed(random, &mut writer, &mut keys),
    }
    writer.forecast();
    writer.check();
    writer.lines()
}
