//! Every call at every size of image and torn slice, on and off.

use super::writer::Writer;
use crate::model::geometry::Geometry;
use crate::random::Random;

/// Every call once, with a power that mostly cuts nothing.
fn all_calls(random: &mut Random, writer: &mut Writer) {
    let key = random.below(40) as u32;
    let mut kinds: Vec<u32> = (0..10).collect();
    random.shuffle(&mut kinds);
    for kind in kinds {
        match kind {
            0 => writer.insert(key, random.next() as u32),
            1 => writer.delete(key),
            2 => writer.look_up(key),
            3 => writer.commit([writer.enough(), 0, 3][random.index(3)]),
            4 => writer.report(random.below(36) as u32),
            5 => writer.show(random.index(43 * writer.geometry().pages + 24) as u32),
            6 => writer.forecast(),
            7 if random.once_in(4) => writer.mount(255),
            8 if random.once_in(6) => writer.format(writer.enough()),
            9 if random.once_in(2) => writer.rebuild([writer.enough(), 0, 3][random.index(3)]),
            _ => 0,
        };
    }
}

/// Lengths of the image around a whole number of blocks, and back.
fn lengths(random: &mut Random, writer: &mut Writer) {
    let (block, most) = (writer.geometry().block(), writer.probe().most_blocks());
    let whole = random.index(most + 1) * block;
    for length in [whole, whole.saturating_sub(1), whole + 1, random.index(most * block)] {
        writer.lend_bytes(length as u32);
        all_calls(random, writer);
    }
    writer.check();
}

/// Lengths of the torn slice, and back to the right one.
fn torn_lengths(random: &mut Random, writer: &mut Writer) {
    let torn = writer.geometry().torn as u32;
    for length in [0, 1, torn - 1, torn + 1, 528, 2112, 2200, 2201, random.below(torn as u64 + 92) as u32, torn] {
        writer.lend_torn(length);
        writer.format(writer.enough());
        writer.mount(255);
        writer.rebuild(writer.enough());
        writer.insert(random.below(20) as u32, 1);
        writer.commit(writer.enough());
        all_calls(random, writer);
        writer.say(format!("13{:08X}11", torn - 1).into_bytes());
        writer.say(format!("13{torn:08X}11").into_bytes());
    }
}

/// Images of 0 to 40 small or 33 large blocks, each with every call.
pub fn make(random: &mut Random, geometry: Geometry) -> Vec<Vec<u8>> {
    let mut writer = Writer::new(geometry);
    all_calls(random, &mut writer);
    writer.format(writer.enough());
    let most = writer.probe().most_blocks() as u32;
    let mut sizes: Vec<u32> = (0..=most + 1).collect();
    random.shuffle(&mut sizes);
    for blocks in sizes.into_iter().take(if geometry == Geometry::LARGE { 6 } else { 14 }) {
        if random.once_in(2) {
            let on = 3 + random.below(3) as u32;
            writer.lend(on);
            writer.format(writer.enough());
            writer.insert(random.below(40) as u32, 5);
        }
        writer.lend(blocks);
        all_calls(random, &mut writer);
        match random.below(3) {
            0 => lengths(random, &mut writer),
            1 => torn_lengths(random, &mut writer),
            _ => {}
        }
        writer.set(random.index(writer.probe().image().len() + 2), random.byte());
        writer.check();
    }
    let longest = 33 * Geometry::LARGE.block() as u32;
    for number in [longest, longest + 1, u32::MAX] {
        writer.lend_bytes(number);
        writer.lend(number);
        writer.lend_torn(number);
        writer.show(number);
        writer.report(number);
    }
    writer.check();
    writer.lines()
}
