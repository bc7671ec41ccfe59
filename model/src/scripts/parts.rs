//! The same bytes named as small blocks and as large ones: 24 small blocks are as long as 3 large ones, 32 as long as 4.

use super::calls::{read, step, update, Keys};
use super::images::leaf_units;
use super::torn::tear;
use super::writer::Writer;
use crate::model::chip::{USED, VALID};
use crate::model::geometry::Geometry;
use crate::model::unit::page_data;
use crate::random::Random;

const SMALL: Geometry = Geometry::SMALL;
const LARGE: Geometry = Geometry::LARGE;

/// One of the parts.
fn any(random: &mut Random) -> Geometry {
    [SMALL, LARGE][random.index(2)]
}

/// The part that the store has.
fn own(writer: &Writer) -> Geometry {
    if writer.probe().state().geometry.pages == SMALL.pages {
        SMALL
    } else {
        LARGE
    }
}

/// The part that this one is not.
fn other(part: Geometry) -> Geometry {
    if part == SMALL {
        LARGE
    } else {
        SMALL
    }
}

/// Names of no part, and more blocks, image bytes and torn bytes than are lent; nothing changes.
fn refused_frames(random: &mut Random, writer: &mut Writer) {
    for part in [2, 3, 0x10, 255, random.byte().max(2)] {
        writer.say(format!("17{part:02X}").into_bytes());
    }
    let most = writer.probe().most_blocks() as u32;
    for blocks in [most + 1, 41, u32::MAX] {
        writer.lend(blocks);
    }
    writer.lend_bytes(33 * LARGE.block() as u32 + 1);
    writer.lend_torn(2201);
    writer.check();
}

/// Calls that are refused with 1 since the torn bytes are those of the other part than the one named or the store's.
fn refused_calls(random: &mut Random, writer: &mut Writer, keys: &mut Keys) {
    let own = own(writer);
    for (named, torn) in [(other(own), own), (own, other(own)), (other(own), other(own))] {
        writer.name(named);
        writer.lend_torn(torn.torn as u32);
        if named != torn {
            writer.mount(255);
            writer.rebuild(writer.enough());
            writer.format(writer.enough());
        }
        update(random, writer, keys);
        writer.forecast();
        writer.commit([writer.enough(), 0, 5][random.index(3)]);
        read(random, writer, keys);
        writer.report(random.below(33) as u32);
    }
    writer.choose(own);
    writer.check();
}

/// Shows under both names, of pages at the ends of the chip and of any.
fn shows(random: &mut Random, writer: &mut Writer) {
    let named = writer.geometry();
    for part in [SMALL, LARGE] {
        writer.name(part);
        let pages = writer.probe().image().len() / part.page();
        for page in [0, 1, pages - 1, pages, random.index(pages), random.index(pages), random.index(40)] {
            writer.show(page as u32);
        }
    }
    writer.name(named);
}

/// Reads, updates, a forecast and commits after a mount.
fn after_mount(random: &mut Random, writer: &mut Writer, keys: &mut Keys) {
    for _ in 0..random.below(8) {
        read(random, writer, keys);
    }
    for _ in 0..1 + random.below(3) {
        let some = random.below(18) as u32;
        for _ in 0..keys.many(random, &[some]) {
            update(random, writer, keys);
        }
        writer.forecast();
        let allowance = if random.once_in(3) { writer.allowance(random, 4) } else { writer.enough() };
        writer.commit(allowance);
        writer.check();
    }
    writer.reports();
}

/// The chip mounted or rebuilt as the other part, in half of the cases cut first, and then as its own again.
fn crossed(random: &mut Random, writer: &mut Writer, keys: &mut Keys) {
    let own = own(writer);
    for part in [other(own), own] {
        writer.choose(part);
        if random.once_in(2) {
            tear(random, writer);
            let allowance = writer.allowance(random, 5);
            writer.mount(allowance);
            writer.check();
        }
        match random.once_in(4) {
            true => writer.rebuild(writer.enough()),
            false => writer.mount(255),
        };
        writer.check();
        after_mount(random, writer, keys);
    }
}

/// A page of the other part, with a leaf of few entries, put where all bytes are 255: the bytes then have two meanings, unless other pages
/// are live by chance.
fn graft(random: &mut Random, writer: &mut Writer) {
    let (part, mut image) = (other(own(writer)), writer.probe().image().to_vec());
    let free = |place: &usize| image[place * part.page()..][..part.page()].iter().all(|&byte| byte == 255);
    let Some(place) = (0..image.len() / part.page()).rev().step_by(1 + random.index(9)).find(free) else { return };
    let (data, spare) = image[place * part.page()..].split_at_mut(part.data);
    data.copy_from_slice(&page_data(part, 1 + random.below(200) as u32, 0, 1, &leaf_units(random)));
    spare[USED] = 0;
    spare[VALID] = 0;
    writer.upload(&image);
}

/// A format of one of the parts, cut at times.
fn format(random: &mut Random, writer: &mut Writer) {
    let part = any(random);
    writer.choose(part);
    if random.once_in(4) {
        let allowance = writer.allowance(random, 0);
        writer.format(allowance);
        let part = any(random);
        writer.choose(part);
        writer.mount(255);
    }
    writer.format(writer.enough());
    writer.reports();
}

/// One of these, or steps of a list with either part named; where the store is off, with its torn bytes, so that a mount is not refused.
fn act(random: &mut Random, writer: &mut Writer, keys: &mut Keys) {
    match random.below(9) {
        0 => refused_frames(random, writer),
        1 => refused_calls(random, writer, keys),
        2 => shows(random, writer),
        3 | 4 => crossed(random, writer, keys),
        5 => {
            graft(random, writer);
            crossed(random, writer, keys);
        }
        6 => format(random, writer),
        _ => {
            let part = any(random);
            if writer.is_on() {
                writer.name(part);
            } else {
                writer.choose(part);
            }
            for _ in 0..random.below(60) {
                step(random, writer, keys);
            }
        }
    }
}

/// A chip of 3 or 4 large blocks' length, formatted as a part and used as both.
pub fn make(random: &mut Random, geometry: Geometry) -> Vec<Vec<u8>> {
    let mut writer = Writer::new(geometry);
    refused_frames(random, &mut writer);
    for _ in 0..1 + random.below(3) {
        let (part, length) = (any(random), (3 + random.index(2)) * LARGE.block());
        let mut keys = Keys::any(random, part);
        writer.choose(part);
        writer.lend((length / part.block()) as u32);
        writer.format(writer.enough());
        after_mount(random, &mut writer, &mut keys);
        for _ in 0..2 + random.below(6) {
            act(random, &mut writer, &mut keys);
        }
    }
    writer.check();
    writer.lines()
}
