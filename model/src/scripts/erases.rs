//! Commits that erase the blocks of small chips again and again, with mounts, formats, cuts and refused calls between them.

use super::calls::{update, Keys};
use super::torn::tear;
use super::writer::Writer;
use crate::model::geometry::Geometry;
use crate::random::Random;

/// A commit that is cut, in half of the cases with other torn bytes, and a mount after it.
fn cut(random: &mut Random, writer: &mut Writer) {
    if random.once_in(2) {
        tear(random, writer);
    }
    let allowance = writer.allowance(random, 4);
    writer.commit(allowance);
    writer.reports();
    writer.mount(255);
    writer.reports();
}

/// A format, a commit and a mount that are refused since the image lent is too long; the store stays on, and the figures stay.
pub fn refused(writer: &mut Writer) {
    let len = writer.probe().image().len();
    writer.lend_bytes((len + writer.geometry().block()) as u32 - 1);
    writer.format(writer.enough());
    writer.commit(writer.enough());
    writer.mount(255);
    writer.report(0);
    writer.lend_bytes(len as u32);
    writer.reports();
}

/// A call that starts the figures anew: a cut commit with its mount, a mount, or a format.
fn restart(random: &mut Random, writer: &mut Writer) {
    match random.below(3) {
        0 => return cut(random, writer),
        1 => writer.mount(255),
        _ => writer.format(writer.enough()),
    };
    writer.reports();
}

/// What stands before a commit: mostly nothing; the figures are started anew the more often the more erases are on record, a commit that
/// would erase a block is cut at times.
fn between(random: &mut Random, writer: &mut Writer) {
    let worn = writer.probe().state().erases.iter().sum::<u64>() > random.below(10);
    match random.below(120) {
        0..=2 => drop(writer.report(random.below(7) as u32)),
        3 => refused(writer),
        4..=6 if worn => restart(random, writer),
        7..=22 if worn && writer.probe().need(4).erases > 0 => cut(random, writer),
        _ => {}
    }
}

/// Commits of few updates each; the figures of the blocks are asked for whenever one has changed.
pub fn make(random: &mut Random, geometry: Geometry) -> Vec<Vec<u8>> {
    let mut writer = Writer::new(geometry);
    let mut keys = Keys::any(random, geometry);
    writer.lend([3, 3, 3, 3, 4, 5][random.index(6)]);
    writer.format(writer.enough());
    writer.reports();
    keys.begin(random, &mut writer);
    for _ in 0..300 + random.below(600) {
        for _ in 0..keys.many(random, &[1, 1, 1, 1, 2, 8]) {
            update(random, &mut writer, &mut keys);
        }
        between(random, &mut writer);
        writer.commit(writer.enough());
    }
    writer.reports();
    writer.check();
    writer.lines()
}
