//! A store that is on while its image is changed: at single bytes, at whole pages, throughout, and at times set back.

use super::blocks;
use super::calls::{read, update, Keys};
use super::torn::tear;
use super::writer::Writer;
use crate::model::geometry::Geometry;
use crate::model::unit::{half, HEAD, UNIT};
use crate::random::Random;

/// A page of a node's list: that of node 0 in one of three cases, else of any number that has one; none where there is none.
fn listed(random: &mut Random, writer: &Writer) -> Option<(u32, usize)> {
    let state = writer.probe().state();
    let numbers: Vec<u32> = state.listed().collect();
    let node = if random.once_in(3) { 0 } else { *numbers.get(random.index(numbers.len()))? };
    let list = state.list(node);
    let place = *list.get(random.index(list.len()))? as usize;
    let page = writer.geometry().page();
    (place * page + page <= writer.probe().image().len()).then_some((node, place * page))
}

/// The offset of a unit of a node on the page at an offset, often its first; any unit's where the node has none there.
fn unit_of(random: &mut Random, writer: &Writer, node: u32, page: usize) -> usize {
    let (room, image) = (writer.geometry().room, writer.probe().image());
    let count = (half(image, page + 6) as usize).min(room);
    let own: Vec<usize> = (0..count).map(|i| page + HEAD + UNIT * i).filter(|&at| u32::from(half(image, at + 2)) == node).collect();
    match own.first() {
        None => page + HEAD + UNIT * random.index(room),
        Some(&first) if random.once_in(3) => first,
        Some(_) => own[random.index(own.len())],
    }
}

/// A number for the place of a child's: of a node, of none, too great for a unit, or 0.
fn child(random: &mut Random) -> u32 {
    match random.below(6) {
        0 => 0,
        1 => random.below(256) as u32,
        2 => 256 + random.below(65536 - 256) as u32,
        3 => 65536 + random.below(9) as u32,
        4 => random.next() as u32,
        _ => random.below(24) as u32,
    }
}

/// New bytes for a part of a unit: its kind, node, key or value, or a reset with a level.
fn wound_unit(random: &mut Random, writer: &mut Writer, at: usize) {
    let reset = writer.probe().image()[at] == 3;
    let (offset, bytes) = match random.below(10) {
        0 => (0, vec![random.below(5) as u8]),
        1 => (1, vec![random.below(2) as u8]),
        2 => (2, (random.below(40) as u16).to_le_bytes().to_vec()),
        3 => (4, (random.next() as u32).to_le_bytes().to_vec()),
        4 => (4, vec![0; 4]),
        _ if reset => (8, vec![[0, 1, 2, 3, 4, 255][random.index(6)]]),
        5 => (0, [[3, 0].as_slice(), &writer.probe().image()[at + 2..at + 4], &[0; 4], &[random.below(4) as u8, 0, 0, 0]].concat()),
        _ => (8, child(random).to_le_bytes().to_vec()),
    };
    for (i, byte) in bytes.into_iter().enumerate() {
        if writer.probe().image()[at + offset + i] != byte {
            writer.set(at + offset + i, byte);
        }
    }
}

/// A page made blank.
fn blank(writer: &mut Writer, page: usize) {
    let mut image = writer.probe().image().to_vec();
    image[page..page + writer.geometry().page()].fill(255);
    writer.upload(&image);
}

/// The image changed, while the state stays as it is.
pub fn change(random: &mut Random, writer: &mut Writer) {
    let geometry = writer.geometry();
    let any = random.index(writer.probe().image().len());
    let Some((node, page)) = listed(random, writer) else { return };
    match random.below(24) {
        0 => drop(writer.noise(random.next() as u32)),
        1 => drop(writer.lend(writer.probe().state().blocks as u32)),
        2..=5 => blank(writer, page),
        6 => writer.set(page + 6, random.index(geometry.room + 8) as u8),
        7 => writer.set(page + random.index(8), random.byte()),
        8 => writer.set(page + geometry.data + random.index(4), [0, 255, 1][random.index(3)]),
        9 => writer.set(any, random.byte()),
        10 => writer.set(page + random.index(geometry.page()), random.byte()),
        _ => {
            let at = unit_of(random, writer, node, page);
            wound_unit(random, writer, at);
        }
    }
}

/// A commit with enough power or, in one of three cases, any; in half of the cases after a forecast.
fn commit(random: &mut Random, writer: &mut Writer) {
    if random.once_in(2) {
        writer.forecast();
    }
    let allowance = if random.once_in(3) { writer.allowance(random, 4) } else { writer.enough() };
    writer.commit(allowance);
    writer.check();
}

/// Calls on a state that is on while its image is another one, at times set back to what it was. In half of the cases most inserts go to
/// one leaf, which splits.
fn go_on(random: &mut Random, writer: &mut Writer, keys: &mut Keys) {
    let before = writer.probe().image().to_vec();
    for _ in 0..1 + random.below(4) {
        change(random, writer);
    }
    let crowd = random.once_in(2).then(|| keys.pick(random));
    for _ in 0..random.below(50) {
        match (random.below(12), crowd) {
            (0..=2, _) => read(random, writer, keys),
            (3, _) => commit(random, writer),
            (4, _) if random.once_in(3) => change(random, writer),
            (5..=10, Some(key)) => drop(writer.insert(key.wrapping_add(random.below(30) as u32), random.next() as u32)),
            _ => drop(update(random, writer, keys)),
        }
    }
    if random.once_in(2) && !is_far(writer, &before) {
        writer.upload(&before);
    }
    writer.check();
    for _ in 0..8 {
        read(random, writer, keys);
    }
    commit(random, writer);
    if random.once_in(4) {
        writer.rebuild(writer.enough());
        writer.check();
        read(random, writer, keys);
    }
}

/// Whether setting the image back takes too many lines.
fn is_far(writer: &Writer, before: &[u8]) -> bool {
    let image = writer.probe().image();
    image.len() != before.len() || image.iter().zip(before).filter(|(a, b)| a != b).count() > 2000
}

/// Updates and commits, up to a number of updates or, behind half of them, to where the next commit erases a block or has 3 pages.
fn grow(random: &mut Random, writer: &mut Writer, keys: &mut Keys) {
    keys.begin(random, writer);
    let updates = 20 + random.below(300);
    let early = random.once_in(2);
    for n in 0..updates {
        update(random, writer, keys);
        if early && n > updates / 2 && random.once_in(2) {
            let need = writer.probe().need(4);
            if need.programs >= 3 || need.erases > 0 {
                return;
            }
        }
        if writer.probe().state().pending == 16 || random.once_in(4) {
            writer.commit(writer.enough());
        }
    }
}

/// A store with a tree of several nodes whose image is changed while it is on.
pub fn make(random: &mut Random, geometry: Geometry) -> Vec<Vec<u8>> {
    let mut writer = Writer::new(geometry);
    writer.lend(blocks(random, geometry, &[3, 3, 3, 3, 4, 5, 8, 32]));
    for _ in 0..3 {
        let mut keys = Keys::any(random, geometry);
        writer.format(writer.enough());
        grow(random, &mut writer, &mut keys);
        if random.once_in(4) {
            tear(random, &mut writer);
        }
        if writer.probe().image().len() >= 3 * geometry.block() {
            go_on(random, &mut writer, &mut keys);
        }
        writer.mount(255);
        writer.check();
    }
    writer.lines()
}
