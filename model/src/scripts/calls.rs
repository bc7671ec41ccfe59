//! Lists of calls on chips of several sizes, with cuts at random operations and torn bytes of several kinds.

use super::blocks;
use super::torn::tear;
use super::wide::Wide;
use super::writer::Writer;
use crate::model::geometry::Geometry;
use crate::random::Random;

/// The sizes of chips, the small ones more often.
const SIZES: [u32; 12] = [3, 3, 3, 3, 4, 4, 5, 8, 8, 16, 31, 32];

/// Which keys a script uses: a range, and those picked from it so far; its updates may be spread over the leaves instead.
pub struct Keys {
    range: u64,
    step: u64,
    used: Vec<u32>,
    wide: Option<Wide>,
}

impl Keys {
    /// Few keys, some, or any. Updates are spread once in two times on the large part, where commits have one page else, and once in
    /// eight on the small one.
    pub fn any(random: &mut Random, geometry: Geometry) -> Keys {
        let (range, step) = [(24, 1), (160, 1), (700, 6_000_000), (1 << 32, 1)][random.index(4)];
        let wide = random.once_in(if geometry == Geometry::LARGE { 2 } else { 8 }).then(Wide::default);
        Keys { range, step, used: vec![0, u32::MAX], wide }
    }

    /// One of several numbers of blocks; where updates are spread over the leaves of a large chip, mostly one with many node numbers.
    pub fn blocks(&self, random: &mut Random, geometry: Geometry, sizes: &[u32]) -> u32 {
        match geometry == Geometry::LARGE && self.wide.is_some() && random.below(4) > 0 {
            true => 5 + random.below(4) as u32,
            false => blocks(random, geometry, sizes),
        }
    }

    /// What a script begins with: where updates are spread, commits that fill leaves.
    pub fn begin(&mut self, random: &mut Random, writer: &mut Writer) {
        if let Some(wide) = &mut self.wide {
            wide.grow(random, writer);
        }
    }

    /// How many updates a commit has: one of the numbers given, or mostly 16 where they are spread.
    pub fn many(&self, random: &mut Random, numbers: &[u32]) -> u32 {
        match self.wide.is_some() && random.below(8) > 0 {
            true => 16,
            false => numbers[random.index(numbers.len())],
        }
    }

    /// Whether a commit with so many updates pending is to wait, so that it has many where they are spread.
    fn waits(&self, random: &mut Random, pending: u32) -> bool {
        self.wide.is_some() && pending < 16 && random.below(8) > 0
    }

    /// One of the range, in one of two cases one that was picked before, seldom the least or the greatest of all.
    pub fn pick(&mut self, random: &mut Random) -> u32 {
        match random.below(60) {
            0..=29 => self.used[random.index(self.used.len())],
            _ => {
                let key = (random.below(self.range) * self.step) as u32;
                self.used.push(key);
                key
            }
        }
    }
}

/// A call that changes nothing: a look up, a show, a block report, a checksum, a forecast.
pub fn read(random: &mut Random, writer: &mut Writer, keys: &mut Keys) {
    let geometry = writer.geometry();
    let blocks = writer.probe().image().len() / geometry.block();
    match random.below(12) {
        0 => writer.show(random.index(blocks * geometry.pages + 2) as u32),
        1 => writer.report(random.index(blocks + 1) as u32),
        2 => {
            writer.check();
            0
        }
        3 => writer.forecast(),
        _ => writer.look_up(keys.pick(random)),
    };
}

/// An insert or a delete.
pub fn update(random: &mut Random, writer: &mut Writer, keys: &mut Keys) -> u32 {
    if let Some(wide) = &mut keys.wide {
        let key = wide.pick(random, writer);
        keys.used.push(key);
        return if random.once_in(20) { writer.delete(key) } else { writer.insert(key, random.next() as u32) };
    }
    let key = keys.pick(random);
    match random.below(7) {
        0 | 1 => writer.delete(key),
        _ => writer.insert(key, random.next() as u32),
    }
}

/// A commit that is cut or has enough power, at times after a forecast, followed by a checksum at times.
fn commit(random: &mut Random, writer: &mut Writer) {
    if random.once_in(4) {
        writer.forecast();
    }
    let allowance = match random.below(4) {
        0 => writer.allowance(random, 4),
        1 => writer.enough(),
        _ => u32::MAX,
    };
    if allowance < writer.enough() && random.once_in(2) {
        tear(random, writer);
    }
    writer.commit(allowance);
    if random.once_in(3) {
        writer.check();
    }
}

/// A mount that is cut or has enough power, at times followed by a checksum or by reports of all blocks.
fn mount(random: &mut Random, writer: &mut Writer) {
    let allowance = match random.below(3) {
        0 => writer.allowance(random, 5),
        1 => 255,
        _ => u32::MAX,
    };
    writer.mount(allowance);
    if random.once_in(4) {
        writer.check();
    }
    if random.once_in(3) {
        writer.reports();
    }
}

/// A format that is cut or has enough power, followed by a checksum and reports of all blocks.
fn format(random: &mut Random, writer: &mut Writer) {
    let allowance = match random.below(2) {
        0 => writer.allowance(random, 0),
        _ => writer.enough(),
    };
    writer.format(allowance);
    writer.check();
    writer.reports();
    if allowance < writer.enough() {
        writer.mount(255);
        writer.format(writer.enough());
    }
}

/// A rebuild that is cut or has enough power, followed by a checksum and at times by reports of all blocks.
fn rebuild(random: &mut Random, writer: &mut Writer) {
    let allowance = if random.once_in(2) { writer.allowance(random, 10) } else { writer.enough() };
    writer.rebuild(allowance);
    writer.check();
    if random.once_in(3) {
        writer.reports();
    }
}

/// One step of a list of calls.
pub fn step(random: &mut Random, writer: &mut Writer, keys: &mut Keys) {
    let pending = writer.probe().state().pending;
    if !writer.is_on() {
        return match random.below(8) {
            0 => read(random, writer, keys),
            1 => drop(update(random, writer, keys)),
            2 => commit(random, writer),
            3 if random.once_in(3) => rebuild(random, writer),
            _ => mount(random, writer),
        };
    }
    match random.below(120) {
        0 => mount(random, writer),
        1 if random.once_in(6) => format(random, writer),
        1 if random.once_in(2) => rebuild(random, writer),
        2..=11 if !keys.waits(random, pending) => commit(random, writer),
        12..=31 => read(random, writer, keys),
        _ if pending >= 16 && random.below(3) > 0 => commit(random, writer),
        _ => drop(update(random, writer, keys)),
    }
}

/// A list of calls from a format on.
pub fn make(random: &mut Random, geometry: Geometry) -> Vec<Vec<u8>> {
    let mut writer = Writer::new(geometry);
    let mut keys = Keys::any(random, geometry);
    writer.lend(keys.blocks(random, geometry, &SIZES));
    writer.format(writer.enough());
    keys.begin(random, &mut writer);
    for _ in 0..100 + random.below(1000) {
        step(random, &mut writer, &mut keys);
    }
    writer.mount(255);
    writer.check();
    writer.lines()
}
