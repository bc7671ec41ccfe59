//! The judge against a tiny store on lists with many deletes: right joins pass, each fault in joins, numbers and freed nodes is seen.
mod seen;
#[allow(dead_code)]
mod tiny;

use model::model::foreign;
use model::model::frame::{line, Frame};
use model::model::geometry::Geometry;
use model::model::image::meaning;
use model::model::judge::Judge;
use model::random::Random;
use seen::Seen;
use tiny::{Bug, Tiny};

/// A script under way: the tiny store, the judge, and what was reached.
struct Run {
    geometry: Geometry,
    tiny: Tiny,
    judge: Judge,
    seen: Seen,
    lines: u32,
}

impl Run {
    /// A run from the probe's start on a part.
    fn new(geometry: Geometry, bug: Bug) -> Run {
        Run { geometry, tiny: Tiny::new(geometry, bug), judge: Judge::naming(geometry), seen: Seen::default(), lines: 0 }
    }

    /// One frame; what it reached is taken from the judge's store.
    fn frame(&mut self, frame: Frame) -> Result<String, String> {
        self.lines += 1;
        let text = line(&frame);
        let before = self.judge.store().present.clone();
        let reply = self.tiny.line(text.as_bytes());
        self.judge.line(text.as_bytes(), &reply, self.tiny.image())?;
        let after = &self.judge.store().present;
        match frame {
            Frame::Delete(key) if reply == "00" => self.seen.delete(key, &before, after),
            Frame::Insert(..) if reply == "00" || reply == "05" => {
                let means = meaning(self.geometry, self.tiny.image(), self.judge.store().blocks).ok();
                self.seen.insert(reply == "00", &before, after, means.as_ref());
            }
            Frame::Commit(_) | Frame::Mount(_) => self.seen.written(),
            _ => {}
        }
        Ok(reply)
    }

    /// A commit that is cut at times, and a mount where the store is off.
    fn commit(&mut self, random: &mut Random) -> Result<(), String> {
        let allowance = if random.once_in(3) { random.below(60) as u32 } else { u32::MAX };
        self.frame(Frame::Commit(allowance))?;
        if !self.judge.store().on || random.once_in(20) {
            self.frame(Frame::Mount(255))?;
        }
        Ok(())
    }

    /// One of the keys present, or any.
    fn present(&self, random: &mut Random) -> u32 {
        let leaves = self.judge.store().present.nodes.iter().flatten().filter(|node| node.level == 0);
        let keys: Vec<u32> = leaves.flat_map(|leaf| leaf.entries.iter().map(|entry| entry.0)).collect();
        keys.get(random.index(keys.len())).copied().unwrap_or(random.next() as u32)
    }

    /// So many updates, one in so many of them an insert, with look ups and commits between them.
    fn updates(&mut self, random: &mut Random, count: u32, inserts: u64) -> Result<(), String> {
        for _ in 0..count {
            let key = self.present(random);
            match random.below(8) < inserts {
                true if random.once_in(2) => self.frame(Frame::Insert(key.wrapping_add(1), 1))?,
                true => self.frame(Frame::Insert(random.below(1500) as u32, 1))?,
                false => self.frame(Frame::Delete(key))?,
            };
            let near = self.present(random);
            self.frame(Frame::LookUp(near))?;
            if self.judge.store().pending == 16 || random.once_in(12) {
                self.commit(random)?;
            }
        }
        Ok(())
    }
}

/// A list from a format on: growth, then many deletes, and both in turn.
fn list(run: &mut Run, random: &mut Random) -> Result<(), String> {
    run.frame(Frame::Blocks([3, 3, 4, 5][random.index(4)]))?;
    run.frame(Frame::Format(u32::MAX))?;
    for inserts in [8, 2, 6, 0, 8, 4, 1] {
        let count = if inserts == 8 { 300 } else { 60 } + random.below(240) as u32;
        run.updates(random, count, inserts)?;
    }
    Ok(())
}

/// Updates on an image that no format began: thin, or with freed numbers.
fn foreign_list(run: &mut Run, random: &mut Random) -> Result<(), String> {
    let blocks = 3 + random.index(3);
    let (image, _) = match random.once_in(3) {
        true => foreign::valid_of(random, run.geometry, blocks),
        false => foreign::slim_of(random, run.geometry, blocks),
    };
    run.frame(Frame::Blocks(blocks as u32))?;
    for (at, byte) in image.iter().enumerate().filter(|(_, byte)| **byte != 255) {
        run.frame(Frame::SetImage(at as u32, *byte))?;
    }
    run.frame(Frame::Mount(255))?;
    for inserts in [2, 6, 2] {
        run.updates(random, 12, inserts)?;
        run.frame(Frame::Mount(255))?;
    }
    Ok(())
}

/// A script of both.
fn script(run: &mut Run, random: &mut Random) -> Result<(), String> {
    for _ in 0..4 {
        foreign_list(run, random)?;
    }
    list(run, random)
}

/// A store that is right passes, on both parts, and all is reached.
#[test]
fn right_joins_pass() {
    for (geometry, scripts) in [(Geometry::SMALL, 16), (Geometry::LARGE, 12)] {
        let mut random = Random::new(101);
        let mut run = Run::new(geometry, Bug::None);
        for _ in 0..scripts {
            script(&mut run, &mut random).unwrap();
        }
        println!("{} lines, {}", run.lines, run.seen.told());
        assert!(run.seen.least() > 0);
    }
}

/// Every fault in joins, numbers and freed nodes is seen by the judge.
#[test]
fn each_fault_in_joins_is_seen() {
    for bug in Bug::JOINS {
        let mut random = Random::new(102);
        let mut run = Run::new(Geometry::SMALL, bug);
        let seen = (0..12).find_map(|_| script(&mut run, &mut random).err());
        println!("{bug:?}: after {} lines: {}", run.lines, seen.clone().unwrap_or_default().chars().take(160).collect::<String>());
        assert!(seen.is_some(), "{bug:?} was not seen");
    }
}
