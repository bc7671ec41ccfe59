//! The judge against a tiny store on thin chips, rebuilds and lists that go on from them: right answers pass, each fault is seen.
#[allow(dead_code)]
mod tiny;

use model::model::foreign::{self, Free, Stock};
use model::model::frame::{line, Frame};
use model::model::geometry::Geometry;
use model::model::image::meaning;
use model::model::judge::Judge;
use model::random::Random;
use tiny::{Bug, Tiny};

/// A script under way: the tiny store and the judge.
struct Run {
    geometry: Geometry,
    tiny: Tiny,
    judge: Judge,
    lines: u32,
    /// Rebuilds by answer, and mounts that gave 12.
    answers: [u32; 13],
    thin: u32,
}

impl Run {
    /// A run from the probe's start on the small part.
    fn new(bug: Bug) -> Run {
        let geometry = Geometry::SMALL;
        Run { geometry, tiny: Tiny::new(geometry, bug), judge: Judge::new(), lines: 0, answers: [0; 13], thin: 0 }
    }

    /// One frame.
    fn frame(&mut self, frame: Frame) -> Result<String, String> {
        self.lines += 1;
        let text = line(&frame);
        let reply = self.tiny.line(text.as_bytes());
        self.judge.line(text.as_bytes(), &reply, self.tiny.image())?;
        let refusal = usize::from_str_radix(&reply[..2], 16).unwrap_or(0).min(12);
        match frame {
            Frame::Rebuild(_) => self.answers[refusal] += 1,
            Frame::Mount(_) => self.thin += (refusal == 12) as u32,
            _ => {}
        }
        Ok(reply)
    }

    /// A part named, and torn bytes of its length lent.
    fn choose(&mut self, geometry: Geometry) -> Result<(), String> {
        self.geometry = geometry;
        self.frame(Frame::Name((geometry == Geometry::LARGE) as u8))?;
        self.frame(Frame::TornLength(geometry.torn as u32)).map(|_| ())
    }

    /// The bytes of the image lent set, where they differ.
    fn set(&mut self, image: &[u8]) -> Result<(), String> {
        let differ: Vec<usize> = (0..image.len()).filter(|at| self.tiny.image()[*at] != image[*at]).collect();
        for at in differ {
            self.frame(Frame::SetImage(at as u32, image[at]))?;
        }
        Ok(())
    }

    /// The keys of the image's records.
    fn keys(&self) -> Vec<u32> {
        let image = self.tiny.image();
        let means = meaning(self.geometry, image, image.len() / self.geometry.block());
        means.map_or(Vec::new(), |means| means.tree.records().into_iter().map(|record| record.0).collect())
    }

    /// Look ups of some keys, and reports of all blocks.
    fn look(&mut self, keys: &[u32]) -> Result<(), String> {
        for key in keys.iter().take(20).chain(keys.last()).chain(&[0, u32::MAX]) {
            self.frame(Frame::LookUp(*key))?;
        }
        for block in 0..self.tiny.image().len() / self.geometry.block() {
            self.frame(Frame::Report(block as u32))?;
        }
        self.frame(Frame::Forecast).map(|_| ())
    }

    /// Updates near some keys and commits, with look ups and reports behind them.
    fn go_on(&mut self, random: &mut Random, keys: &[u32], commits: u64) -> Result<(), String> {
        for _ in 0..random.below(commits + 1) {
            for _ in 0..1 + random.below(6) {
                let key = keys.get(random.index(keys.len())).copied().unwrap_or(random.below(90) as u32);
                match random.below(3) {
                    0 => self.frame(Frame::Delete(key))?,
                    1 => self.frame(Frame::Insert(key.wrapping_add(1), 1))?,
                    _ => self.frame(Frame::Insert(random.below(300) as u32, 2))?,
                };
            }
            self.frame(Frame::Commit(if random.once_in(4) { random.below(30) as u32 } else { u32::MAX }))?;
            if !self.judge.store().on {
                self.frame(Frame::Mount(255))?;
            }
            self.look(keys)?;
        }
        if random.once_in(2) {
            self.frame(Frame::Insert(random.below(300) as u32, 3))?;
        }
        Ok(())
    }

    /// A torn byte 0, and at times all torn bytes.
    fn tear(&mut self, random: &mut Random) -> Result<(), String> {
        if random.once_in(20) {
            let byte = [0, 255, random.byte()][random.index(3)];
            for at in 0..self.geometry.torn {
                self.frame(Frame::SetTorn(at as u32, byte))?;
            }
        }
        self.frame(Frame::SetTorn(0, [0, 0, 255, 0x5A, 1][random.index(5)])).map(|_| ())
    }
}

/// A chip in stock, thin mostly.
fn stock(random: &mut Random, geometry: Geometry) -> Vec<u8> {
    let blocks = [3, 3, 3, 4, 5, 8, 9, 10][random.index(8)];
    let level = 1 + random.below(3) as u32;
    let tree = match random.once_in(5) {
        true => foreign::valid_of(random, geometry, blocks).1,
        false => foreign::thin_tree(random, blocks, level),
    };
    let free = [Free::Enough, Free::Enough, Free::More, Free::OneFewer][random.index(4)];
    let number = [None, None, None, Some(u32::MAX), Some(u32::MAX - 1)][random.index(5)];
    foreign::stock(random, geometry, blocks, &tree, Stock { free, number })
}

/// A chip in stock while the store is on or off: mounted, rebuilt with cuts and again, and used on.
fn stocked(run: &mut Run, random: &mut Random) -> Result<(), String> {
    let image = stock(random, run.geometry);
    let blocks = (image.len() / run.geometry.block()) as u32;
    if random.once_in(2) {
        run.frame(Frame::Blocks(blocks))?;
        run.frame(Frame::Format(u32::MAX))?;
        run.go_on(random, &[], 3)?;
    }
    if random.once_in(6) {
        run.choose([Geometry::SMALL, Geometry::LARGE][random.index(2)])?;
        return stocked(run, random);
    }
    run.frame(Frame::Blocks(blocks))?;
    run.set(&image)?;
    let keys = run.keys();
    if random.below(3) > 0 {
        run.frame(Frame::Mount([0, 255][random.index(2)]))?;
        run.look(&keys)?;
    }
    for _ in 0..random.below(8) {
        run.tear(random)?;
        let most = [8, 60][random.index(2)];
        run.frame(Frame::Rebuild(random.below(most) as u32))?;
        run.frame(Frame::LookUp(7))?;
        if random.once_in(2) {
            run.frame(Frame::Mount(255))?;
            run.look(&keys)?;
        }
        run.set(&image)?;
    }
    for _ in 0..2 {
        run.frame(Frame::Rebuild(run.geometry.never_cut))?;
        run.look(&keys)?;
        run.go_on(random, &keys, 3)?;
    }
    Ok(())
}

/// A damaged chip and one of noise, rebuilt while the store is on or off.
fn damaged(run: &mut Run, random: &mut Random) -> Result<(), String> {
    let image = foreign::damaged(random, run.geometry, 3).image;
    run.frame(Frame::Blocks(3))?;
    run.frame(Frame::Format(u32::MAX))?;
    run.frame(Frame::Rebuild(run.geometry.never_cut))?;
    run.set(&image)?;
    run.frame(Frame::Rebuild(run.geometry.never_cut))?;
    run.frame(Frame::LookUp(7))?;
    run.frame(Frame::Noise(random.next() as u32))?;
    run.frame(Frame::Rebuild(0))?;
    run.frame(Frame::TornLength(5))?;
    run.frame(Frame::Rebuild(0))?;
    run.frame(Frame::TornLength(run.geometry.torn as u32)).map(|_| ())
}

/// A list with erases and rebuilds between them.
fn listed(run: &mut Run, random: &mut Random) -> Result<(), String> {
    run.frame(Frame::Blocks(4 + random.below(4) as u32))?;
    run.frame(Frame::Format(u32::MAX))?;
    for _ in 0..3 {
        let keys = run.keys();
        run.go_on(random, &keys, 12)?;
        run.tear(random)?;
        run.frame(Frame::Rebuild(if random.once_in(3) { random.below(9) as u32 } else { u32::MAX }))?;
        run.look(&keys)?;
        if !run.judge.store().on {
            run.frame(Frame::Mount(255))?;
        }
    }
    Ok(())
}

/// A script of all.
fn script(run: &mut Run, random: &mut Random) -> Result<(), String> {
    for _ in 0..3 {
        stocked(run, random)?;
    }
    listed(run, random)?;
    damaged(run, random)
}

/// A store that is right passes, and each answer is met.
#[test]
fn right_rebuilds_pass() {
    let mut random = Random::new(201);
    let mut run = Run::new(Bug::None);
    for _ in 0..40 {
        script(&mut run, &mut random).unwrap();
    }
    println!("{} lines, rebuilds by answer {:?}, {} thin", run.lines, run.answers, run.thin);
    assert!([0, 1, 5, 6, 7, 8, 9, 10].iter().all(|answer| run.answers[*answer] > 0));
    assert!(run.answers[2] + run.answers[3] + run.answers[4] + run.answers[11] + run.answers[12] == 0 && run.thin > 50);
}

/// Every fault in mounts of thin trees and in rebuilds is seen by the judge.
#[test]
fn each_fault_in_rebuilds_is_seen() {
    for bug in Bug::REBUILDS {
        let mut random = Random::new(202);
        let mut run = Run::new(bug);
        let seen = (0..40).find_map(|_| script(&mut run, &mut random).err());
        println!("{bug:?}: after {} lines: {}", run.lines, seen.clone().unwrap_or_default().chars().take(160).collect::<String>());
        assert!(seen.is_some(), "{bug:?} was not seen");
    }
}
