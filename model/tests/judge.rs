//! The judge against a tiny store: right answers pass, each fault of the store is seen.
mod lists;
#[allow(dead_code)]
mod tiny;

use model::model::counts::Counts;
use model::model::foreign;
use model::model::frame::{line, Frame};
use model::model::geometry::Geometry;
use model::model::judge::Judge;
use model::random::Random;
use std::collections::BTreeMap;
use std::time::{Duration, Instant};
use tiny::{Bug, Tiny};

/// The part of these tests.
const SMALL: Geometry = Geometry::SMALL;
/// Bytes of its blocks.
const BLOCK: usize = SMALL.block();
/// Bytes of its pages.
const PAGE: usize = SMALL.page();
/// Pages of its blocks.
const PAGES: usize = SMALL.pages;
/// Data bytes of its pages.
const DATA: usize = SMALL.data;
/// Format of 3 blocks finished: a data program, 2 marks set, 3 erases.
const FORMATTED: &str = "00000000010000000200000003";
/// Finished without an operation.
const NOTHING_DONE: &str = "00000000000000000000000000";
/// Refused with 1.
const WRONG_SIZE: &str = "01000000000000000000000000";
/// Cut with an allowance of 0.
const CUT_AT_ONCE: &str = "0A000000000000000000000000";

/// A script under way: the tiny store and the judge.
struct Run {
    tiny: Tiny,
    judge: Judge,
    lines: u64,
    /// Time in the judge and lines, by kind of frame.
    spent: BTreeMap<String, (Duration, u32)>,
}

impl Run {
    /// A run from the probe's start.
    fn new(bug: Bug) -> Run {
        Run { tiny: Tiny::new(SMALL, bug), judge: Judge::new(), lines: 0, spent: BTreeMap::new() }
    }

    /// One line of bytes.
    fn text(&mut self, text: &[u8]) -> Result<String, String> {
        self.lines += 1;
        let reply = self.tiny.line(text);
        let start = Instant::now();
        self.judge.line(text, &reply, self.tiny.image())?;
        let kind = String::from_utf8_lossy(text.get(..2).unwrap_or(b"")).into_owned();
        let spent = self.spent.entry(kind).or_default();
        *spent = (spent.0 + start.elapsed(), spent.1 + 1);
        Ok(reply)
    }

    /// One frame.
    fn frame(&mut self, frame: Frame) -> Result<String, String> {
        self.text(line(&frame).as_bytes())
    }

    /// Lends an image of blocks and sets its bytes.
    fn set(&mut self, image: &[u8]) -> Result<(), String> {
        self.frame(Frame::Blocks((image.len() / BLOCK) as u32))?;
        for (at, byte) in image.iter().enumerate().filter(|(_, byte)| **byte != 255) {
            self.frame(Frame::SetImage(at as u32, *byte))?;
        }
        Ok(())
    }
}

/// An allowance: enough, or small.
fn allowance(random: &mut Random) -> u32 {
    match random.below(5) {
        0 => random.below(8) as u32,
        1 => random.below(60) as u32,
        2 => 2000,
        3 => 5000,
        _ => u32::MAX,
    }
}

/// A call with random numbers.
fn call(random: &mut Random) -> Frame {
    let key = if random.once_in(20) { random.next() as u32 } else { random.below(400) as u32 };
    match random.below(40) {
        0 => Frame::Mount(allowance(random)),
        1 => Frame::Mount(255),
        2..=4 => Frame::Commit(allowance(random)),
        5..=8 => Frame::Delete(key),
        9..=20 => Frame::LookUp(key),
        21 => Frame::Report(random.below(5) as u32),
        22 => Frame::Show(random.below(100) as u32),
        23 if random.once_in(60) => Frame::Format(random.below(12) as u32),
        24 if random.once_in(30) => Frame::Format(2000),
        25 => Frame::Sum,
        26 => Frame::Forecast,
        _ => Frame::Insert(key, random.next() as u32),
    }
}

/// A frame that changes what is lent.
fn outside(random: &mut Random) -> Frame {
    match random.below(12) {
        0 => Frame::Blocks(random.below(42) as u32),
        1 => Frame::Length((3 * BLOCK) as u32),
        2 => Frame::Length(random.below(700000) as u32),
        3 => Frame::TornLength(random.below(610) as u32),
        4 | 5 => Frame::TornLength(528),
        6 => Frame::SetTorn(random.below(530) as u32, random.byte()),
        7 => Frame::SetTorn(0, 0),
        8 => Frame::Noise(random.next() as u32),
        9 => Frame::Blocks(3),
        _ => Frame::SetImage(random.below(51000) as u32, random.byte()),
    }
}

/// Inserts and commits until the tree is almost full of nodes, then look ups and calls.
fn growth(run: &mut Run, random: &mut Random) -> Result<(), String> {
    run.frame(Frame::Blocks(3))?;
    run.frame(Frame::Format(2000))?;
    let step = [1, 7, 1 << 20][random.index(3)];
    for at in 0..300 {
        run.frame(Frame::Insert(at * step, at))?;
        if at % 16 == 15 || random.once_in(8) {
            run.frame(Frame::Commit(2000))?;
            run.frame(Frame::LookUp(random.below(at as u64 + 2) as u32 * step))?;
        }
    }
    for _ in 0..100 {
        run.frame(Frame::LookUp(random.below(310) as u32 * step))?;
        run.frame(Frame::Insert(random.below(310) as u32 * step, 1))?;
        run.frame(Frame::Commit(random.below(60) as u32))?;
        run.frame(Frame::Mount(random.below(5) as u32))?;
        run.frame(Frame::Mount(255))?;
    }
    Ok(())
}

/// A commit refused for the torn length, and the report of a block.
fn refused_commit(run: &mut Run) -> Result<(), String> {
    run.frame(Frame::TornLength(527))?;
    run.frame(Frame::Commit(2000))?;
    run.frame(Frame::Report(0))?;
    run.frame(Frame::TornLength(528)).map(|_| ())
}

/// A forecast at each place up to the commit that it tells of: after an update, with another torn length, before the commit with
/// allowances around the sum, and after it.
fn foretold(run: &mut Run, random: &mut Random) -> Result<(), String> {
    run.frame(Frame::Insert(random.below(400) as u32, 9))?;
    run.frame(Frame::TornLength(random.below(600) as u32))?;
    run.frame(Frame::Forecast)?;
    run.frame(Frame::TornLength(528))?;
    run.frame(Frame::LookUp(random.below(400) as u32))?;
    let reply = run.frame(Frame::Forecast)?;
    let sum = Counts::read(&reply.as_bytes()[2..]).map_or(0, |counts| counts.sum()) as u32;
    let allowances = [sum, sum, sum.saturating_sub(1), sum + 1, 2000, random.below(sum as u64 + 1) as u32];
    run.frame(Frame::Commit(allowances[random.index(6)]))?;
    run.frame(Frame::Forecast).map(|_| ())
}

/// A script of a list of calls with few frames that change what is lent.
fn script(run: &mut Run, random: &mut Random, lines: u64) -> Result<(), String> {
    run.frame(Frame::Format(2000))?;
    if random.once_in(3) {
        growth(run, random)?;
    }
    for _ in 0..lines {
        if random.once_in(400) {
            run.frame(Frame::Insert(5, 5))?;
            run.frame(Frame::Commit(random.below(2) as u32 * 2000))?;
            refused_commit(run)?;
            run.frame(Frame::Forecast)?;
            for _ in 0..random.below(4) {
                run.frame(outside(random))?;
            }
            for _ in 0..8 {
                run.frame(call(random))?;
            }
            run.frame(Frame::TornLength(528))?;
            run.frame(Frame::Blocks(3 + random.below(4) as u32))?;
            run.frame(Frame::Format(2000))?;
        }
        if random.once_in(50) {
            foretold(run, random)?;
        }
        if random.once_in(300) {
            run.text([&b""[..], b"0", b"0G", b"0300000007 ", b"99", b"15FF", b"0a"][random.index(7)])?;
        }
        let reply = run.frame(call(random))?;
        if reply.starts_with("02") && random.once_in(3) {
            run.frame(Frame::Mount(255))?;
        }
    }
    Ok(())
}

/// A store that is right passes; prints the time in the judge by kind of frame.
#[test]
fn right_answers_pass() {
    let mut random = Random::new(11);
    let mut run = Run::new(Bug::None);
    for _ in 0..20 {
        script(&mut run, &mut random, 3000).unwrap();
    }
    let total: Duration = run.spent.values().map(|spent| spent.0).sum();
    println!("{} lines, {total:?} in the judge", run.lines);
    for (kind, (time, lines)) in &run.spent {
        println!("frame {kind}: {lines} lines, {:?} each", *time / *lines);
    }
}

/// Sets all torn bytes: to 255, to 0, at random or to 5A; then the first of them.
fn set_torn(run: &mut Run, random: &mut Random, kind: u64) -> Result<(), String> {
    for at in 0..528 {
        let byte = [255, 0, random.byte(), 0x5A][kind as usize % 4];
        run.frame(Frame::SetTorn(at, byte))?;
    }
    run.frame(Frame::SetTorn(0, [0, 255, 1, 0x5A][random.index(4)])).map(|_| ())
}

/// A store that is right passes with torn bytes that make torn operations look whole or not show.
#[test]
fn right_answers_pass_with_other_torn_bytes() {
    let mut random = Random::new(14);
    let mut run = Run::new(Bug::None);
    for kind in 0..16 {
        run.frame(Frame::TornLength(528)).unwrap();
        run.frame(Frame::Blocks(3)).unwrap();
        set_torn(&mut run, &mut random, kind).unwrap();
        script(&mut run, &mut random, 2000).unwrap();
    }
}

/// Every fault of the tiny store is seen by the judge.
#[test]
fn each_fault_is_seen() {
    for bug in Bug::FAULTS {
        let mut random = Random::new(12);
        let mut run = Run::new(bug);
        let seen = (0..20).find_map(|_| script(&mut run, &mut random, 2000).err());
        println!("{bug:?}: after {} lines: {}", run.lines, seen.clone().unwrap_or_default().chars().take(160).collect::<String>());
        assert!(seen.is_some(), "{bug:?} was not seen");
    }
}

/// An image that no format began: valid, damaged or with a full path, and a key to insert.
fn foreign_image(random: &mut Random, round: usize) -> (Vec<u8>, u32) {
    let blocks = if round % 30 == 29 { 32 } else { 3 + random.index(4) };
    match round % 3 {
        0 => (foreign::damaged(random, SMALL, blocks).image, 7),
        1 => (foreign::valid(random, SMALL, blocks), 7),
        _ => foreign::full_path(random, SMALL, blocks),
    }
}

/// Chips that no format began, valid, damaged and with full paths, pass.
#[test]
fn foreign_chips_pass() {
    let mut random = Random::new(13);
    let mut run = Run::new(Bug::None);
    for round in 0..60 {
        let (image, key) = foreign_image(&mut random, round);
        run.set(&image).unwrap();
        run.frame(Frame::Mount(allowance(&mut random))).unwrap();
        run.frame(Frame::Mount(255)).unwrap();
        run.frame(Frame::Insert(key, 1)).unwrap();
        for page in 0..100 {
            run.frame(Frame::Show(page)).unwrap();
        }
        for _ in 0..200 {
            run.frame(call(&mut random)).unwrap();
        }
    }
    println!("{} lines", run.lines);
}

/// The replies of a script must be these.
fn replies(run: &mut Run, lines: &[(&str, &str)]) {
    for (text, reply) in lines {
        assert_eq!(run.text(text.as_bytes()).unwrap(), *reply, "{text}");
    }
}

/// An image set back to what the last call left fixes the answers again.
#[test]
fn image_set_back_is_fixed_again() {
    let mut run = Run::new(Bug::None);
    replies(&mut run, &[("00000007D0", FORMATTED), ("010000000700000063", "00"), ("0300000007", "000000006301")]);
    assert!(run.judge.all_fixed());
    run.frame(Frame::SetImage(40000, 1)).unwrap();
    assert!(!run.judge.all_fixed());
    let mut judge_accepts = |reply: &str| run.judge.line(b"0300000007", reply, run.tiny.image()).is_ok();
    assert!(judge_accepts("000000006401") && judge_accepts("0400") && !judge_accepts("05") && !judge_accepts("00"));
    run.frame(Frame::SetImage(40000, 255)).unwrap();
    assert!(run.judge.line(b"0300000007", "000000006401", run.tiny.image()).is_err());
    assert!(run.judge.all_fixed());
    run.frame(Frame::Length(PAGE as u32)).unwrap();
    replies(&mut run, &[("0300000007", "01"), ("0400000007", WRONG_SIZE), ("0500000007", WRONG_SIZE)]);
    run.frame(Frame::Length(3 * BLOCK as u32)).unwrap();
    assert!(run.judge.all_fixed());
    replies(&mut run, &[("0300000007", "000000006301"), ("0400000000", CUT_AT_ONCE), ("0300000007", "02")]);
    replies(&mut run, &[("05000000FF", NOTHING_DONE), ("0300000007", "0401")]);
}

/// An update accepted on a changed image leaves a state that only mount or format fixes.
#[test]
fn open_update_leaves_a_state_that_is_open() {
    let mut run = Run::new(Bug::None);
    replies(&mut run, &[("00000007D0", FORMATTED), ("12000000FF01", "00"), ("010000000700000063", "00"), ("12000000FFFF", "00")]);
    assert!(!run.judge.all_fixed());
    assert!(run.judge.line(b"0300000007", "000000009901", run.tiny.image()).is_ok());
    replies(&mut run, &[("05000000FF", NOTHING_DONE)]);
    assert!(run.judge.all_fixed());
    assert!(run.judge.line(b"0300000007", "000000009901", run.tiny.image()).is_err());
}
