//! The judge against a tiny store that is told parts by frame 17: right answers pass, faults of the store are seen.
use crate::tiny::{Bug, Tiny};
use crate::{BOTH, LARGE, SMALL};
use model::model::frame::{line, Frame};
use model::model::geometry::Geometry;
use model::model::judge::Judge;
use model::random::Random;

/// A script under way: the tiny store and the judge.
struct Run {
    tiny: Tiny,
    judge: Judge,
}

impl Run {
    /// A run from the probe's start.
    fn new(bug: Bug) -> Run {
        Run { tiny: Tiny::new(SMALL, bug), judge: Judge::new() }
    }

    /// Frames.
    fn frames(&mut self, frames: &[Frame]) -> Result<(), String> {
        for frame in frames {
            let text = line(frame);
            let reply = self.tiny.line(text.as_bytes());
            self.judge.line(text.as_bytes(), &reply, self.tiny.image())?;
        }
        Ok(())
    }
}

/// The frame that names a part.
fn name(part: Geometry) -> Frame {
    Frame::Name((part == LARGE) as u8)
}

/// The frame that lends the torn bytes of a part.
fn torn(part: Geometry) -> Frame {
    Frame::TornLength(part.torn as u32)
}

/// Bytes that name no part, and numbers of blocks around the most that are lent.
fn lent(run: &mut Run) -> Result<(), String> {
    for part in [SMALL, LARGE] {
        run.frames(&[name(part), Frame::Blocks(3), Frame::Name(2), Frame::Name(255), Frame::Blocks(2)])?;
        run.frames(&[33, 34, 40, 41].map(Frame::Blocks))?;
    }
    Ok(())
}

/// A store of a part whose calls go on while the other one is named; mounts and a format that name the other.
fn both(run: &mut Run, own: Geometry, other: Geometry) -> Result<(), String> {
    run.frames(&[name(own), Frame::Blocks((BOTH / own.block()) as u32), torn(own), Frame::Format(own.never_cut)])?;
    run.frames(&[Frame::Insert(1, 5), Frame::Commit(own.never_cut), name(other)])?;
    run.frames(&[Frame::LookUp(1), Frame::Insert(2, 6), Frame::Report(1), Frame::Forecast, Frame::Sum])?;
    run.frames(&[Frame::Commit(own.never_cut), Frame::Delete(1), torn(other), Frame::Commit(other.never_cut)])?;
    run.frames(&[torn(SMALL), Frame::Commit(3), torn(own), Frame::Mount(255), Frame::LookUp(2)])?;
    run.frames(&[0, 1, own.pages as u32, own.pages as u32 * 2].map(Frame::Show))?;
    run.frames(&[torn(other), Frame::Mount(255), Frame::LookUp(2), Frame::Insert(1, 1), Frame::Forecast])?;
    run.frames(&[name(own), torn(own), Frame::Mount(255), Frame::LookUp(2), name(other), torn(other)])?;
    run.frames(&[Frame::Format(other.never_cut), Frame::Report(0), Frame::Report(1), Frame::Show(0), Frame::LookUp(1)])
}

/// A chip with a block without a free page, mounted and reported.
fn full_block(run: &mut Run) -> Result<(), String> {
    run.frames(&[name(LARGE), Frame::Blocks(3), torn(LARGE), Frame::Format(LARGE.never_cut)])?;
    let marks = (0..LARGE.pages).map(|page| LARGE.block() + page * LARGE.page() + LARGE.data);
    let set: Vec<Frame> = marks.map(|at| Frame::SetImage(at as u32, 0)).collect();
    run.frames(&set)?;
    run.frames(&[Frame::Mount(255), Frame::Report(0), Frame::Report(1), Frame::Report(2)])
}

/// Inserts and commits on the large part until commits have several pages.
fn growth(run: &mut Run, random: &mut Random) -> Result<(), String> {
    run.frames(&[name(LARGE), Frame::Blocks(12), torn(LARGE), Frame::Format(LARGE.never_cut), name(SMALL)])?;
    for at in 0..720 {
        run.frames(&[Frame::Insert(random.below(5000) as u32, at)])?;
        if at % 16 == 15 {
            run.frames(&[Frame::Commit(LARGE.never_cut)])?;
        }
    }
    Ok(())
}

/// All of it.
fn script(run: &mut Run) -> Result<(), String> {
    lent(run)?;
    both(run, SMALL, LARGE)?;
    both(run, LARGE, SMALL)?;
    full_block(run)?;
    growth(run, &mut Random::new(83))
}

/// Right answers pass.
#[test]
fn right_answers_pass() {
    let mut run = Run::new(Bug::None);
    script(&mut run).unwrap();
    assert!(run.judge.all_fixed());
}

/// Each fault of the store is seen.
#[test]
fn faults_are_seen() {
    for bug in Bug::PARTS {
        let fault = script(&mut Run::new(bug)).err();
        println!("{bug:?}: {}", fault.clone().unwrap_or_default().chars().take(160).collect::<String>());
        assert!(fault.is_some(), "{bug:?}");
    }
}
