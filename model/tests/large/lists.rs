//! The judge against a tiny store on the large part: right answers pass, faults of the store are seen.
use crate::tiny::{Bug, Tiny};
use crate::{BOTH, LARGE, SMALL};
use model::model::counts::Counts;
use model::model::frame::{line, Frame};
use model::model::judge::Judge;
use model::random::Random;

/// A script under way: the tiny store and the judge.
struct Run {
    tiny: Tiny,
    judge: Judge,
}

impl Run {
    /// A run from the probe's start.
    fn new(bug: Bug) -> Run {
        Run { tiny: Tiny::new(LARGE, bug), judge: Judge::naming(LARGE) }
    }

    /// One line of bytes.
    fn text(&mut self, text: &[u8]) -> Result<String, String> {
        let reply = self.tiny.line(text);
        self.judge.line(text, &reply, self.tiny.image())?;
        Ok(reply)
    }

    /// One frame.
    fn frame(&mut self, frame: Frame) -> Result<String, String> {
        self.text(line(&frame).as_bytes())
    }
}

/// An allowance: small, at the bound of 4,000, or above.
fn allowance(random: &mut Random) -> u32 {
    match random.below(4) {
        0 => random.below(8) as u32,
        1 => random.below(30) as u32,
        2 => LARGE.never_cut,
        _ => u32::MAX,
    }
}

/// A call with random numbers.
fn call(random: &mut Random) -> Frame {
    let key = random.below(120) as u32;
    match random.below(30) {
        0 => Frame::Mount(allowance(random)),
        1..=3 => Frame::Commit(allowance(random)),
        4..=6 => Frame::Delete(key),
        7..=10 => Frame::LookUp(key),
        11 => Frame::Report(random.below(5) as u32),
        12 => Frame::Show(random.below(200) as u32),
        13 if random.once_in(12) => Frame::Format(random.below(8) as u32),
        14 => Frame::Forecast,
        _ => Frame::Insert(key, random.next() as u32),
    }
}

/// A list from a format on, with cuts and mounts; a store that is off is mounted.
fn list(run: &mut Run, random: &mut Random, calls: usize) -> Result<(), String> {
    run.frame(Frame::Blocks(3))?;
    run.frame(Frame::Format(LARGE.never_cut))?;
    for _ in 0..calls {
        let frame = call(random);
        let reply = run.frame(frame)?;
        if matches!(frame, Frame::Format(_)) {
            run.frame(Frame::Format(LARGE.never_cut))?;
        } else if reply.starts_with("02") || reply.starts_with("0A") {
            run.frame(Frame::Mount(255))?;
        }
    }
    for block in 0..3 {
        run.frame(Frame::Report(block))?;
    }
    Ok(())
}

/// A commit as foretold, inserts and commits until commits have six pages, then forecasts, cut commits, cut mounts and shows.
fn growth(run: &mut Run, random: &mut Random) -> Result<(), String> {
    run.frame(Frame::Blocks(12))?;
    run.frame(Frame::Format(LARGE.never_cut))?;
    run.frame(Frame::Insert(1, 1))?;
    let sum = foretold(&run.frame(Frame::Forecast)?);
    run.frame(Frame::Commit(sum))?;
    for at in 0..720 {
        run.frame(Frame::Insert(at * 7, at))?;
        if at % 16 == 15 {
            run.frame(Frame::Commit(LARGE.never_cut))?;
        }
    }
    for round in 0..16 {
        run.frame(Frame::Insert(random.below(5000) as u32, 1))?;
        run.frame(Frame::Forecast)?;
        let sum = foretold(&run.frame(Frame::Forecast)?);
        run.frame(Frame::Commit([sum, sum.saturating_sub(1), 8, random.below(sum as u64) as u32][round % 4]))?;
        run.frame(Frame::Mount(random.below(3) as u32))?;
        run.frame(Frame::Mount(255))?;
        for block in 0..12 {
            run.frame(Frame::Show(LARGE.pages as u32 * block + random.below(3) as u32))?;
        }
    }
    Ok(())
}

/// The sum of the counts of a forecast's reply.
fn foretold(reply: &str) -> u32 {
    Counts::read(&reply.as_bytes()[2..]).map_or(0, |counts| counts.sum() as u32)
}

/// Calls at wrong lengths of image and torn slice, off and on; sums, a line that is no frame, noise.
fn lent(run: &mut Run) -> Result<(), String> {
    for on in [false, true] {
        run.frame(Frame::Blocks(3))?;
        if on {
            run.frame(Frame::Format(LARGE.never_cut))?;
        }
        for (image, torn) in [(BOTH - 1, LARGE.torn), (BOTH, SMALL.torn), (BOTH, LARGE.torn + 1), (BOTH, LARGE.torn)] {
            run.frame(Frame::Insert(1, 1))?;
            run.frame(Frame::Length(image as u32))?;
            run.frame(Frame::TornLength(torn as u32))?;
            run.frame(Frame::LookUp(1))?;
            run.frame(Frame::Forecast)?;
            run.frame(Frame::Commit(LARGE.never_cut))?;
            run.frame(Frame::Length(BOTH as u32))?;
            run.frame(Frame::Report(0))?;
            run.frame(Frame::Sum)?;
        }
    }
    run.text(b"0G")?;
    run.frame(Frame::Noise(5))?;
    run.frame(Frame::Mount(255)).map(|_| ())
}

/// All of it.
fn script(run: &mut Run, random: &mut Random) -> Result<(), String> {
    lent(run)?;
    (0..6).try_for_each(|_| list(run, random, 150))?;
    growth(run, random)
}

/// Right answers pass, and the chip that the lists leave is one that a format began.
#[test]
fn right_answers_pass() {
    let mut random = Random::new(81);
    let mut run = Run::new(Bug::None);
    for _ in 0..3 {
        script(&mut run, &mut random).unwrap();
        assert!(run.judge.all_fixed());
        assert!(run.judge.store().present.nodes.iter().flatten().count() > 60);
    }
}

/// Each fault of the store is seen.
#[test]
fn faults_are_seen() {
    for bug in Bug::FAULTS {
        let mut random = Random::new(82);
        assert!((0..3).any(|_| script(&mut Run::new(bug), &mut random).is_err()), "{bug:?}");
    }
}
