//! Forecasts of the twin held by the judge in scripts: each answers what a commit of a copy of its state and image reports.
mod forecaster;

use forecaster::Forecaster;
use model::model::counts::Counts;
use model::model::frame::{parse, Frame};
use model::model::judge::Judge;
use model::random::Random;
use model::scripts;
use std::collections::BTreeMap;

/// How often each thing was seen.
type Seen = BTreeMap<&'static str, u32>;

/// What a forecast's reply is an example of.
fn forecast_seen(reply: &str, sum: u64, judge: &mut Judge) -> &'static str {
    match (&reply[..2], judge.all_fixed()) {
        ("02", _) => "off",
        ("01", _) => "size",
        ("06", _) => "last",
        (_, true) if sum == 0 => "nothing",
        (_, true) if judge.store().pending == 16 => "sixteen",
        (_, true) if !reply.ends_with("0") => "erases",
        (_, true) => "pending",
        (_, false) => "open",
    }
}

/// What a commit right after a forecast with this sum is an example of.
fn commit_seen(allowance: u64, sum: u64) -> &'static str {
    match sum {
        0 => "commit of nothing",
        _ if allowance == sum => "commit with the sum",
        _ if allowance + 1 == sum => "commit with one less",
        _ if allowance < sum => "commit with less",
        _ => "commit with more",
    }
}

/// Runs a script of a kind; the judge has to accept it.
fn run(name: &str, seed: u64, seen: &mut Seen) {
    let script = scripts::kind(name).unwrap().fresh(&mut Random::new(seed));
    let (mut twin, mut judge) = (Forecaster::new(), Judge::new());
    let mut before = None;
    for line in &script {
        let reply = twin.line(line);
        judge.line(line, &reply, twin.image()).unwrap_or_else(|why| panic!("{name}, seed {seed}: {why}"));
        let sum = reply.get(2..).and_then(|digits| Counts::read(digits.as_bytes())).map_or(0, |counts| counts.sum());
        let what = match (parse(line), before) {
            (Some(Frame::Forecast), _) => Some(forecast_seen(&reply, sum, &mut judge)),
            (Some(Frame::Commit(allowance)), Some(sum)) => Some(commit_seen(allowance as u64, sum)),
            _ => None,
        };
        before = (parse(line) == Some(Frame::Forecast)).then_some(sum);
        what.into_iter().for_each(|what| *seen.entry(what).or_default() += 1);
    }
}

/// Scripts of forecasts pass, and forecasts stand in them at all places.
#[test]
fn forecasts() {
    let mut seen = Seen::new();
    for seed in 0..40 {
        run("forecast", seed, &mut seen);
    }
    println!("{seen:#?}");
    let forecasts = ["off", "size", "last", "nothing", "sixteen", "erases", "pending", "open"];
    let commits = ["commit of nothing", "commit with the sum", "commit with one less", "commit with less", "commit with more"];
    assert!(forecasts.iter().chain(&commits).all(|what| seen.get(what).is_some_and(|times| *times > 10)));
}

/// Scripts of the other kinds with forecasts among their calls pass.
#[test]
fn other_kinds() {
    let mut seen = Seen::new();
    for name in ["calls", "sizes", "lines", "last", "noise", "changed", "pending", "parts"] {
        for seed in 0..6 {
            run(name, seed, &mut seen);
        }
    }
    println!("{seen:#?}");
    assert!(["off", "size", "last", "pending", "open"].iter().all(|what| seen.contains_key(what)));
}

/// A line of 09 with anything more is no frame, and the bench program has no such frame.
#[test]
fn no_frame() {
    let (mut bench, mut judge, image) = (model::bench::Bench::new(), Judge::new(), vec![255; 3 * 16896]);
    for line in ["0", "9", "090", "0900", "0900000000", "090000000000000000", "09 ", " 09", "09\r", "O9", "08"] {
        assert_eq!(parse(line.as_bytes()), None);
        assert!(judge.line(line.as_bytes(), "FF", &image).is_ok());
        assert!(judge.line(line.as_bytes(), "02000000000000000000000000", &image).is_err());
    }
    assert_eq!(parse(b"09"), Some(Frame::Forecast));
    assert!(judge.line(b"09", "02000000000000000000000000", &image).is_ok());
    for line in ["09", "00", "09", "0900000000"] {
        assert_eq!(bench.line(line.as_bytes()), if line == "00" { "00" } else { "FF" });
    }
}
