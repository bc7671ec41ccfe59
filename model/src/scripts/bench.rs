//! Scripts for the bench program: the example of document 01, then calls with cuts and lines that are no frame.

use crate::bench::Bench;
use crate::random::Random;

/// The example of document 01.
const EXAMPLE: [&str; 7] = ["00", "010000000700000063", "0300000007", "0400000000", "0300000007", "05000000FF", "0300000007"];

/// A key, from few to many as the script goes on.
fn key(random: &mut Random, late: bool) -> u32 {
    match random.below(4) {
        0 => random.below(20) as u32,
        1 => random.below(60) as u32 * 7,
        2 if late => random.below(3000) as u32,
        _ => random.below(150) as u32,
    }
}

/// A line for a store that is off: mostly a mount, at times with too little power.
fn line_off(random: &mut Random) -> String {
    match random.below(7) {
        0 => "0300000001".into(),
        2 => "09".into(),
        1 => "0400000010".into(),
        _ => format!("05{:08X}", if random.once_in(4) { random.below(3) } else { 255 }),
    }
}

/// A line for a store that is on: updates and look ups, at times a mount, a format or a line that is no frame.
fn line_on(random: &mut Random, key: u32) -> String {
    match random.below(200) {
        0..=99 => format!("01{:08X}{:08X}", key, random.next() as u32),
        100..=139 => format!("02{key:08X}"),
        140..=189 => format!("03{key:08X}"),
        190..=192 => format!("05{:08X}", random.below(256)),
        193 => String::new(),
        194 => ["06", "09"][random.index(2)].into(),
        195 => format!("03{key:07X}"),
        196 => "03abcdef01".into(),
        197 => format!("01{:08X}{:08X}0", key, 1),
        198 if random.once_in(6) => "00".into(),
        _ => "0 ".into(),
    }
}

/// A script of so many lines; the last is not empty.
pub fn make(random: &mut Random, lines: usize) -> Vec<Vec<u8>> {
    let mut bench = Bench::new();
    let mut script: Vec<Vec<u8>> = Vec::new();
    for n in 0..lines {
        let state = bench.state();
        let line = match EXAMPLE.get(n) {
            Some(line) => line.to_string(),
            None if n + 1 == lines => "0300000007".into(),
            None if !state.on => line_off(random),
            None if state.pending >= 16 && random.below(3) > 0 || random.once_in(24) => {
                format!("04{:08X}", if random.once_in(3) { random.below(12) } else { 2000 })
            }
            None => {
                let key = key(random, n > lines / 2);
                line_on(random, key)
            }
        };
        bench.line(line.as_bytes());
        script.push(line.into_bytes());
    }
    script
}
