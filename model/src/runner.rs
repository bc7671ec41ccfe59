//! Runs of a program: a script to its standard input, its output held to the twin's replies and to the judge.

use crate::bench::Bench;
use crate::model::judge::Judge;
use crate::probe::Probe;
use std::io::{Read, Write};
use std::process::{Command, Stdio};

/// The bytes of a script. The last line has no line feed where the number of lines is odd and the line is not empty.
pub fn text_of(script: &[Vec<u8>]) -> Vec<u8> {
    let mut text = script.join(&b'\n');
    if script.len().is_multiple_of(2) || script.last().is_some_and(|line| line.is_empty()) {
        text.push(b'\n');
    }
    text
}

/// The lines of a text; a line feed that ends it begins no further line.
pub fn lines_of(text: &[u8]) -> Vec<Vec<u8>> {
    let mut lines: Vec<Vec<u8>> = text.split(|&b| b == b'\n').map(|line| line.to_vec()).collect();
    if lines.last().is_some_and(|line| line.is_empty()) {
        lines.pop();
    }
    lines
}

/// What a program prints for an input. The input is written by a thread of its own, so neither side waits for the other.
pub fn play(program: &str, input: Vec<u8>) -> Result<Vec<u8>, String> {
    let mut child =
        Command::new(program).stdin(Stdio::piped()).stdout(Stdio::piped()).spawn().map_err(|e| format!("{program} does not start: {e}"))?;
    let mut stdin = child.stdin.take().ok_or("no standard input")?;
    let mut stdout = child.stdout.take().ok_or("no standard output")?;
    let writer = std::thread::spawn(move || stdin.write_all(&input));
    let mut output = Vec::new();
    stdout.read_to_end(&mut output).map_err(|e| e.to_string())?;
    let written = writer.join();
    let status = child.wait().map_err(|e| e.to_string())?;
    match written {
        Ok(Ok(())) if status.success() => Ok(output),
        _ => Err(format!("{program} ended with {status} after {} bytes of output", output.len())),
    }
}

/// A line as it can be printed.
fn printed(line: &[u8]) -> String {
    let text: String = line.iter().take(200).map(|&b| (b as char).escape_default().to_string()).collect();
    if line.len() > 200 {
        text + ".."
    } else {
        text
    }
}

/// The difference at a line, where there is one.
fn compare(at: usize, line: &[u8], reply: Option<&Vec<u8>>, expected: &str) -> Result<(), String> {
    match reply {
        Some(reply) if reply == expected.as_bytes() => Ok(()),
        Some(reply) => Err(format!("line {}: {}: program {}, twin {expected}", at + 1, printed(line), printed(reply))),
        None => Err(format!("line {}: {}: program nothing, twin {expected}", at + 1, printed(line))),
    }
}

/// A script run by the probe: each reply held to the twin's, and the replies and the twin's images to the judge.
pub fn run_probe(program: &str, script: &[Vec<u8>]) -> Result<(), String> {
    let replies = lines_of(&play(program, text_of(script))?);
    judge(script, &replies)
}

/// Replies to a script held to the twin's, and with the twin's images to the judge. A difference from the twin comes first.
pub fn judge(script: &[Vec<u8>], replies: &[Vec<u8>]) -> Result<(), String> {
    let (mut twin, mut judge) = (Probe::new(), Judge::new());
    let mut verdict = Ok(());
    for (at, line) in script.iter().enumerate() {
        let expected = twin.line(line);
        compare(at, line, replies.get(at), &expected)?;
        if verdict.is_ok() {
            let said = judge.line(line, &expected, twin.image());
            verdict = said.map_err(|why| format!("line {}: {}: reply {expected}: judge: {why}", at + 1, printed(line)));
        }
    }
    no_more(script, replies)?;
    verdict
}

/// Whether there is no reply without a line.
fn no_more(script: &[Vec<u8>], replies: &[Vec<u8>]) -> Result<(), String> {
    match replies.len().saturating_sub(script.len()) {
        0 => Ok(()),
        more => Err(format!("{more} lines too many")),
    }
}

/// A script run by the bench program: each reply held to the twin's.
pub fn run_bench(program: &str, script: &[Vec<u8>]) -> Result<(), String> {
    let replies = lines_of(&play(program, text_of(script))?);
    let mut twin = Bench::new();
    for (at, line) in script.iter().enumerate() {
        compare(at, line, replies.get(at), &twin.line(line))?;
    }
    no_more(script, &replies)
}

/// The replies of the twin to a script for the probe.
pub fn probe_replies(script: &[Vec<u8>]) -> Vec<Vec<u8>> {
    let mut twin = Probe::new();
    script.iter().map(|line| twin.line(line).into_bytes()).collect()
}

/// The replies of the twin to a script for the bench program.
pub fn bench_replies(script: &[Vec<u8>]) -> Vec<Vec<u8>> {
    let mut twin = Bench::new();
    script.iter().map(|line| twin.line(line).into_bytes()).collect()
}
