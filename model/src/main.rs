//! The commands: `run`, `crash`, `script`, `bench`.

use model::crash::Case;
use model::model::geometry::Geometry;
use model::random::Random;
use model::runner;
use model::scripts::{self, KINDS};
use std::path::{Path, PathBuf};
use std::process::ExitCode;
use std::time::{Duration, Instant, SystemTime, UNIX_EPOCH};

/// How many scripts passed and failed, how many of them name the large part first, and how many lines they had.
#[derive(Default)]
struct Count {
    passed: usize,
    failed: usize,
    large: usize,
    lines: usize,
}

impl Count {
    /// A script's result taken into account; a failure is printed.
    fn take(&mut self, name: &str, seed: u64, script: &[Vec<u8>], result: Result<(), String>) {
        self.lines += script.len();
        self.large += usize::from(script.first().is_some_and(|line| line == b"1701"));
        match result {
            Ok(()) => self.passed += 1,
            Err(why) => {
                self.failed += 1;
                println!("failed: {name}, seed {seed}: {why}");
            }
        }
    }

    /// The scripts and their lines as a text.
    fn scripts(&self) -> String {
        format!("{} scripts, {} of them large, {} lines", self.passed + self.failed, self.large, self.lines)
    }

    /// Another count added.
    fn add(&mut self, other: &Count) {
        self.passed += other.passed;
        self.failed += other.failed;
        self.large += other.large;
        self.lines += other.lines;
    }
}

/// The last line of a run, and its exit code.
fn finish(count: &Count) -> ExitCode {
    println!("{} passed, {} failed", count.passed, count.failed);
    ExitCode::from(u8::from(count.failed > 0))
}

/// The seed given, or one from the clock.
fn seed_of(word: Option<&String>) -> Result<u64, String> {
    match word {
        Some(word) => word.parse().map_err(|_| format!("no seed: {word}")),
        None => Ok(SystemTime::now().duration_since(UNIX_EPOCH).map_err(|e| e.to_string())?.as_nanos() as u64 >> 10),
    }
}

/// The number that a word is.
fn number(word: &str) -> Result<u64, String> {
    word.parse().map_err(|_| format!("no number: {word}"))
}

/// The stored scripts' folder.
fn stored_folder() -> PathBuf {
    Path::new(env!("CARGO_MANIFEST_DIR")).join("scripts")
}

/// A stored script run: the program prints the stored replies, and these pass the twin and the judge.
fn run_stored(path: &Path, input: Vec<u8>, probe: &str, bench: &str) -> Result<(), String> {
    let replies = runner::lines_of(&std::fs::read(path.with_extension("out")).map_err(|e| e.to_string())?);
    let script = runner::lines_of(&input);
    let is_bench = path.file_name().is_some_and(|name| name.to_string_lossy().starts_with("bench"));
    let program = if is_bench { bench } else { probe };
    let printed = runner::lines_of(&runner::play(program, input)?);
    if let Some(at) = (0..replies.len().max(printed.len())).find(|&i| replies.get(i) != printed.get(i)) {
        return Err(format!("line {}: the reply is not the stored one", at + 1));
    }
    if is_bench {
        let same = runner::bench_replies(&script) == replies;
        return same.then_some(()).ok_or("the twin's replies are not the stored ones".into());
    }
    runner::judge(&script, &replies)
}

/// All stored scripts run.
fn run_all_stored(probe: &str, bench: &str) -> Count {
    let mut count = Count::default();
    let mut paths: Vec<PathBuf> = std::fs::read_dir(stored_folder()).into_iter().flatten().flatten().map(|entry| entry.path()).collect();
    paths.retain(|path| path.extension().is_some_and(|e| e == "in"));
    paths.sort();
    for path in paths {
        let input = std::fs::read(&path).unwrap_or_default();
        let script = runner::lines_of(&input);
        let result = run_stored(&path, input, probe, bench);
        count.take(&path.file_name().unwrap_or_default().to_string_lossy(), 0, &script, result);
    }
    println!("stored: {}", count.scripts());
    count
}

/// One fresh script: of the kind at `turn`, or behind the last kind one for the bench program.
fn run_fresh(turn: usize, seed: u64, probe: &str, bench: &str, counts: &mut [Count]) {
    let mut random = Random::new(seed);
    match KINDS.get(turn) {
        Some(kind) => {
            let script = kind.fresh(&mut random);
            counts[turn].take(kind.name, seed, &script, runner::run_probe(probe, &script));
        }
        None => {
            let script = scripts::bench::make(&mut random, 3000);
            counts[turn].take("bench", seed, &script, runner::run_bench(bench, &script));
        }
    }
}

/// `run SECONDS PROBE BENCH [SEED]`.
fn run(words: &[String]) -> Result<ExitCode, String> {
    let [seconds, probe, bench, rest @ ..] = words else { return Err("run SECONDS PROBE BENCH [SEED]".into()) };
    let (start, limit) = (Instant::now(), Duration::from_secs(number(seconds)?));
    let first = seed_of(rest.first())?;
    let mut all = run_all_stored(probe, bench);
    let mut counts: Vec<Count> = (0..=KINDS.len()).map(|_| Count::default()).collect();
    println!("first seed {first}");
    let mut fresh = 0;
    while start.elapsed() < limit {
        run_fresh(fresh % counts.len(), first.wrapping_add(fresh as u64), probe, bench, &mut counts);
        fresh += 1;
    }
    let names = KINDS.iter().map(|kind| kind.name).chain(["bench"]);
    for (name, count) in names.zip(&counts) {
        println!("{name}: {}", count.scripts());
        all.add(count);
    }
    Ok(finish(&all))
}

/// `crash SCRIPTS PROBE [SEED]`.
fn crash(words: &[String]) -> Result<ExitCode, String> {
    let [scripts, probe, rest @ ..] = words else { return Err("crash SCRIPTS PROBE [SEED]".into()) };
    let first = seed_of(rest.first())?;
    println!("first seed {first}");
    let (mut count, mut replays) = (Count::default(), 0);
    for n in 0..number(scripts)? {
        let seed = first.wrapping_add(n);
        let mut random = Random::new(seed);
        let script = Case::fresh(&mut random).replays(&mut random);
        replays += script.replays;
        count.take("crash", seed, &script.lines, runner::run_probe(probe, &script.lines));
    }
    println!("{}, {replays} replays", count.scripts());
    Ok(finish(&count))
}

/// Replies as a text.
fn output_of(replies: Vec<Vec<u8>>) -> Vec<u8> {
    replies.into_iter().flat_map(|reply| [reply, vec![b'\n']].concat()).collect()
}

/// The part that a word names; any where there is none.
fn part_of(word: Option<&String>, random: &mut Random) -> Result<Geometry, String> {
    match word.map(String::as_str) {
        None => Ok(scripts::part(random)),
        Some("small") => Ok(Geometry::SMALL),
        Some("large") => Ok(Geometry::LARGE),
        Some(word) => Err(format!("no part: {word}")),
    }
}

/// `script KIND SEED DIR [PART]`: a script of a kind, also `crash` and `bench`, and the twin's replies to it.
fn script(words: &[String]) -> Result<ExitCode, String> {
    let [name, seed, dir, rest @ ..] = words else { return Err("script KIND SEED DIR [PART]".into()) };
    let mut random = Random::new(number(seed)?);
    let part = part_of(rest.first(), &mut random)?;
    let (script, replies) = match (name.as_str(), scripts::kind(name)) {
        ("bench", _) => {
            let script = scripts::bench::make(&mut random, 2000);
            let replies = runner::bench_replies(&script);
            (script, replies)
        }
        (_, kind) => {
            let script = match kind {
                Some(kind) => (kind.make)(&mut random, part),
                None if name == "crash" => Case::new(&mut random, part).replays(&mut random).lines,
                None => return Err(format!("no kind of script: {name}")),
            };
            let replies = runner::probe_replies(&script);
            (script, replies)
        }
    };
    write(dir, &format!("{name}.in"), &runner::text_of(&script))?;
    write(dir, &format!("{name}.out"), &output_of(replies))?;
    Ok(ExitCode::SUCCESS)
}

/// `bench SEED LINES DIR`: standard input and output for the bench program.
fn bench(words: &[String]) -> Result<ExitCode, String> {
    let [seed, lines, dir] = words else { return Err("bench SEED LINES DIR".into()) };
    let script = scripts::bench::make(&mut Random::new(number(seed)?), number(lines)? as usize);
    write(dir, "stdin", &script.join(&b'\n'))?;
    write(dir, "stdout", &output_of(runner::bench_replies(&script)))?;
    Ok(ExitCode::SUCCESS)
}

/// A file written in a folder.
fn write(dir: &str, name: &str, bytes: &[u8]) -> Result<(), String> {
    std::fs::write(Path::new(dir).join(name), bytes).map_err(|e| e.to_string())
}

/// The command that the first word names.
fn main() -> ExitCode {
    let words: Vec<String> = std::env::args().skip(1).collect();
    let result = match words.first().map(String::as_str) {
        Some("run") => run(&words[1..]),
        Some("crash") => crash(&words[1..]),
        Some("script") => script(&words[1..]),
        Some("bench") => bench(&words[1..]),
        _ => Err("commands: run, crash, script, bench".into()),
    };
    result.unwrap_or_else(|why| {
        eprintln!("{why}");
        ExitCode::from(2)
    })
}
