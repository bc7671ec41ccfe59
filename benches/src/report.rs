//! The results as tables of docs/BENCHMARKS.md and as plots.

use crate::forecast;
use crate::free;
use crate::svg::Plot;
use crate::times::Row;
use crate::wear::{self, Line};
use crate::work::WORKS;
use std::path::{Path, PathBuf};
use std::process::Command;

/// The folder of the documents.
fn docs() -> PathBuf {
    Path::new(env!("CARGO_MANIFEST_DIR")).join("../docs")
}

/// A time in nanoseconds with its unit.
fn time(nanos: f64) -> String {
    if nanos < 10_000.0 {
        format!("{nanos:.0} ns")
    } else {
        format!("{:.1} µs", nanos / 1000.0)
    }
}

/// The table of the calls.
pub fn times_table(rows: &[Row]) -> String {
    let mut out = String::from("| Call | B | Library | Twin | Ratio | Least to greatest |\n|---|---|---|---|---|---|\n");
    for r in rows {
        let (library, twin) = (time(r.library), time(r.twin));
        out += &format!("| {} | {} | {library} | {twin} | {:.2} | {:.2} to {:.2} |\n", r.call, r.blocks, r.ratio, r.low, r.high);
    }
    out
}

/// The table of how the calls grow.
pub fn growth_table(rows: &[Row]) -> String {
    let mut out = String::from("| Call | B | Where | Library | Twin | Ratio |\n|---|---|---|---|---|---|\n");
    for r in rows {
        out += &format!("| {} | {} | {} | {} | {} | {:.2} |\n", r.call, r.blocks, r.note, time(r.library), time(r.twin), r.ratio);
    }
    out
}

/// The table of the free-page test.
pub fn free_table(rows: &[free::Row]) -> String {
    let mut out = String::from("| First byte that is not 255 | Time of a test | Ratio to a free page |\n|---|---|---|\n");
    for r in rows {
        let first = r.first.map_or("none, a free page".to_string(), |at| format!("byte {at}"));
        out += &format!("| {first} | {:.1} ns | {:.3} |\n", r.nanos, r.ratio);
    }
    out
}

/// The table of the forecasts.
pub fn forecast_table(rows: &[forecast::Row]) -> String {
    let mut out = String::from(
        "| B | Forecast | Commit | Commit with allowance 0 | Forecast / commit | Forecast / commit with allowance 0 |\n\
         |---|---|---|---|---|---|\n",
    );
    for r in rows {
        let (forecast, whole, cut) = (time(r.forecast), time(r.whole), time(r.cut));
        out += &format!("| {} | {forecast} | {whole} | {cut} | {:.2} | {:.2} |\n", r.blocks, r.to_whole, r.to_cut);
    }
    out
}

/// The first words that a program prints.
fn says(program: &str, words: &[&str]) -> String {
    let out = Command::new(program).args(words).output();
    out.map_or(String::new(), |o| String::from_utf8_lossy(&o.stdout).trim().to_string())
}

/// The machine, and how many rounds were run on it.
pub fn machine(rounds: usize, load: &str) -> String {
    let info = std::fs::read_to_string("/proc/cpuinfo").unwrap_or_default();
    let model = info.lines().find(|l| l.starts_with("model name")).and_then(|l| l.split(": ").nth(1)).unwrap_or("unknown");
    let cores = info.lines().filter(|l| l.starts_with("processor")).count();
    let (kernel, rustc) = (says("uname", &["-r"]), says("rustc", &["--version"]));
    let rustc = rustc.split(" (").next().unwrap_or("");
    format!(
        "{model}, {cores} cores, Linux {kernel}, {rustc}; {rounds} rounds, load average {load} at the start and {} at the end.\n",
        load_average()
    )
}

/// The other stores, and the file system of their files.
pub fn stores(lines: &[Line]) -> String {
    let others: Vec<String> = lines[0].others.iter().map(|o| format!("{} with pages of {} bytes", o.version, o.page)).collect();
    format!("{}, {}; their files on {}.\n", others[0], others[2], wear::file_system(&wear::folder()))
}

/// The machine's load over the last minute.
pub fn load_average() -> String {
    let text = std::fs::read_to_string("/proc/loadavg").unwrap_or_default();
    text.split(' ').next().unwrap_or("").to_string()
}

/// The part of the document between the marks of `name`, replaced.
pub fn put(name: &str, table: &str) {
    let path = docs().join("BENCHMARKS.md");
    let text = std::fs::read_to_string(&path).unwrap();
    let (open, close) = (format!("<!-- {name} -->\n"), format!("<!-- end of {name} -->"));
    let (before, rest) = text.split_once(&open).unwrap_or_else(|| panic!("no mark {name}"));
    let (_, after) = rest.split_once(&close).unwrap_or_else(|| panic!("no mark for the end of {name}"));
    std::fs::write(&path, format!("{before}{open}{table}{close}{after}")).unwrap();
}

/// The plot of the ratios.
pub fn plot_times(rows: &[Row]) {
    let mut groups: Vec<(String, Vec<f64>)> = Vec::new();
    for call in ["look up", "insert", "commit", "forecast", "mount", "rebuild", "block report", "format"] {
        groups.push((call.to_string(), rows.iter().filter(|r| r.call == call).map(|r| r.ratio).collect()));
    }
    let top = rows.iter().map(|r| r.ratio).fold(2.0, f64::max).ceil();
    let step = if top > 8.0 { 2 } else { 1 };
    let plot = Plot {
        title: "Time of a call: proved library / twin in plain Rust",
        axis: "ratio",
        legend: [3, 8, 32].iter().map(|b| format!("B = {b}")).collect(),
        groups,
        lines: (0..=top as u32).step_by(step).filter(|v| *v != 1).map(|v| (f64::from(v), v.to_string())).collect(),
        limit: Some((1.3, "1.3".to_string())),
        scale: &|v| v / top,
        label: &|v| format!("{v:.2}"),
    };
    std::fs::write(docs().join("times.svg"), plot.draw()).unwrap();
}

/// A number of bytes in few characters.
fn short(bytes: f64) -> String {
    if bytes < 999_500.0 {
        format!("{:.0}k", bytes / 1e3)
    } else {
        format!("{:.1}M", bytes / 1e6)
    }
}

/// The plot of the bytes for 1,000 events: the flash at each B, the others with the events of B = 8.
pub fn plot_wear(lines: &[Line]) {
    let mut groups = Vec::new();
    for work in WORKS {
        let own: Vec<&Line> = lines.iter().filter(|l| l.wear.work == work).collect();
        let mut values: Vec<f64> = own.iter().map(|l| l.bytes()).collect();
        values.extend(own[1].others.iter().map(|o| own[1].per_thousand(o.wchar)));
        groups.push((work.to_string(), values));
    }
    let plot = Plot {
        title: "Bytes programmed or handed to write calls for 1,000 events, 16 in a commit (log scale)",
        axis: "bytes",
        legend: ["index, B = 3", "index, B = 8", "index, B = 32", "SQLite, rollback", "SQLite, WAL", "LMDB"].map(String::from).to_vec(),
        groups,
        lines: (4..8).map(|e| (10f64.powi(e), ["10k", "100k", "1M", "10M"][e as usize - 4].to_string())).collect(),
        limit: None,
        scale: &|v| (v.log10() - 4.0) / 3.0,
        label: &short,
    };
    std::fs::write(docs().join("wear.svg"), plot.draw()).unwrap();
}
