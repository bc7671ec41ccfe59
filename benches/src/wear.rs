//! The wear of the workloads, against what SQLite and LMDB write for the same events.

use crate::others::{self, Wrote, STORES};
use crate::work::{self, Wear, WORKS};
use std::path::{Path, PathBuf};

/// Bytes of a page on the flash, and of a page in which the others' bytes are also told.
const PAGE: f64 = 528.0;
const SECTOR: f64 = 512.0;

/// A workload on a chip, and in each of the other stores.
pub struct Line {
    pub wear: Wear,
    pub others: Vec<Wrote>,
}

impl Line {
    /// A count for 1,000 events.
    pub fn per_thousand(&self, count: u64) -> f64 {
        count as f64 * 1000.0 / self.wear.counted as f64
    }

    /// Bytes programmed for 1,000 events.
    pub fn bytes(&self) -> f64 {
        self.per_thousand(self.wear.pages) * PAGE
    }
}

/// The kind of the file system that a folder is on.
pub fn file_system(folder: &Path) -> String {
    let folder = folder.canonicalize().unwrap();
    let mounts = std::fs::read_to_string("/proc/mounts").unwrap();
    let mut best = (0, String::new());
    for line in mounts.lines() {
        let words: Vec<&str> = line.split(' ').collect();
        if folder.starts_with(words[1]) && words[1].len() >= best.0 {
            best = (words[1].len(), words[2].to_string());
        }
    }
    best.1
}

/// The folder that the other stores write in; the system counts no bytes for a file system in memory.
pub fn folder() -> PathBuf {
    let folder = Path::new(env!("CARGO_MANIFEST_DIR")).join("target/stores");
    std::fs::create_dir_all(&folder).unwrap();
    let kind = file_system(&folder);
    assert!(kind != "tmpfs" && kind != "ramfs", "the folder for the other stores is on {kind}, where no bytes are counted");
    folder
}

/// Each workload at B = 3, 8, 32.
pub fn lines(events: usize) -> Vec<Line> {
    let folder = folder();
    let mut lines = Vec::new();
    for work in WORKS {
        for blocks in [3, 8, 32] {
            let wear = work::run(work, blocks, events);
            let others: Vec<Wrote> = STORES.iter().map(|s| others::run(s, &wear.events, &folder)).collect();
            assert!(others.iter().all(|o| o.write_bytes > 0), "the system counted no bytes");
            lines.push(Line { wear, others });
        }
    }
    lines
}

/// The table of the flash.
pub fn flash_table(lines: &[Line]) -> String {
    let mut out = String::from(
        "| Work | B | Keys | Events | Commits | Pages programmed | Blocks erased | Bytes programmed |\n|---|---|---|---|---|---|---|---|\n",
    );
    for l in lines {
        let w = &l.wear;
        out += &format!(
            "| {} | {} | {} | {} | {} | {:.1} | {:.2} | {:.0} |\n",
            w.work,
            w.blocks,
            w.keys,
            w.counted,
            w.commits,
            l.per_thousand(w.pages),
            l.per_thousand(w.erases),
            l.bytes()
        );
    }
    out
}

/// The table of the commits: pages of one, erases for 1,000, and the pages of the references.
pub fn commit_table(lines: &[Line]) -> String {
    let mut out = String::from(
        "| Work | B | Pages a commit | Erases for 1,000 commits | BFTL, pages a commit | A page for each changed node |\n\
         |---|---|---|---|---|---|\n",
    );
    for l in lines {
        let w = &l.wear;
        let commits = w.commits as f64;
        out += &format!(
            "| {} | {} | {:.2} | {:.0} | {:.2} | {:.2} |\n",
            w.work,
            w.blocks,
            w.pages as f64 / commits,
            w.erases as f64 * 1000.0 / commits,
            w.reference.bftl as f64 / commits,
            w.reference.nodes as f64 / commits
        );
    }
    out
}

/// Bytes for 1,000 events in thousands, and as pages of 512 bytes.
fn told(bytes: f64) -> String {
    format!("{:.0} ({:.0})", bytes / 1000.0, bytes / SECTOR)
}

/// The table of the other stores, by one of the system's counts.
pub fn others_table(lines: &[Line], count: &dyn Fn(&Wrote) -> u64) -> String {
    let mut out = String::from(
        "| Work | B | this index | SQLite, rollback journal | SQLite, WAL | LMDB | least of the others / this index |\n\
         |---|---|---|---|---|---|---|\n",
    );
    for l in lines {
        let bytes: Vec<f64> = l.others.iter().map(|o| l.per_thousand(count(o))).collect();
        let least = bytes.iter().copied().fold(f64::MAX, f64::min);
        out += &format!(
            "| {} | {} | {} | {} | {} | {} | {:.1} |\n",
            l.wear.work,
            l.wear.blocks,
            told(l.bytes()),
            told(bytes[0]),
            told(bytes[1]),
            told(bytes[2]),
            least / l.bytes()
        );
    }
    out
}
