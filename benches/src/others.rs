//! The same events in SQLite and LMDB, each run in a process of its own, with the bytes that the system counts for it.

use crate::both::PENDING;
use crate::lmdb::Lmdb;
use crate::sqlite::Sqlite;
use crate::work::Event;
use std::path::Path;
use std::process::Command;

pub const STORES: [&str; 3] = ["sqlite-rollback", "sqlite-wal", "lmdb"];

/// What a run of another store wrote, and what it says of itself.
pub struct Wrote {
    /// Bytes handed to write calls, and bytes sent to storage.
    pub wchar: u64,
    pub write_bytes: u64,
    pub version: String,
    pub page: u64,
}

/// A store that takes the events of a transaction; it tells its version and the size of its pages.
pub trait Store {
    fn transaction(&mut self, events: &[Event]);
    fn close(&mut self);
    fn about(&self) -> (String, u64);
}

/// A figure of this process as the system counts it.
fn counted(name: &str) -> u64 {
    let text = std::fs::read_to_string("/proc/self/io").expect("the system's counts of this process");
    let line = text.lines().find(|l| l.starts_with(name)).unwrap();
    line.split_whitespace().nth(1).unwrap().parse().unwrap()
}

/// The events, one a line.
fn text_of(events: &[Event]) -> String {
    let line = |e: &Event| match *e {
        Event::Insert(key, value) => format!("i {key} {value}\n"),
        Event::Delete(key) => format!("d {key}\n"),
        Event::Measured => "m\n".to_string(),
    };
    events.iter().map(line).collect()
}

fn event_of(line: &str) -> Event {
    let words: Vec<&str> = line.split(' ').collect();
    match words[0] {
        "i" => Event::Insert(words[1].parse().unwrap(), words[2].parse().unwrap()),
        "d" => Event::Delete(words[1].parse().unwrap()),
        _ => Event::Measured,
    }
}

/// The child process: the events of a file into a store in a folder; it prints what the system counted from `Measured` on.
pub fn child(store: &str, file: &str, folder: &str) {
    let events: Vec<Event> = std::fs::read_to_string(file).unwrap().lines().map(event_of).collect();
    let start = events.iter().position(|e| *e == Event::Measured).unwrap();
    let folder = Path::new(folder);
    let mut s: Box<dyn Store> = match store {
        "sqlite-rollback" => Box::new(Sqlite::open(folder, "DELETE")),
        "sqlite-wal" => Box::new(Sqlite::open(folder, "WAL")),
        _ => Box::new(Lmdb::open(folder)),
    };
    s.transaction(&events[..start]);
    let (wchar, write_bytes) = (counted("wchar"), counted("write_bytes"));
    for part in events[start + 1..].chunks(PENDING) {
        s.transaction(part);
    }
    let (version, page) = s.about();
    s.close();
    println!("{} {} {page} {version}", counted("wchar") - wchar, counted("write_bytes") - write_bytes);
}

/// The events run in a child process, in a fresh folder below `folder`.
pub fn run(store: &str, events: &[Event], folder: &Path) -> Wrote {
    let place = folder.join(store);
    let _ = std::fs::remove_dir_all(&place);
    std::fs::create_dir_all(&place).unwrap();
    let file = folder.join("events.txt");
    std::fs::write(&file, text_of(events)).unwrap();
    let words = ["child", store, file.to_str().unwrap(), place.to_str().unwrap()];
    let out = Command::new(std::env::current_exe().unwrap()).args(words).output().unwrap();
    assert!(out.status.success(), "{store}: {}", String::from_utf8_lossy(&out.stderr));
    let text = String::from_utf8(out.stdout).unwrap();
    let parts: Vec<&str> = text.trim().splitn(4, ' ').collect();
    let number = |i: usize| parts[i].parse::<u64>().unwrap();
    std::fs::remove_dir_all(&place).unwrap();
    Wrote { wchar: number(0), write_bytes: number(1), page: number(2), version: parts[3].to_string() }
}
