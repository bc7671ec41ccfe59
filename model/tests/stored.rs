//! The stored scripts: the twin gives the stored replies, and the judge accepts them.
use model::runner;
use std::path::{Path, PathBuf};

/// The stored scripts.
fn scripts() -> Vec<PathBuf> {
    let folder = Path::new(env!("CARGO_MANIFEST_DIR")).join("scripts");
    let paths = std::fs::read_dir(folder).unwrap().map(|entry| entry.unwrap().path());
    paths.filter(|path| path.extension().is_some_and(|extension| extension == "in")).collect()
}

/// The lines of a file.
fn lines(path: &Path) -> Vec<Vec<u8>> {
    runner::lines_of(&std::fs::read(path).unwrap())
}

/// All of them, those of the bench program by its twin.
#[test]
fn replies() {
    let paths = scripts();
    assert!(paths.len() >= 29);
    for path in paths {
        let (script, stored) = (lines(&path), lines(&path.with_extension("out")));
        let verdict = match path.file_stem().is_some_and(|stem| stem == "bench") {
            true => (runner::bench_replies(&script) == stored).then_some(()).ok_or("other replies".to_string()),
            false => runner::judge(&script, &stored),
        };
        verdict.unwrap_or_else(|why| panic!("{}: {why}", path.display()));
    }
}
