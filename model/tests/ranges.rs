//! The ranges in which the erases of blocks lie, by what commits tell and reports show.
use model::model::erases::{read, Erases, Range};

/// A range.
fn range(least: u64, most: u64) -> Range {
    Range { least, most }
}

/// The ranges of the first blocks.
fn ranges(erases: &Erases, blocks: usize) -> Vec<(u64, u64)> {
    (0..blocks).map(|block| erases.range(block)).map(|range| (range.least, range.most)).collect()
}

/// A figure has 16 digits, most significant first.
#[test]
fn digits() {
    assert_eq!(read(b"0000000000000000"), Some(0));
    assert_eq!(read(b"00000001000000AF"), Some((1 << 32) + 175));
    assert_eq!(read(b"FFFFFFFFFFFFFFFF"), Some(u64::MAX));
    for digits in [&b""[..], b"00000000", b"000000000000000", b"00000000000000000", b"000000000000000a", b"00000000 0000000"] {
        assert_eq!(read(digits), None);
    }
}

/// Erases that all show are known block by block.
#[test]
fn shown() {
    let commit = Erases::of(vec![range(1, 2), range(0, 0), range(1, 2), range(0, 2)], 2);
    assert_eq!(ranges(&commit, 4), [(1, 1), (0, 0), (1, 1), (0, 0)]);
    let twice = Erases::none(4).and(&commit).and(&commit);
    assert_eq!(ranges(&twice, 4), [(2, 2), (0, 0), (2, 2), (0, 0)]);
}

/// Of erases that do not show the sum is known, and each report narrows the rest.
#[test]
fn hidden() {
    let commit = Erases::of(vec![range(0, 0), range(1, 3), range(0, 3)], 3);
    assert_eq!(ranges(&commit, 3), [(0, 0), (1, 3), (0, 2)]);
    let mut erases = Erases::none(3).and(&commit);
    assert!(erases.hold(1, 0).is_err() && erases.hold(1, 4).is_err() && erases.hold(0, 1).is_err());
    erases.hold(2, 1).unwrap();
    assert_eq!(ranges(&erases, 3), [(0, 0), (2, 2), (1, 1)]);
    assert!(erases.hold(1, 1).is_err() && erases.hold(2, 2).is_err());
    assert_eq!(ranges(&erases.and(&commit), 3), [(0, 0), (3, 5), (1, 3)]);
}

/// Figures that are open stay as reported.
#[test]
fn open() {
    let mut erases = Erases::open(3);
    erases.hold(1, u64::MAX).unwrap();
    erases.hold(2, 7).unwrap();
    assert!(erases.hold(1, 0).is_err() && erases.hold(2, 8).is_err());
    assert_eq!(ranges(&erases, 3), [(0, u64::MAX), (u64::MAX, u64::MAX), (7, 7)]);
}
