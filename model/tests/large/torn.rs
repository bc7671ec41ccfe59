//! Whole and torn operations on the large part.
use crate::{formatted, BOTH, LARGE};
use model::model::chip::{self, Operation, Power, OBSOLETE, USED, VALID};
use model::model::counts::Counts;
use model::model::image::meaning;
use model::model::judge::format;

/// The places of the bytes that an operation changed, as the first and one past the last.
fn changed(before: &[u8], after: &[u8]) -> Option<(usize, usize)> {
    let differ = |at: &usize| before[*at] != after[*at];
    let first = (0..before.len()).find(differ)?;
    Some((first, (0..before.len()).rfind(differ)? + 1))
}

/// Torn bytes 1, 2, 3 and 254 in turn, with zeros in the spare part: in the places of two marks and at its end.
fn torn_bytes() -> Vec<u8> {
    let mut torn: Vec<u8> = (0..LARGE.torn).map(|at| [1, 2, 3, 254][at % 4]).collect();
    torn[LARGE.data] = 0;
    torn[LARGE.data + VALID] = 0;
    torn[LARGE.torn - 1] = 0;
    torn
}

/// A whole data program writes 2,048 bytes, a whole mark one byte, a whole erase 64 pages.
#[test]
fn whole_operations() {
    let (page, block) = (LARGE.page(), LARGE.block());
    let data = vec![4; LARGE.data];
    let operations = [
        (Operation::Program(65, &data), (65 * page, 65 * page + 2048), 4),
        (Operation::Mark(191, USED), (192 * page - 64, 192 * page - 63), 0),
        (Operation::Mark(191, OBSOLETE), (192 * page - 62, 192 * page - 61), 0),
        (Operation::Erase(1), (block, 2 * block), 255),
    ];
    for (operation, (from, to), byte) in operations {
        let mut image = vec![9; BOTH];
        chip::done(LARGE, &mut image, &operation);
        assert_eq!(changed(&vec![9; BOTH], &image), Some((from, to)));
        assert!(image[from..to].iter().all(|b| *b == byte));
    }
}

/// A torn data program leaves the first 2,048 torn bytes and no spare byte.
#[test]
fn torn_program() {
    let (torn, mut image) = (torn_bytes(), vec![9; BOTH]);
    chip::torn(LARGE, &mut image, &Operation::Program(70, &[]), &torn);
    let start = 70 * LARGE.page();
    assert_eq!(changed(&vec![9; BOTH], &image), Some((start, start + 2048)));
    assert_eq!(image[start..start + 2048], torn[..2048]);
}

/// A torn mark becomes torn byte 0.
#[test]
fn torn_mark() {
    let mut torn = torn_bytes();
    for (first, which) in [(1, USED), (0, VALID), (255, OBSOLETE)] {
        torn[0] = first;
        let mut image = vec![9; BOTH];
        chip::torn(LARGE, &mut image, &Operation::Mark(64, which), &torn);
        let at = 64 * LARGE.page() + 2048 + which;
        assert_eq!((changed(&vec![9; BOTH], &image), image[at]), (Some((at, at + 1)), first));
    }
}

/// A torn erase leaves the block if torn byte 0 is 0; else each of its 64 pages gets the torn bytes, 255 for each 0 in the spare part.
#[test]
fn torn_erase() {
    let (mut torn, mut image) = (torn_bytes(), vec![9; BOTH]);
    torn[1] = 0;
    torn[1000] = 0;
    chip::torn(LARGE, &mut image, &Operation::Erase(1), &torn);
    assert_eq!(changed(&vec![9; BOTH], &image), Some((LARGE.block(), 2 * LARGE.block())));
    for page in image[LARGE.block()..2 * LARGE.block()].chunks_exact(LARGE.page()) {
        assert_eq!(page[..2048], torn[..2048]);
        assert_eq!(page[2048..2052], [255, 255, torn[2050], torn[2051]]);
        assert_eq!((page[2110], page[2111]), (torn[2110], 255));
    }
    torn[0] = 0;
    chip::torn(LARGE, &mut image, &Operation::Erase(2), &torn);
    assert_eq!(changed(&vec![9; BOTH], &image), Some((LARGE.block(), 2 * LARGE.block())));
}

/// A format of 3 blocks has 3 erases, 2 marks and a data program; with less it is cut there and tells the allowance.
#[test]
fn cut_formats() {
    let torn = torn_bytes();
    for allowance in 0..=6 {
        let mut image = vec![9; BOTH];
        let mut power = Power::new(LARGE, allowance, &torn);
        format(LARGE, &mut image, 3, &mut power);
        assert_eq!((power.gone(), power.told().sum()), (allowance < 6, allowance as u64));
        assert_eq!(image == formatted(LARGE, 3), allowance == 6);
        let answer = if allowance < 6 { Err(7) } else { Ok(1) };
        assert_eq!(meaning(LARGE, &image, 3).map(|means| means.greatest), answer, "allowance {allowance}");
    }
    let mut power = Power::new(LARGE, 6, &torn);
    format(LARGE, &mut vec![9; BOTH], 3, &mut power);
    assert_eq!(power.told(), Counts { programs: 1, marks: 2, erases: 3 });
}
