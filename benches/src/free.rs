//! The test of a page for being free: its time by where the first byte stands that is not 255, and that no byte behind it is read.

use crate::both::PAGE;
use crate::clock::{median, nanos, reading};
use crate::library::{is_free, vehinoke_is_free};
use std::ffi::{c_int, c_void};
use std::hint::black_box;
use std::process::Command;

extern "C" {
    fn mmap(at: *mut c_void, len: usize, access: c_int, flags: c_int, file: c_int, offset: i64) -> *mut c_void;
    fn mprotect(at: *mut c_void, len: usize, access: c_int) -> c_int;
}

/// The bytes of a page of the system, and the numbers of access and of private memory without a file.
const SYSTEM_PAGE: usize = 4096;
const NO_ACCESS: c_int = 0;
const READ_WRITE: c_int = 3;
const PRIVATE: c_int = 34;

/// Rounds, and tests of each page in a round.
const ROUNDS: usize = 1000;
const TESTS: usize = 256;

/// Where the first other byte of a tested page stands; the last page is free.
const FIRSTS: [Option<usize>; 6] = [Some(0), Some(4), Some(12), Some(132), Some(527), None];

/// A page by its first other byte: the median of its rounds in nanoseconds a test, and the median of their ratios to the free page.
pub struct Row {
    pub first: Option<usize>,
    pub nanos: f64,
    pub ratio: f64,
}

/// A page of 255, but for a 0 at `first`.
fn page(first: Option<usize>) -> [u8; PAGE] {
    let mut page = [255; PAGE];
    if let Some(at) = first {
        page[at] = 0;
    }
    page
}

/// The nanoseconds of a test of the page, whose answer is compared.
fn time(page: &[u8; PAGE], answer: u32, clock: f64) -> f64 {
    let all = nanos(|| {
        for _ in 0..TESTS {
            assert_eq!(is_free(black_box(page)), answer);
        }
    });
    (all - clock) / TESTS as f64
}

/// The times of the pages, tested alternately.
pub fn rows() -> Vec<Row> {
    let pages = FIRSTS.map(page);
    let mut times = [(); FIRSTS.len()].map(|_| Vec::new());
    for _ in 0..ROUNDS {
        let clock = reading();
        for (i, page) in pages.iter().enumerate() {
            times[i].push(time(page, u32::from(FIRSTS[i].is_none()), clock));
        }
    }
    let free = times[FIRSTS.len() - 1].clone();
    let row = |(first, mut own): (Option<usize>, Vec<f64>)| {
        let mut ratios: Vec<f64> = own.iter().zip(&free).map(|(time, free)| time / free).collect();
        Row { first, nanos: median(&mut own), ratio: median(&mut ratios) }
    };
    FIRSTS.into_iter().zip(times).map(row).collect()
}

/// The end of memory that can be read; the system's page behind it cannot.
fn border() -> *mut u8 {
    unsafe {
        let start = mmap(std::ptr::null_mut(), 2 * SYSTEM_PAGE, READ_WRITE, PRIVATE, -1, 0);
        assert_ne!(start as isize, -1, "no memory");
        let border = start.cast::<u8>().add(SYSTEM_PAGE);
        assert_eq!(mprotect(border.cast(), SYSTEM_PAGE, NO_ACCESS), 0);
        border
    }
}

/// The test of a page whose first `blank` bytes are 255, then one `other`: all behind lies in memory that cannot be read, so that a
/// test that looks at it ends the process.
fn test_at_border(border: *mut u8, blank: usize, other: u8) -> u32 {
    unsafe {
        let start = border.sub(blank + 1);
        start.write_bytes(255, blank);
        border.sub(1).write(other);
        vehinoke_is_free(start, PAGE)
    }
}

/// The child process: no byte behind the first other one is read, wherever it stands, and none behind the page.
pub fn child() {
    let border = border();
    for blank in 0..PAGE {
        assert_eq!(test_at_border(border, blank, 0), 0);
        assert_eq!(test_at_border(border, blank, 254), 0);
    }
    assert_eq!(test_at_border(border, PAGE - 1, 255), 1);
}

/// Whether that holds, tried in a process of its own, which a look at such a byte ends.
pub fn ends_at_first() -> bool {
    let program = std::env::current_exe().unwrap();
    Command::new(program).arg("border").status().unwrap().success()
}
