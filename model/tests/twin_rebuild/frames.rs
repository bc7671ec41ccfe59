//! The frame 0A of the twin's probe: a rebuild with the part named, told as a mount is.
use super::chips::{chip, Plan};
use super::tables::{random_tree, Sizes};
use super::torn;
use model::probe::Probe;
use model::random::Random;
use model::twin::geometry::{Geometry, LARGE, SMALL};
use model::twin::state::State;

/// A probe that is lent this image, with the part named.
fn lent(part: Geometry, image: &[u8]) -> Probe {
    let mut probe = Probe::new();
    let large = part == LARGE;
    assert_eq!(probe.line(format!("17{:02X}", u8::from(large)).as_bytes()), "00");
    assert_eq!(probe.line(format!("10{:08X}", image.len() / part.block()).as_bytes()), "00");
    assert_eq!(probe.line(format!("14{:08X}", part.page()).as_bytes()), "00");
    for (at, byte) in image.iter().enumerate().filter(|(_, byte)| **byte != 255) {
        assert_eq!(probe.line(format!("12{at:08X}{byte:02X}").as_bytes()), "00");
    }
    (0..part.page()).for_each(|at| assert_eq!(probe.line(format!("13{at:08X}5A").as_bytes()), "00"));
    assert!(probe.image() == image);
    probe
}

/// A mount says 12, a rebuild without power 10, and one with power 0 with its counts; then a mount says 0.
#[test]
fn rebuilds() {
    for (part, blocks) in [(SMALL, 8), (LARGE, 3)] {
        let mut random = Random::new(10);
        let table = random_tree(&mut random, blocks, 3, Sizes::Slim);
        let plan = Plan { table, freed: 3, number: 9, voids: 2, free: 3.min(blocks as usize - 1) };
        let mut image = chip(&mut random, part, blocks as usize, &plan);
        let mut probe = lent(part, &image);
        assert_eq!(probe.line(b"05000000FF"), format!("0C{:024X}", 0));
        assert_eq!(probe.line(b"0A00000000"), format!("0A{:024X}", 0));
        let told = State::new().rebuild(part, &mut image, &torn(part), 2000);
        let (programs, marks) = (told.counts.programs, told.counts.marks);
        assert_eq!((told.refusal, marks, told.counts.erases), (0, 2 * programs + 2, 0));
        assert_eq!(probe.need(10), told.counts);
        assert_eq!(probe.line(b"0A000007D0"), format!("00{programs:08X}{marks:08X}00000000"));
        assert!(probe.image() == image && probe.state().on);
        assert_eq!(probe.line(b"05000000FF"), format!("00{:024X}", 0));
    }
}

/// A rebuild of a chip of the other part, of nothing, and lines that are no frame.
#[test]
fn refusals() {
    let mut probe = Probe::new();
    assert_eq!(probe.line(b"0A000000FF"), format!("07{:024X}", 0));
    assert_eq!(probe.line(b"1701"), "00");
    assert_eq!(probe.line(b"0A000000FF"), format!("01{:024X}", 0));
    for line in ["0A", "0A00", "0A000000FF00", "0A000000FF00000000", "0a000000FF", "0B000000FF"] {
        assert_eq!(probe.line(line.as_bytes()), "FF");
    }
}
