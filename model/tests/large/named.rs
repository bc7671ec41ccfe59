//! The judge when its frames name the large part, or one part after the other.
use crate::other::two_meanings;
use crate::{formatted, insert, reset, write, BOTH, LARGE, SMALL};
use model::model::frame::{line, parse, Frame};
use model::model::geometry::Geometry;
use model::model::judge::Judge;

/// Finished or refused without an operation: 24 digits of counts.
const NONE: &str = "000000000000000000000000";

/// A judge that names the large part at first, and the image that is lent to it.
struct Names {
    judge: Judge,
    image: Vec<u8>,
}

impl Names {
    /// The start.
    fn new() -> Names {
        Names { judge: Judge::naming(LARGE), image: vec![255; BOTH] }
    }

    /// A frame, its reply and the image after it are accepted.
    fn accept(&mut self, frame: Frame, reply: &str) {
        self.judge.line(line(&frame).as_bytes(), reply, &self.image).unwrap();
    }

    /// A frame's reply is found to be wrong.
    fn reject(&mut self, frame: Frame, reply: &str) {
        assert!(self.judge.line(line(&frame).as_bytes(), reply, &self.image).is_err(), "{frame:?} {reply}");
    }

    /// A geometry is named.
    fn name(&mut self, geometry: Geometry) {
        self.accept(Frame::Name((geometry == LARGE) as u8), "00");
    }

    /// A geometry is named, and torn bytes of its length are lent.
    fn choose(&mut self, geometry: Geometry) {
        self.name(geometry);
        self.accept(Frame::TornLength(geometry.torn as u32), "00");
    }

    /// A finished format of the geometry named.
    fn format(&mut self, geometry: Geometry) {
        let blocks = BOTH / geometry.block();
        self.image = formatted(geometry, blocks);
        self.accept(Frame::Format(geometry.never_cut), &format!("000000000100000002{blocks:08X}"));
    }
}

/// A format, block reports and shows on the large part.
#[test]
fn reports_and_shows() {
    let mut names = Names::new();
    names.format(LARGE);
    assert!(names.judge.all_fixed());
    names.accept(Frame::Report(0), "003F010000000000000000");
    names.accept(Frame::Report(2), "0040000000000000000000");
    names.accept(Frame::Report(3), "04");
    names.accept(Frame::Show(0), "00030000000000000000000000");
    names.accept(Frame::Show(191), "00");
    names.accept(Frame::Show(192), "04");
    names.name(SMALL);
    names.accept(Frame::Show(0), "00");
    names.accept(Frame::Show(767), "00");
    names.accept(Frame::Show(768), "04");
    names.accept(Frame::Report(0), "003F010000000000000000");
}

/// A mount that names the other part gives what the steps say of the bytes, and the list that a format began is over.
#[test]
fn mounts_that_name_the_other_part() {
    for (own, other) in [(SMALL, LARGE), (LARGE, SMALL)] {
        let mut names = Names::new();
        names.choose(own);
        names.format(own);
        names.accept(Frame::Mount(255), &format!("00{NONE}"));
        assert!(names.judge.all_fixed());
        names.name(other);
        names.accept(Frame::Mount(255), &format!("01{NONE}"));
        assert!(names.judge.all_fixed());
        names.choose(other);
        names.accept(Frame::Mount(255), &format!("07{NONE}"));
        names.accept(Frame::LookUp(1), "02");
        names.choose(own);
        names.accept(Frame::Mount(255), &format!("00{NONE}"));
        assert!(!names.judge.all_fixed());
        names.format(own);
        assert!(names.judge.all_fixed());
    }
}

/// Of bytes with two meanings the one of the geometry named is mounted; the other calls keep it, whatever is named meanwhile.
#[test]
fn mounts_of_two_meanings() {
    let mut names = Names::new();
    for (at, byte) in two_meanings().iter().enumerate().filter(|(_, byte)| **byte != 255) {
        names.image[at] = *byte;
        names.accept(Frame::SetImage(at as u32, *byte), "00");
    }
    for (named, meanwhile, value, blocks) in [(SMALL, LARGE, 200, 24), (LARGE, SMALL, 100, 3), (SMALL, SMALL, 200, 24)] {
        names.choose(named);
        names.accept(Frame::Mount(255), &format!("00{NONE}"));
        names.choose(meanwhile);
        names.accept(Frame::LookUp(1), &format!("00{value:08X}01"));
        names.accept(Frame::Report(blocks), "04");
        assert_eq!((names.judge.store().geometry, names.judge.store().blocks), (named, blocks as usize));
    }
}

/// Updates, forecasts and commits read with the geometry of the store, though the other one is named meanwhile.
#[test]
fn commits_keep_the_stores_geometry() {
    for (own, other) in [(SMALL, LARGE), (LARGE, SMALL)] {
        let mut names = Names::new();
        names.choose(own);
        names.format(own);
        names.name(other);
        names.accept(Frame::Insert(1, 7), "00");
        names.accept(Frame::Forecast, "00000000010000000200000000");
        names.accept(Frame::TornLength(other.torn as u32), "00");
        names.accept(Frame::Commit(own.never_cut), &format!("01{NONE}"));
        names.accept(Frame::TornLength(own.torn as u32), "00");
        write(own, &mut names.image, own.pages, (2, 0, 1), &[insert(0, 1, 7)]);
        names.accept(Frame::Commit(own.never_cut), "00000000010000000200000000");
        names.accept(Frame::LookUp(1), "000000000702");
        names.accept(Frame::Report(1), &format!("00{:02X}010000000000000000", own.pages - 1));
        assert!(names.judge.all_fixed());
        names.accept(Frame::TornLength(other.torn as u32), "00");
        names.accept(Frame::Mount(255), &format!("07{NONE}"));
    }
}

/// A forecast of a commit has room for all pages of 3 large blocks but the first, though the small part is named meanwhile.
#[test]
fn room_of_a_forecast() {
    for (pages, fits) in [(96, true), (191, true), (192, false)] {
        let mut names = Names::new();
        names.format(LARGE);
        names.name(SMALL);
        names.accept(Frame::Insert(1, 1), "00");
        let reply = format!("00{pages:08X}{:08X}00000000", 2 * pages);
        assert_eq!(names.judge.line(b"09", &reply, &names.image).is_ok(), fits, "{pages} pages");
    }
}

/// A commit whose erases of a free block do not show is cut with one less than the bound, never with the bound: 2,000 or 4,000 by the
/// store's geometry, though the other one is named meanwhile.
#[test]
fn bound_of_a_commit() {
    for (part, allowance, below) in
        [(SMALL, 1999, true), (SMALL, 2000, false), (LARGE, 2000, true), (LARGE, 3999, true), (LARGE, 4000, false)]
    {
        let mut names = Names::new();
        names.choose(part);
        names.format(part);
        names.accept(Frame::Insert(1, 1), "00");
        names.name(if part == SMALL { LARGE } else { SMALL });
        let reply = format!("0A0000000000000000{allowance:08X}");
        let accepted = names.judge.line(line(&Frame::Commit(allowance)).as_bytes(), &reply, &names.image).is_ok();
        assert_eq!(accepted, below, "{allowance} on {part:?}");
    }
}

/// Frame 17 has one byte, 0 or 1; another byte is answered FF and names nothing.
#[test]
fn bytes_of_frame_17() {
    for text in ["17", "170", "17001", "1700000000", "1700000001", "170000000100", "17 0", "170g", "170G"] {
        assert_eq!(parse(text.as_bytes()), None);
        let mut names = Names::new();
        names.judge.line(text.as_bytes(), "FF", &names.image).unwrap();
        assert!(names.judge.line(text.as_bytes(), "00", &names.image).is_err());
    }
    for part in 0..=255 {
        let mut names = Names::new();
        names.reject(Frame::Name(part), if part < 2 { "FF" } else { "00" });
        names.accept(Frame::Name(part), if part < 2 { "00" } else { "FF" });
        names.image = vec![255; 3 * if part == 0 { SMALL } else { LARGE }.block()];
        names.accept(Frame::Blocks(3), "00");
    }
}

/// Frame 10 lends up to 40 small or 33 large blocks, frame 11 all bytes of these, frame 14 up to 2,200 torn bytes.
#[test]
fn what_is_lent_at_most() {
    for (part, most) in [(SMALL, 40), (LARGE, 33)] {
        let mut names = Names::new();
        names.name(part);
        names.image = vec![255; most * part.block()];
        names.accept(Frame::Blocks(most as u32), "00");
        names.accept(Frame::Blocks(most as u32 + 1), "FF");
        names.accept(Frame::Length(4_460_545), "FF");
        names.accept(Frame::TornLength(2200), "00");
        names.accept(Frame::SetTorn(2199, 1), "00");
        names.accept(Frame::SetTorn(2200, 1), "FF");
        names.accept(Frame::TornLength(2201), "FF");
        names.image = vec![255; 4_460_544];
        names.accept(Frame::Length(4_460_544), "00");
    }
}

/// What is lent at the start, and that frame 17 changes nothing of it.
#[test]
fn start() {
    let (mut judge, image) = (Judge::new(), vec![255; 3 * SMALL.block()]);
    for (text, reply) in [("1701", "00"), ("0700000000", "01"), ("05000000FF", &format!("01{NONE}")), ("1700", "00")] {
        judge.line(text.as_bytes(), reply, &image).unwrap();
    }
    let formatted = formatted(SMALL, 3);
    judge.line(b"00000007D0", "00000000010000000200000003", &formatted).unwrap();
    judge.line(b"1701", "00", &formatted).unwrap();
    judge.line(b"0600000000", "001F010000000000000000", &formatted).unwrap();
    judge.line(b"0700000000", "01", &formatted).unwrap();
    assert!(judge.all_fixed());
}

/// Replies of a store that keeps its geometry where the one named counts, or takes the one named where its own counts, are found.
#[test]
fn wrong_geometries() {
    for (own, other) in [(SMALL, LARGE), (LARGE, SMALL)] {
        let mut names = Names::new();
        names.choose(own);
        names.format(own);
        names.accept(Frame::Insert(1, 7), "00");
        names.choose(other);
        names.reject(Frame::Commit(4000), "00000000010000000200000000");
        names.reject(Frame::Report(0), &format!("00{:02X}010000000000000000", other.pages - 1));
        names.reject(Frame::Show(0), "00030000000000000000000000");
        names.reject(Frame::Mount(255), &format!("00{NONE}"));
    }
}

/// A large block without a free page reports 64, a small one 32.
#[test]
fn reports_of_full_blocks() {
    for (part, none, wrong) in [(SMALL, "20", "40"), (LARGE, "40", "20")] {
        let mut names = Names::new();
        names.choose(part);
        names.format(part);
        for page in 0..part.pages {
            let at = part.block() + page * part.page() + part.data;
            names.image[at] = 0;
            names.accept(Frame::SetImage(at as u32, 0), "00");
        }
        names.accept(Frame::Mount(255), &format!("00{NONE}"));
        names.reject(Frame::Report(1), &format!("0000{wrong}0000000000000000"));
        names.accept(Frame::Report(1), &format!("0000{none}0000000000000000"));
    }
}

/// A commit's page has at most 42 units on the small part and 170 on the large one.
#[test]
fn units_of_a_commit() {
    for (part, units, fits) in [(SMALL, 42, true), (SMALL, 43, false), (LARGE, 43, true), (LARGE, 170, true), (LARGE, 171, false)] {
        let mut names = Names::new();
        names.choose(part);
        names.format(part);
        names.accept(Frame::Insert(1, 7), "00");
        let mut page = vec![insert(0, 1, 7); units.min(part.room)];
        page[0] = reset(0, 0);
        write(part, &mut names.image, part.pages, (2, 0, 1), &page);
        names.image[part.block() + 6] = units as u8;
        let accepted = names.judge.line(b"0400000FA0", "00000000010000000200000000", &names.image).is_ok();
        assert_eq!(accepted, fits, "{units} units on {part:?}");
    }
}
