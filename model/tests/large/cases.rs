//! The lines of document 01, 'What is shown of the cases', on the large part.
use crate::{formatted, insert, leaf, reset, write, BOTH, LARGE, SMALL};
use model::model::chip::{self, OBSOLETE};
use model::model::geometry::Geometry;
use model::model::image::{meaning, Meaning};
use model::model::tree::Tree;
use model::model::unit::{page_data, HEAD, UNIT};

/// A page of an image: commit number, index, count, units.
type Page = (u32, u8, u8, Vec<[u8; UNIT]>);

/// The meaning of 3 large blocks whose last pages are given, the first of them at the last place.
fn read(pages: &[Page]) -> Result<Meaning, u32> {
    let mut image = vec![255; BOTH];
    for (at, (commit, index, count, units)) in pages.iter().enumerate() {
        write(LARGE, &mut image, 191 - at, (*commit, *index, *count), units);
    }
    meaning(LARGE, &image, 3)
}

/// The numbers of both parts: pages are data and spare, torn slices as long as pages, units fill the data after the head.
#[test]
fn numbers_of_the_parts() {
    let numbers = |part: Geometry| (part.data, part.spare, part.page(), part.pages, part.block(), part.room, part.torn, part.never_cut);
    assert_eq!(numbers(SMALL), (512, 16, 528, 32, 16_896, 42, 528, 2000));
    assert_eq!(numbers(LARGE), (2048, 64, 2112, 64, 135_168, 170, 2112, 4000));
    for part in [SMALL, LARGE] {
        assert_eq!((part.torn, HEAD + part.room * UNIT), (part.page(), part.data));
    }
    assert_eq!(24 * SMALL.block(), BOTH);
}

/// Format's page: the same first bytes, then 255 to the end of the data.
#[test]
fn formats_page() {
    let data = page_data(LARGE, 1, 0, 1, &[reset(0, 0)]);
    assert_eq!(data[..9], [1, 0, 0, 0, 0, 1, 1, 0, 3]);
    assert_eq!((data.len(), data[20..].iter().all(|byte| *byte == 255)), (2048, true));
    assert_eq!(meaning(LARGE, &formatted(LARGE, 3), 3).unwrap().tree, Tree::leaf(3));
}

/// 1 to 170 units pass step 2; none, 171 and more give 8.
#[test]
fn units_of_a_page() {
    for units in [1, 42, 43, 169, 170] {
        let means = read(&[(1, 0, 1, leaf(units))]).unwrap();
        assert_eq!(means.tree.node(0).entries.len(), 16.min(units - 1), "{units} units");
    }
    for (told, answer) in [(170, None), (171, Some(8)), (0, Some(8)), (426, Some(8)), (65535, Some(8))] {
        let mut image = formatted(LARGE, 3);
        image[..LARGE.data].copy_from_slice(&page_data(LARGE, 1, 0, 1, &leaf(170)));
        image[6..8].copy_from_slice(&u16::to_le_bytes(told));
        assert_eq!(meaning(LARGE, &image, 3).err(), answer, "{told} units told");
    }
}

/// A byte after the units that is not 255 gives 8 up to the last data byte; spare bytes behind the marks are not read.
#[test]
fn bytes_after_the_units() {
    for (at, answer) in [(20, Some(8)), (511, Some(8)), (513, Some(8)), (2047, Some(8)), (2051, None), (2111, None)] {
        let mut image = formatted(LARGE, 3);
        image[at] = 0;
        assert_eq!(meaning(LARGE, &image, 3).err(), answer, "byte {at}");
    }
}

/// The marks are spare bytes 0, 1 and 2: a page with its valid mark not set, or its obsolete mark set, is not live.
#[test]
fn marks_of_a_page() {
    let image = formatted(LARGE, 3);
    assert_eq!(image[2047..2052], [255, 0, 0, 255, 255]);
    for (mark, byte, answer) in
        [(0, 255, None), (0, 7, None), (1, 1, Some(7)), (1, 255, Some(7)), (OBSOLETE, 0, Some(7)), (OBSOLETE, 1, None)]
    {
        let mut image = image.clone();
        image[LARGE.data + mark] = byte;
        assert_eq!(meaning(LARGE, &image, 3).err(), answer, "spare byte {mark} is {byte}");
    }
}

/// The greatest commit with page 0 of 2 is void.
#[test]
fn greatest_commit_with_page_0_of_2_is_void() {
    let means = read(&[(1, 0, 1, vec![reset(0, 0)]), (2, 0, 2, vec![insert(0, 7, 99)])]).unwrap();
    assert_eq!((means.void, means.greatest, means.tree), (vec![190], 1, Tree::leaf(3)));
}

/// An older commit with page 0 of 2 stands when the greatest is whole.
#[test]
fn older_commit_with_page_0_of_2_stands() {
    let means = read(&[(1, 0, 2, vec![reset(0, 0)]), (2, 0, 1, vec![insert(0, 7, 99)])]).unwrap();
    assert_eq!((means.void, means.greatest, means.tree.find(7)), (vec![], 2, Some(99)));
    assert_eq!(means.lists[0], vec![191, 190]);
}

/// The greatest void and the next lower with page 0 of 2 give 8; void pages alone give 7.
#[test]
fn greatest_void_next_with_page_0_of_2() {
    let pages = [(1, 0, 1, vec![reset(0, 0)]), (2, 0, 2, leaf(170)), (3, 0, 2, leaf(170))];
    assert_eq!(read(&pages), Err(8));
    assert_eq!(read(&pages[1..2]), Err(7));
}

/// Level 4 in a reset gives 8, a key below its leaf's low bound 9, a list of 5 gives 8.
#[test]
fn levels_bounds_and_lists() {
    assert_eq!(read(&[(1, 0, 1, vec![reset(0, 4)])]), Err(8));
    let units = |key| vec![reset(0, 1), insert(0, 0, 1), insert(0, 10, 2), reset(1, 0), reset(2, 0), insert(2, key, 5)];
    assert!(read(&[(1, 0, 1, units(10))]).is_ok());
    assert_eq!(read(&[(1, 0, 1, units(9))]), Err(9));
    let list = |length: u32| (1..=length).map(|number| (number, 0, 1, leaf(1))).collect::<Vec<Page>>();
    let longer = |length: u32| [list(1), (2..=length).map(|number| (number, 0, 1, vec![insert(0, 1, number)])).collect()].concat();
    assert!(read(&list(5)).is_ok() && read(&longer(4)).is_ok());
    assert_eq!(read(&longer(5)), Err(8));
}

/// Node numbers keep their range: below 8 B on either part.
#[test]
fn node_numbers_are_below_8_b() {
    let units = |node| vec![reset(0, 1), insert(0, 0, node), reset(node as u16, 0)];
    assert!(read(&[(1, 0, 1, units(23))]).is_ok());
    assert_eq!(read(&[(1, 0, 1, units(24))]), Err(8));
}

/// The free pages of a block are counted to 64, and the first is 64 if there is none.
#[test]
fn free_pages_of_a_block() {
    let mut image = formatted(LARGE, 3);
    assert_eq!(chip::free_pages(LARGE, &image, 0), (63, 1));
    assert_eq!(chip::free_pages(LARGE, &image, 2), (64, 0));
    for place in 64..128 {
        image[place * LARGE.page() + (place - 64) * 33] = 254;
    }
    assert_eq!(chip::free_pages(LARGE, &image, 1), (0, 64));
    image[128 * LARGE.page() - 1] = 0;
    image[191 * LARGE.page() - 1] = 0;
    assert_eq!(chip::free_pages(LARGE, &image, 2), (63, 0));
}
