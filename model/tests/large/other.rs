//! 24 small blocks are as long as 3 large ones: the same bytes read as either part.
use crate::{formatted, insert, leaf, reset, write, BOTH, LARGE, SMALL};
use model::model::foreign;
use model::model::geometry::Geometry;
use model::model::image::{live, meaning};
use model::model::tree::Tree;
use model::model::unit::UNIT;
use model::random::Random;

/// What 24 small blocks and 3 large ones of the same bytes mean: the tree, or the refusal.
fn both(image: &[u8]) -> [Result<Tree, u32>; 2] {
    [(SMALL, 24), (LARGE, 3)].map(|(part, blocks)| meaning(part, image, blocks).map(|means| means.tree))
}

/// A formatted small chip read as large gives 7: the small page's marks are bytes 512 and 513, data of the large page, whose own marks are
/// bytes 2,048 and 2,049 and still 255. So no page is live (step 1).
#[test]
fn formatted_small_chip_read_as_large() {
    let image = formatted(SMALL, 24);
    assert_eq!((image[512], image[513], image[2048], image[2049]), (0, 0, 255, 255));
    assert_eq!(both(&image), [Ok(Tree::leaf(24)), Err(7)]);
}

/// A formatted large chip read as small gives 7: its marks are data bytes 464 and 465 of the small page at place 3 (step 1).
#[test]
fn formatted_large_chip_read_as_small() {
    let image = formatted(LARGE, 3);
    assert_eq!((image[3 * 528 + 464], image[3 * 528 + 465], image[513]), (0, 0, 255));
    assert_eq!(both(&image), [Err(7), Ok(Tree::leaf(3))]);
}

/// Units of a leaf of a node below a root, so many in all, those from the third on of that node.
fn below_root(node: u16, units: usize) -> Vec<[u8; UNIT]> {
    let first = [reset(0, 1), insert(0, 0, node as u32), reset(node, 0)];
    first.into_iter().chain((3..units as u32).map(|key| insert(node, key % 16, key))).collect()
}

/// A small page at place 3 with 39 units: bytes 1 and 2 of the last, 0 and a node number, are the valid and obsolete marks of large page 0.
/// That page is live then, unless the node number's low byte is 0, and what small page 0 holds breaks step 2: marks after its units, or, if
/// free, an index equal to its count.
#[test]
fn units_of_a_small_chip_read_as_marks() {
    for (node, units, first, answer) in [(5, 39, true, 8), (5, 39, false, 8), (5, 38, true, 7), (5, 42, true, 8), (0, 39, true, 7)] {
        let mut image = if first { formatted(SMALL, 24) } else { vec![255; BOTH] };
        let units = if node > 0 { below_root(node, units) } else { leaf(units) };
        write(SMALL, &mut image, 3, (2, 0, 1), &units);
        assert_eq!(live(LARGE, &image[..LARGE.page()]), answer == 8);
        let [small, large] = both(&image);
        assert!(small.is_ok());
        assert_eq!(large, Err(answer), "node {node}");
    }
}

/// A large page with 43 units: bytes 1 and 2 of the last, 0 and a node number, are the valid and obsolete marks of small page 0, which has
/// more than 42 units then (step 2).
#[test]
fn units_of_a_large_chip_read_as_marks() {
    for (node, units, answer) in [(5, 43, 8), (5, 170, 8), (5, 42, 7), (0, 43, 7)] {
        let mut image = vec![255; BOTH];
        let units = if node > 0 { below_root(node, units) } else { leaf(units) };
        write(LARGE, &mut image, 0, (1, 0, 1), &units);
        let [small, large] = both(&image);
        assert!(large.is_ok());
        assert_eq!(small, Err(answer), "node {node}");
    }
}

/// Bytes with a meaning as either part: large page 0 has few units, and small page 4 lies in the data of large page 1.
pub fn two_meanings() -> Vec<u8> {
    let mut image = vec![255; BOTH];
    write(LARGE, &mut image, 0, (7, 0, 1), &[reset(0, 0), insert(0, 1, 100)]);
    write(SMALL, &mut image, 4, (9, 0, 1), &[reset(0, 0), insert(0, 1, 200)]);
    image
}

/// The geometry named decides which of two meanings is read.
#[test]
fn one_image_with_two_meanings() {
    let means =
        |part: Geometry, blocks| meaning(part, &two_meanings(), blocks).map(|means| (means.greatest, means.tree.find(1), means.lists));
    let lists = |blocks: usize, place| [vec![vec![place]], vec![vec![]; 8 * blocks - 1]].concat();
    assert_eq!(means(SMALL, 24), Ok((9, Some(200), lists(24, 4))));
    assert_eq!(means(LARGE, 3), Ok((7, Some(100), lists(3, 0))));
}

/// Foreign images of either part read as the other, and noise, are refused or mean something; most are refused.
#[test]
fn foreign_images_read_as_the_other_part() {
    let mut random = Random::new(61);
    let mut answers = [0; 3];
    for round in 0..60 {
        let image = if round % 2 == 0 { foreign::valid(&mut random, SMALL, 24) } else { foreign::valid(&mut random, LARGE, 3) };
        let [small, large] = both(&image);
        let (own, other) = if round % 2 == 0 { (small, large) } else { (large, small) };
        assert!(own.is_ok());
        answers[other.err().map_or(0, |refusal| refusal as usize - 6)] += 1;
    }
    println!("{answers:?} of 60 mean something, give 7, give 8");
    assert!(answers[2] > 20);
}
