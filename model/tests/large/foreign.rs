//! The makers of images on the large part: valid ones mean what they were built to mean, each fault is found.
use crate::LARGE;
use model::model::foreign::{damaged_by, faults, full_path, valid_of};
use model::model::image::{live, meaning};
use model::model::unit::half;
use model::random::Random;

/// Valid images mean the tree that they were built from.
#[test]
fn valid_images_mean_their_tree() {
    let mut random = Random::new(71);
    let (mut void, mut longest, mut most) = (0, 0, 0);
    for round in 0..250 {
        let blocks = if round % 50 == 0 { 32 } else { 3 + random.index(4) };
        let (image, tree) = valid_of(&mut random, LARGE, blocks);
        let means = meaning(LARGE, &image, blocks).unwrap_or_else(|refusal| panic!("round {round}: {refusal}"));
        assert!(means.tree == tree, "round {round}: another tree");
        void += !means.void.is_empty() as u32;
        longest = longest.max(means.lists.iter().map(Vec::len).max().unwrap_or(0));
        let pages = image.chunks_exact(LARGE.page()).filter(|page| live(LARGE, page));
        most = most.max(pages.map(|page| half(page, 6)).max().unwrap_or(0));
    }
    println!("{void} with void pages, longest list {longest}, most units {most}");
    assert!(void > 50 && longest == 4 && most == 170);
}

/// Each of the 71 faults gives the refusal intended, on chips of several sizes.
#[test]
fn damaged_images_give_the_refusal_intended() {
    let mut random = Random::new(72);
    assert_eq!(faults().len(), 71);
    for fault in faults() {
        for round in 0..9 {
            let blocks = if round == 0 { 32 } else { 3 + random.index(3) };
            let made = damaged_by(&mut random, LARGE, blocks, &fault).unwrap_or_else(|| panic!("{} never made", fault.name));
            assert_eq!(meaning(LARGE, &made.image, blocks).err(), Some(fault.refusal), "{} round {round}", fault.name);
        }
    }
}

/// Images with a full path have a meaning, and the key of the path is not in it.
#[test]
fn full_paths_have_a_meaning() {
    let mut random = Random::new(73);
    for round in 0..60 {
        let blocks = [3, 6, 12][round % 3];
        let (image, key) = full_path(&mut random, LARGE, blocks);
        let means = meaning(LARGE, &image, blocks).expect("a meaning");
        assert_eq!(means.tree.find(key), None);
    }
}
