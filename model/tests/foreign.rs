//! The makers of images: valid ones have a meaning, damaged ones the refusal intended, and each fault occurs.
use model::model::foreign::{any_of, damaged, damaged_by, faults, full_path, slim_of, thin_tree, valid};
use model::model::geometry::Geometry;
use model::model::image::meaning;
use model::model::tree::FULL;
use model::random::Random;
use std::collections::BTreeMap;

/// The part of these tests.
const SMALL: Geometry = Geometry::SMALL;

/// Valid images have a meaning, all of them.
#[test]
fn valid_images_have_a_meaning() {
    let mut random = Random::new(1);
    let (mut good, mut levels, mut void, mut longest, mut freed) = (0, [0; 4], 0, 0, 0);
    for round in 0..2000 {
        let blocks = if round % 20 == 0 { 3 + random.index(30) } else { 3 + random.index(4) };
        let image = valid(&mut random, SMALL, blocks);
        match meaning(SMALL, &image, blocks) {
            Ok(means) => {
                good += 1;
                levels[means.tree.node(0).level as usize] += 1;
                void += !means.void.is_empty() as u32;
                longest = longest.max(means.lists.iter().map(Vec::len).max().unwrap_or(0));
                freed += (0..8 * blocks).any(|number| means.freed(number)) as u32;
            }
            Err(refusal) => println!("round {round}, {blocks} blocks: {refusal}"),
        }
    }
    println!("{good} of 2000 have a meaning, roots by level {levels:?}, {void} with void pages, longest list {longest}");
    println!("{freed} with freed nodes");
    assert_eq!(good, 2000);
    assert!((500..1900).contains(&freed));
}

/// Each fault gives the refusal intended, on chips of several sizes.
#[test]
fn damaged_images_give_the_refusal_intended() {
    let mut random = Random::new(2);
    for fault in faults() {
        for round in 0..40 {
            let blocks = if round % 20 == 0 { 32 } else { 3 + random.index(4) };
            let made = damaged_by(&mut random, SMALL, blocks, &fault).unwrap_or_else(|| panic!("{} never made", fault.name));
            assert_eq!(meaning(SMALL, &made.image, blocks).err(), Some(fault.refusal), "{} round {round}", fault.name);
        }
    }
}

/// Each fault occurs among images drawn at random.
#[test]
fn each_fault_occurs() {
    let mut random = Random::new(3);
    let mut counts: BTreeMap<&str, u32> = BTreeMap::new();
    for _ in 0..4000 {
        let made = damaged(&mut random, SMALL, 3);
        assert_eq!(meaning(SMALL, &made.image, 3).err(), Some(made.refusal), "{}", made.fault);
        *counts.entry(made.fault).or_default() += 1;
    }
    println!("{counts:#?}");
    for fault in faults() {
        assert!(counts.contains_key(fault.name), "{} did not occur", fault.name);
    }
}

/// Images with a full path have a meaning and are not thin; inserts on the path are refused for want of a number.
#[test]
fn full_paths_meet_refusal_5() {
    let mut random = Random::new(4);
    let (mut fits, mut numbers, mut levels) = (0, 0, [0; 4]);
    for round in 0..600 {
        let blocks = [3, 4, 6, 12, 24, 32][round % 6];
        let (image, key) = full_path(&mut random, SMALL, blocks);
        let mut tree = meaning(SMALL, &image, blocks).expect("a meaning").tree;
        assert!(!tree.thin());
        let path = tree.path(key);
        assert!(path[1..].iter().all(|number| tree.node(*number).entries.len() + 1 >= FULL));
        levels[tree.node(0).level as usize] += 1;
        match tree.insert(key, 1) {
            true => fits += 1,
            false => numbers += 1,
        }
    }
    println!("{fits} fit, {numbers} lack a number, roots by level {levels:?}");
    assert!(fits > 20 && numbers > 20 && levels.into_iter().all(|level| level > 5));
}

/// Valid images and those with few entries a node are not thin; any images are both.
#[test]
fn which_images_are_thin() {
    let mut random = Random::new(5);
    let (mut levels, mut thin) = ([0; 4], 0);
    for round in 0..300 {
        let blocks = if round % 10 == 0 { 20 + random.index(13) } else { 3 + random.index(4) };
        let (image, tree) = slim_of(&mut random, SMALL, blocks);
        let means = meaning(SMALL, &image, blocks).expect("a meaning");
        assert!(means.tree == tree && !tree.thin() && tree.node(0).level > 0);
        levels[tree.node(0).level as usize] += 1;
        let image = valid(&mut random, SMALL, blocks);
        assert!(!meaning(SMALL, &image, blocks).expect("a meaning").tree.thin());
        thin += any_of(&mut random, SMALL, blocks).1.thin() as u32;
    }
    println!("roots by level {levels:?}, {thin} of any are thin");
    assert!(levels[1..].iter().all(|level| *level > 3) && (50..280).contains(&thin));
}

/// Thin trees of each height: with node 0 alone thin, with one other interior node of 1, 2 and 7 entries alone, and with several.
#[test]
fn thin_trees_of_all_kinds() {
    let mut random = Random::new(6);
    let mut counts: BTreeMap<String, u32> = BTreeMap::new();
    for round in 0..3000 {
        let (blocks, level) = ([3, 4, 8, 20, 32][round % 5], 1 + random.below(3) as u32);
        let tree = thin_tree(&mut random, blocks, level);
        assert!(tree.thin() && tree.node(0).level == level);
        let inner = tree.nodes[1..].iter().flatten().filter(|node| node.level > 0).map(|node| node.entries.len());
        let few: Vec<usize> = inner.filter(|entries| *entries < 8).collect();
        let kind = match (tree.node(0).entries.len(), few.as_slice()) {
            (1, []) => "node 0".to_string(),
            (2.., [entries]) => format!("a node of {entries}"),
            _ => "several".to_string(),
        };
        *counts.entry(format!("level {level}: {kind}")).or_default() += 1;
    }
    println!("{counts:#?}");
    for level in 1..4 {
        assert!(counts[&format!("level {level}: node 0")] > 20);
    }
    for kind in ["a node of 1", "a node of 2", "a node of 7", "several"] {
        assert!(counts[&format!("level 2: {kind}")] > 20 && counts[&format!("level 3: {kind}")] > 5, "{kind}");
    }
}
