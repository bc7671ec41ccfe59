//! Makers of images: valid ones that no commit of a store wrote, and damaged ones with a single fault.
mod draft;
mod fault_freed;
mod fault_pages;
mod fault_tree;
mod fault_units;
mod grow;
mod history;
mod steep;
mod stock;
mod thin;

use crate::model::geometry::Geometry;
use crate::model::tree::Tree;
use crate::random::Random;
use draft::Draft;
pub use grow::thick as thick_tree;
pub use steep::tree as steep_tree;
pub use stock::{stock, Free, Stock};
pub use thin::tree as thin_tree;

/// A fault, put into a tree before it is written or into the written pages. False when the image gives no occasion for it.
enum Make {
    Tree(fn(&mut Tree, &mut Random) -> bool),
    Pages(fn(&mut Draft, &mut Random) -> bool),
}

/// A fault: its name, the refusal that mount gives for it, and its maker.
pub struct Fault {
    pub name: &'static str,
    pub refusal: u32,
    make: Make,
}

/// A damaged image, the name of its fault and the refusal intended.
pub struct Damaged {
    pub image: Vec<u8>,
    pub fault: &'static str,
    pub refusal: u32,
}

/// An image that obeys the layout, is not thin and is no product of a store's commits.
pub fn valid(random: &mut Random, geometry: Geometry, blocks: usize) -> Vec<u8> {
    valid_of(random, geometry, blocks).0
}

/// A valid image, and the tree that it was built to mean.
pub fn valid_of(random: &mut Random, geometry: Geometry, blocks: usize) -> (Vec<u8>, Tree) {
    let tree = grow::thick(random, blocks);
    (history::draft(random, geometry, blocks, &tree).render(), tree)
}

/// A valid image of several levels whose nodes have few entries each, and the tree that it was built to mean.
pub fn slim_of(random: &mut Random, geometry: Geometry, blocks: usize) -> (Vec<u8>, Tree) {
    let tree = grow::slim(random, blocks);
    (history::draft(random, geometry, blocks, &tree).render(), tree)
}

/// An image that obeys the layout, thin or not, and the tree that it was built to mean.
pub fn any_of(random: &mut Random, geometry: Geometry, blocks: usize) -> (Vec<u8>, Tree) {
    let tree = grow::tree(random, blocks);
    (history::draft(random, geometry, blocks, &tree).render(), tree)
}

/// A valid image whose tree is full, or almost, on the path of a key that it does not have, and that key.
pub fn full_path(random: &mut Random, geometry: Geometry, blocks: usize) -> (Vec<u8>, u32) {
    let (tree, key) = steep::tree(random, blocks);
    (history::draft(random, geometry, blocks, &tree).render(), key)
}

/// A valid image with one fault, drawn from all.
pub fn damaged(random: &mut Random, geometry: Geometry, blocks: usize) -> Damaged {
    let faults = faults();
    loop {
        let at = random.index(faults.len());
        if let Some(damaged) = damaged_by(random, geometry, blocks, &faults[at]) {
            return damaged;
        }
    }
}

/// A valid image with one given fault; none when many valid images gave no occasion for it.
pub fn damaged_by(random: &mut Random, geometry: Geometry, blocks: usize, fault: &Fault) -> Option<Damaged> {
    for _ in 0..400 {
        let mut tree = grow::tree(random, blocks);
        if let Make::Tree(make) = fault.make {
            if !make(&mut tree, random) {
                continue;
            }
        }
        let mut draft = history::draft(random, geometry, blocks, &tree);
        if let Make::Pages(make) = fault.make {
            if !make(&mut draft, random) {
                continue;
            }
        }
        return Some(Damaged { image: draft.render(), fault: fault.name, refusal: fault.refusal });
    }
    None
}

/// All faults.
pub fn faults() -> Vec<Fault> {
    let mut all = Vec::new();
    for (name, refusal, make) in fault_pages::FAULTS.iter().chain(fault_units::FAULTS).chain(fault_freed::FAULTS) {
        all.push(Fault { name, refusal: *refusal, make: Make::Pages(*make) });
    }
    for (name, make) in fault_tree::FAULTS {
        all.push(Fault { name, refusal: crate::model::image::NO_TREE, make: Make::Tree(*make) });
    }
    all
}
