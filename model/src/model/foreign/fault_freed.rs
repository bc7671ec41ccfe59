//! Faults of freed nodes: steps 4 and 6 of document 01 with note 1 of document 02.
use super::draft::Draft;
use super::fault_pages::Maker;
use super::fault_units::{meaning, set_reset};
use crate::model::tree::Node;
use crate::model::unit::{Deed, Unit, FREED};
use crate::random::Random;

/// Faults of freed nodes: name, refusal, maker.
pub const FAULTS: &[(&str, u32, Maker)] = &[
    ("4: value of 5 to 254 in a reset", 8, value_between),
    ("4: value 255 with a higher byte in a reset", 8, value_high),
    ("4: reset of value 255 with a key", 8, freed_key),
    ("4: insert after 255 in its page", 8, insert_in_page),
    ("4: delete after 255 in its page", 8, delete_in_page),
    ("4: insert after 255 in a later page", 8, insert_later),
    ("4: delete after 255 in a later page", 8, delete_later),
    ("6: a leaf freed that its parent names", 9, leaf_freed),
    ("6: an inner node freed that its parent names", 9, inner_freed),
    ("6: node 0 freed", 9, root_freed),
];

/// Fault of step 4: value of 5 to 254 in a reset.
fn value_between(draft: &mut Draft, random: &mut Random) -> bool {
    let value = [5, 127, 128, 253, 254, 254][random.index(6)];
    set_reset(draft, random, 8, value)
}

/// Fault of step 4: value 255 with a higher byte in a reset.
fn value_high(draft: &mut Draft, random: &mut Random) -> bool {
    let value = [FREED | 1 << (8 + random.below(24)), FREED << 8, FREED << 24, u32::MAX][random.index(4)];
    set_reset(draft, random, 8, value)
}

/// Adds a commit of one page with deeds of one node.
fn add(draft: &mut Draft, random: &mut Random, node: usize, deeds: &[Deed]) -> bool {
    let units: Vec<Unit> = deeds.iter().map(|deed| Unit { node: node as u16, deed: *deed }).collect();
    draft.append(random, &units)
}

/// A number other than 0 whose node, if the tree has it, and being freed pass a test.
fn number(draft: &Draft, random: &mut Random, test: impl Fn(Option<&Node>, bool) -> bool) -> Option<usize> {
    let means = meaning(draft)?;
    let fits = |number: &usize| test(means.tree.nodes[*number].as_ref(), means.freed(*number));
    let all: Vec<usize> = (1..means.lists.len()).filter(fits).collect();
    (!all.is_empty()).then(|| all[random.index(all.len())])
}

/// Fault of step 4: reset of value 255 with a key.
fn freed_key(draft: &mut Draft, random: &mut Random) -> bool {
    let Some(node) = number(draft, random, |node, _| node.is_none()) else { return false };
    if !add(draft, random, node, &[Deed::Reset(FREED)]) {
        return false;
    }
    let last = draft.standing().len() - 1;
    draft.pages[last].units[0][4 + random.index(4)] = [1, 255][random.index(2)];
    true
}

/// Adds a unit after a reset that frees, in one page.
fn in_page(draft: &mut Draft, random: &mut Random, deed: Deed) -> bool {
    let Some(node) = number(draft, random, |node, _| node.is_none()) else { return false };
    add(draft, random, node, &[Deed::Reset(FREED), deed])
}

/// Fault of step 4: insert after 255 in its page.
fn insert_in_page(draft: &mut Draft, random: &mut Random) -> bool {
    let deed = Deed::Insert(random.next() as u32, random.next() as u32);
    in_page(draft, random, deed)
}

/// Fault of step 4: delete after 255 in its page.
fn delete_in_page(draft: &mut Draft, random: &mut Random) -> bool {
    let deed = Deed::Delete(random.next() as u32);
    in_page(draft, random, deed)
}

/// Adds a unit of a freed node in a later page.
fn later(draft: &mut Draft, random: &mut Random, deed: Deed) -> bool {
    let Some(node) = number(draft, random, |_, freed| freed) else { return false };
    add(draft, random, node, &[deed])
}

/// Fault of step 4: insert after 255 in a later page.
fn insert_later(draft: &mut Draft, random: &mut Random) -> bool {
    let deed = Deed::Insert(random.next() as u32, random.next() as u32);
    later(draft, random, deed)
}

/// Fault of step 4: delete after 255 in a later page.
fn delete_later(draft: &mut Draft, random: &mut Random) -> bool {
    let deed = Deed::Delete(random.next() as u32);
    later(draft, random, deed)
}

/// Frees a node of the tree other than node 0, a leaf or not.
fn free(draft: &mut Draft, random: &mut Random, leaf: bool) -> bool {
    let fits = |node: Option<&Node>, _| node.is_some_and(|node| (node.level == 0) == leaf);
    let Some(node) = number(draft, random, fits) else { return false };
    add(draft, random, node, &[Deed::Reset(FREED)])
}

/// Fault of step 6: a leaf freed that its parent names.
fn leaf_freed(draft: &mut Draft, random: &mut Random) -> bool {
    free(draft, random, true)
}

/// Fault of step 6: an inner node freed that its parent names.
fn inner_freed(draft: &mut Draft, random: &mut Random) -> bool {
    free(draft, random, false)
}

/// Fault of step 6: node 0 freed.
fn root_freed(draft: &mut Draft, random: &mut Random) -> bool {
    add(draft, random, 0, &[Deed::Reset(FREED)])
}
