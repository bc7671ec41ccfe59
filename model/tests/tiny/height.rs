//! The tiny store's faults where node 0 splits at level 2.
use super::Bug;
use model::model::tree::Tree;

/// Whether an insert split node 0 at level 2.
fn rose(before: &Tree, after: &Tree) -> bool {
    before.node(0).level == 2 && after.node(0).level == 3
}

/// Whether a store refuses an insert with 5 though there are numbers.
pub fn refuses(bug: Bug, before: &Tree, after: &Tree) -> bool {
    bug == Bug::FiveAtLevel2 && rose(before, after)
}

/// Node 0 stays at level 2 above its two halves.
pub fn stay(bug: Bug, before: &Tree, after: &mut Tree) {
    if bug == Bug::StaysAtLevel2 && rose(before, after) {
        after.nodes[0].as_mut().expect("node 0").level = 2;
    }
}
