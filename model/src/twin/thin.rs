//! Thin trees: an interior node other than node 0 has fewer than 8 entries, or node 0 above level 0 has fewer than 2. Leaves may be thin.

use super::view::View;

/// The fewest entries of an interior node.
fn fewest(number: usize) -> usize {
    if number == 0 {
        2
    } else {
        8
    }
}

/// Whether the tree of these views is thin.
pub fn is_thin(views: &[View]) -> bool {
    views.iter().enumerate().any(|(number, view)| view.level > 0 && view.len < fewest(number))
}
