//! Faults of units, views and lists: steps 4 and 5 of document 01.
use super::draft::Draft;
use super::fault_pages::Maker;
use crate::model::image::{self, Meaning};
use crate::model::tree::FULL;
use crate::model::unit::{self, Deed, Unit, UNIT};
use crate::random::Random;

/// Faults of steps 4 and 5: name, refusal, maker.
pub const FAULTS: &[(&str, u32, Maker)] = &[
    ("4: kind 0", 8, kind_zero),
    ("4: kind 4", 8, kind_four),
    ("4: kind above 4", 8, kind_high),
    ("4: byte 1 not zero", 8, byte_one),
    ("4: delete with a value", 8, delete_value),
    ("4: reset with a key", 8, reset_key),
    ("4: level 4", 8, level_four),
    ("4: level of 256 or more", 8, level_high),
    ("4: node number 8 B", 8, node_at_limit),
    ("4: node number 65535", 8, node_high),
    ("4: unit count one high", 8, one_high),
    ("4: layout broken before the last reset", 8, broken_early),
    ("4: units of a number without a reset", 8, no_reset),
    ("4: a node's resets taken out", 8, resets_out),
    ("4: node 0 with units and no reset", 8, root_resets_out),
    ("4: 17 entries", 8, seventeen),
    ("4: 17 entries, then 16", 8, seventeen_then_sixteen),
    ("5: list of 5", 8, list_of_five),
    ("5: list of 6 or more", 8, list_of_more),
];

/// The meaning of a draft that is not damaged yet.
pub fn meaning(draft: &Draft) -> Option<Meaning> {
    image::meaning(draft.geometry, &draft.render(), draft.blocks).ok()
}

/// Positions of the standing pages with room for a further unit.
fn with_room(draft: &Draft) -> Vec<usize> {
    draft.standing().into_iter().filter(|at| draft.pages[*at].has_room(draft.geometry)).collect()
}

/// Adds a delete of an absent key after a unit of the same node in the same page: page position and unit position.
fn harmless(draft: &mut Draft, random: &mut Random) -> Option<(usize, usize)> {
    let fitting = with_room(draft);
    if fitting.is_empty() {
        return None;
    }
    let at = fitting[random.index(fitting.len())];
    let place = random.index(draft.pages[at].units.len());
    let node = unit::half(&draft.pages[at].units[place], 2);
    let key = absent_key(draft, random);
    draft.pages[at].put(place + 1, unit::encode(&Unit { node, deed: Deed::Delete(key) }));
    Some((at, place + 1))
}

/// A key that no unit of the draft has.
fn absent_key(draft: &Draft, random: &mut Random) -> u32 {
    loop {
        let key = random.next() as u32;
        if draft.pages.iter().all(|page| page.units.iter().all(|bytes| unit::number(bytes, 4) != key)) {
            return key;
        }
    }
}

/// Adds a harmless unit and changes its bytes.
fn spoil(draft: &mut Draft, random: &mut Random, change: impl FnOnce(&mut [u8; UNIT])) -> bool {
    let Some((at, place)) = harmless(draft, random) else { return false };
    change(&mut draft.pages[at].units[place]);
    true
}

/// A standing unit of a kind, by page position and unit position.
fn of_kind(draft: &Draft, random: &mut Random, kind: u8) -> Option<(usize, usize)> {
    let mut found = Vec::new();
    for at in draft.standing() {
        let units = draft.pages[at].units.iter().enumerate();
        found.extend(units.filter(|(_, bytes)| bytes[0] == kind).map(|(place, _)| (at, place)));
    }
    (!found.is_empty()).then(|| found[random.index(found.len())])
}

/// Sets the key or value of a standing reset.
pub fn set_reset(draft: &mut Draft, random: &mut Random, from: usize, number: u32) -> bool {
    let Some((at, place)) = of_kind(draft, random, 3) else { return false };
    draft.pages[at].units[place][from..from + 4].copy_from_slice(&number.to_le_bytes());
    true
}

/// Fault of step 4: kind 0.
fn kind_zero(draft: &mut Draft, random: &mut Random) -> bool {
    spoil(draft, random, |bytes| bytes[0] = 0)
}

/// Fault of step 4: kind 4.
fn kind_four(draft: &mut Draft, random: &mut Random) -> bool {
    spoil(draft, random, |bytes| bytes[0] = 4)
}

/// Fault of step 4: kind above 4.
fn kind_high(draft: &mut Draft, random: &mut Random) -> bool {
    let kind = 5 + random.below(251) as u8;
    spoil(draft, random, |bytes| bytes[0] = kind)
}

/// Fault of step 4: byte 1 not zero.
fn byte_one(draft: &mut Draft, random: &mut Random) -> bool {
    let standing = draft.standing();
    let page = &mut draft.pages[standing[random.index(standing.len())]];
    let place = random.index(page.units.len());
    page.units[place][1] = [1, 255, 128][random.index(3)];
    true
}

/// Fault of step 4: delete with a value.
fn delete_value(draft: &mut Draft, random: &mut Random) -> bool {
    let at = 8 + random.index(4);
    spoil(draft, random, |bytes| bytes[at] = 1)
}

/// Fault of step 4: reset with a key.
fn reset_key(draft: &mut Draft, random: &mut Random) -> bool {
    let key = 1 << random.below(32);
    set_reset(draft, random, 4, key)
}

/// Fault of step 4: level 4.
fn level_four(draft: &mut Draft, random: &mut Random) -> bool {
    set_reset(draft, random, 8, 4)
}

/// Fault of step 4: level of 256 or more.
fn level_high(draft: &mut Draft, random: &mut Random) -> bool {
    let level = 1 << (8 + random.below(24));
    set_reset(draft, random, 8, level)
}

/// Names a node in a harmless unit.
fn name_node(draft: &mut Draft, random: &mut Random, node: u16) -> bool {
    spoil(draft, random, |bytes| bytes[2..4].copy_from_slice(&node.to_le_bytes()))
}

/// Fault of step 4: node number 8 B.
fn node_at_limit(draft: &mut Draft, random: &mut Random) -> bool {
    let node = 8 * draft.blocks as u16;
    name_node(draft, random, node)
}

/// Fault of step 4: node number 65535.
fn node_high(draft: &mut Draft, random: &mut Random) -> bool {
    name_node(draft, random, u16::MAX)
}

/// Fault of step 4: unit count one high.
fn one_high(draft: &mut Draft, random: &mut Random) -> bool {
    let fitting = with_room(draft);
    if fitting.is_empty() {
        return false;
    }
    draft.pages[fitting[random.index(fitting.len())]].told += 1;
    true
}

/// Breaks the layout of a unit that its node's later reset, in another page, overrides.
fn broken_early(draft: &mut Draft, random: &mut Random) -> bool {
    let Some((last, place)) = of_kind(draft, random, 3) else { return false };
    let node = unit::half(&draft.pages[last].units[place], 2);
    let same = |bytes: &[u8; UNIT]| unit::half(bytes, 2) == node;
    let Some(early) = draft.pages[..last].iter_mut().find(|page| page.units.iter().any(same)) else { return false };
    let Some(bytes) = early.units.iter_mut().find(|bytes| same(bytes)) else { return false };
    bytes[1] = 1;
    true
}

/// Fault of step 4: units of a number without a reset.
fn no_reset(draft: &mut Draft, random: &mut Random) -> bool {
    let Some(means) = meaning(draft) else { return false };
    let Some(node) = (0..8 * draft.blocks).rev().find(|number| means.tree.nodes[*number].is_none() && !means.freed(*number)) else {
        return false;
    };
    name_node(draft, random, node as u16)
}

/// Turns each reset of a node into a delete of an absent key.
fn take_resets(draft: &mut Draft, random: &mut Random, node: u16) {
    let deed = Deed::Delete(absent_key(draft, random));
    for page in draft.pages.iter_mut().filter(|page| !page.void) {
        for bytes in page.units.iter_mut().filter(|bytes| bytes[0] == 3 && unit::half(*bytes, 2) == node) {
            *bytes = unit::encode(&Unit { node, deed });
        }
    }
}

/// Fault of step 4: a node's resets taken out.
fn resets_out(draft: &mut Draft, random: &mut Random) -> bool {
    let Some((at, place)) = of_kind(draft, random, 3) else { return false };
    let node = unit::half(&draft.pages[at].units[place], 2);
    take_resets(draft, random, node);
    true
}

/// Fault of step 4: node 0 with units and no reset.
fn root_resets_out(draft: &mut Draft, random: &mut Random) -> bool {
    take_resets(draft, random, 0);
    true
}

/// Units that bring a node whose list is short from its entries to 17.
fn to_seventeen(draft: &Draft, random: &mut Random) -> Option<Vec<Unit>> {
    let means = meaning(draft)?;
    let short: Vec<usize> = (0..means.lists.len()).filter(|number| (1..4).contains(&means.length(*number))).collect();
    if short.is_empty() {
        return None;
    }
    let number = short[random.index(short.len())];
    let held = means.tree.nodes[number].as_ref()?.entries.len();
    let mut units = Vec::new();
    for key in super::grow::pick(random, (1, 1 << 32), 40) {
        let absent = means.tree.nodes[number].as_ref()?.value(key).is_none();
        if absent && units.len() + held < FULL + 1 {
            units.push(Unit { node: number as u16, deed: Deed::Insert(key, 5) });
        }
    }
    Some(units)
}

/// Fault of step 4: 17 entries.
fn seventeen(draft: &mut Draft, random: &mut Random) -> bool {
    to_seventeen(draft, random).is_some_and(|units| draft.append(random, &units))
}

/// Fault of step 4: 17 entries, then 16.
fn seventeen_then_sixteen(draft: &mut Draft, random: &mut Random) -> bool {
    let Some(mut units) = to_seventeen(draft, random) else { return false };
    let inserted = units.clone();
    for unit in inserted {
        if let Deed::Insert(key, _) = unit.deed {
            units.push(Unit { node: unit.node, deed: Deed::Delete(key) });
        }
    }
    draft.append(random, &units)
}

/// Brings a node's list to a length by commits of one page, each a delete of an absent key.
fn lengthen(draft: &mut Draft, random: &mut Random, length: usize) -> bool {
    let Some(means) = meaning(draft) else { return false };
    let held: Vec<usize> = (0..means.lists.len()).filter(|number| means.length(*number) > 0).collect();
    let number = held[random.index(held.len())];
    let key = absent_key(draft, random);
    let unit = Unit { node: number as u16, deed: Deed::Delete(key) };
    (means.lists[number].len()..length).all(|_| draft.append(random, &[unit]))
}

/// Fault of step 5: list of 5.
fn list_of_five(draft: &mut Draft, random: &mut Random) -> bool {
    lengthen(draft, random, 5)
}

/// Fault of step 5: list of 6 or more.
fn list_of_more(draft: &mut Draft, random: &mut Random) -> bool {
    let length = 6 + random.index(4);
    lengthen(draft, random, length)
}
