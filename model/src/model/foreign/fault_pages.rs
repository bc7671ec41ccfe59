//! Faults of whole pages: steps 1, 2 and 3 of document 01.
use super::draft::{Draft, Page};
use crate::model::chip::{OBSOLETE, VALID};
use crate::model::unit::{HEAD, UNIT};
use crate::random::Random;

/// A maker of a fault in a draft's pages.
pub type Maker = fn(&mut Draft, &mut Random) -> bool;

/// Faults of steps 1 to 3: name, refusal, maker.
pub const FAULTS: &[(&str, u32, Maker)] = &[
    ("1: blank chip", 7, blank),
    ("1: every live page obsolete", 7, all_obsolete),
    ("1: no valid mark set", 7, none_valid),
    ("2: commit number 0", 8, commit_zero),
    ("2: page count 0", 8, count_zero),
    ("2: index equal to count", 8, index_is_count),
    ("2: index above count", 8, index_above),
    ("2: unit count 0", 8, no_units),
    ("2: a unit more than the room", 8, too_many),
    ("2: unit count of 256 or more", 8, far_too_many),
    ("2: unit count one low", 8, one_low),
    ("2: byte after the units", 8, byte_after),
    ("2: last data byte", 8, last_byte),
    ("2: equal index twice", 8, twice),
    ("2: unequal counts", 8, unequal_counts),
    ("2: void page, a unit more than the room", 8, void_too_many),
    ("2: void page, byte after the units", 8, void_byte_after),
    ("2: void pages, equal index twice", 8, void_twice),
    ("2: void pages, unequal counts", 8, void_unequal),
    ("3: void pages alone", 7, only_void),
    ("3: greatest void, next lacks an index", 8, next_lacks),
    ("3: two numbers lack an index", 8, two_lack),
];

/// A live page drawn from those that pass a test.
fn drawn<'a>(draft: &'a mut Draft, random: &mut Random, test: impl Fn(&Page) -> bool) -> Option<&'a mut Page> {
    let fitting: Vec<usize> = (0..draft.pages.len()).filter(|at| test(&draft.pages[*at])).collect();
    if fitting.is_empty() {
        return None;
    }
    let at = fitting[random.index(fitting.len())];
    Some(&mut draft.pages[at])
}

/// A change of one page that passes a test.
fn change(draft: &mut Draft, random: &mut Random, test: impl Fn(&Page) -> bool, change: impl FnOnce(&mut Page)) -> bool {
    drawn(draft, random, test).map(change).is_some()
}

/// Fault of step 1: blank chip.
fn blank(draft: &mut Draft, _: &mut Random) -> bool {
    draft.pages.clear();
    draft.others.clear();
    true
}

/// Fault of step 1: every live page obsolete.
fn all_obsolete(draft: &mut Draft, _: &mut Random) -> bool {
    draft.pages.iter_mut().for_each(|page| page.spare[OBSOLETE] = 0);
    true
}

/// Fault of step 1: no valid mark set.
fn none_valid(draft: &mut Draft, random: &mut Random) -> bool {
    let value = [255, 1, 254, 128][random.index(4)];
    draft.pages.iter_mut().for_each(|page| page.spare[VALID] = value);
    true
}

/// Fault of step 2: commit number 0.
fn commit_zero(draft: &mut Draft, random: &mut Random) -> bool {
    change(draft, random, |page| !page.void, |page| page.commit = 0)
}

/// Fault of step 2: page count 0.
fn count_zero(draft: &mut Draft, random: &mut Random) -> bool {
    change(draft, random, |page| page.index == 0, |page| page.count = 0)
}

/// Fault of step 2: index equal to count.
fn index_is_count(draft: &mut Draft, random: &mut Random) -> bool {
    change(draft, random, |_| true, |page| page.index = page.count)
}

/// Fault of step 2: index above count.
fn index_above(draft: &mut Draft, random: &mut Random) -> bool {
    change(draft, random, |page| page.count < 255, |page| page.index = 255)
}

/// Fault of step 2: unit count 0.
fn no_units(draft: &mut Draft, random: &mut Random) -> bool {
    let clear = |page: &mut Page| {
        page.units.clear();
        page.told = 0;
    };
    change(draft, random, |page| !page.void, clear)
}

/// A unit count one above the room of a page.
fn above_room(draft: &Draft) -> u16 {
    draft.geometry.room as u16 + 1
}

/// Fault of step 2: a unit more than the room.
fn too_many(draft: &mut Draft, random: &mut Random) -> bool {
    let told = above_room(draft);
    change(draft, random, |_| true, |page| page.told = told)
}

/// Fault of step 2: unit count of 256 or more.
fn far_too_many(draft: &mut Draft, random: &mut Random) -> bool {
    change(draft, random, |_| true, |page| page.told += 256)
}

/// Fault of step 2: unit count one low.
fn one_low(draft: &mut Draft, random: &mut Random) -> bool {
    change(draft, random, |page| page.units.len() > 1, |page| page.told -= 1)
}

/// Sets a byte after the units of a page that passes a test and has room for more.
fn set_after(draft: &mut Draft, random: &mut Random, test: fn(&Page) -> bool) -> bool {
    let geometry = draft.geometry;
    let Some(page) = drawn(draft, random, |page| test(page) && page.has_room(geometry)) else { return false };
    let (place, from) = (page.place, HEAD + page.units.len() * UNIT);
    let at = draft.offset(place) + from + random.index(geometry.data - from);
    let byte = [0, 254, 1][random.index(3)];
    draft.patches.push((at, byte));
    true
}

/// Fault of step 2: byte after the units.
fn byte_after(draft: &mut Draft, random: &mut Random) -> bool {
    set_after(draft, random, |_| true)
}

/// Fault of step 2: last data byte.
fn last_byte(draft: &mut Draft, random: &mut Random) -> bool {
    let geometry = draft.geometry;
    let Some(page) = drawn(draft, random, |page| page.has_room(geometry)) else { return false };
    let place = page.place;
    draft.patches.push((draft.offset(place) + geometry.data - 1, 254));
    true
}

/// Puts a copy of a page that passes a test at another place.
fn copy(draft: &mut Draft, random: &mut Random, test: fn(&Page) -> bool) -> bool {
    let Some(mut page) = drawn(draft, random, test).map(|page| page.clone()) else { return false };
    let Some(place) = draft.spare_place(random) else { return false };
    page.place = place;
    draft.pages.push(page);
    true
}

/// Fault of step 2: equal index twice.
fn twice(draft: &mut Draft, random: &mut Random) -> bool {
    copy(draft, random, |page| !page.void)
}

/// Tells a greater count in one page of a commit that has several live pages, void or standing.
fn other_count(draft: &mut Draft, random: &mut Random, void: bool) -> bool {
    let shared: Vec<usize> = (0..draft.pages.len())
        .filter(|at| draft.pages.iter().filter(|page| page.commit == draft.pages[*at].commit).count() > 1)
        .filter(|at| draft.pages[*at].void == void && draft.pages[*at].count < 255)
        .collect();
    if shared.is_empty() {
        return false;
    }
    draft.pages[shared[random.index(shared.len())]].count += 1;
    true
}

/// Fault of step 2: unequal counts.
fn unequal_counts(draft: &mut Draft, random: &mut Random) -> bool {
    other_count(draft, random, false)
}

/// Fault of step 2: void page, a unit more than the room.
fn void_too_many(draft: &mut Draft, random: &mut Random) -> bool {
    let told = above_room(draft);
    change(draft, random, |page| page.void, |page| page.told = told)
}

/// Fault of step 2: void page, byte after the units.
fn void_byte_after(draft: &mut Draft, random: &mut Random) -> bool {
    set_after(draft, random, |page| page.void)
}

/// Fault of step 2: void pages, equal index twice.
fn void_twice(draft: &mut Draft, random: &mut Random) -> bool {
    copy(draft, random, |page| page.void)
}

/// Fault of step 2: void pages, unequal counts.
fn void_unequal(draft: &mut Draft, random: &mut Random) -> bool {
    other_count(draft, random, true)
}

/// Fault of step 3: void pages alone.
fn only_void(draft: &mut Draft, _: &mut Random) -> bool {
    draft.pages.retain(|page| page.void);
    !draft.pages.is_empty()
}

/// Takes one page of the greatest standing commit away; that commit has several pages.
fn lose_one(draft: &mut Draft, random: &mut Random) -> bool {
    let greatest = draft.greatest();
    let whole: Vec<usize> = draft.standing().into_iter().filter(|at| draft.pages[*at].commit == greatest).collect();
    if whole.len() < 2 {
        return false;
    }
    draft.pages.remove(whole[random.index(whole.len())]);
    true
}

/// Fault of step 3: greatest void, next lacks an index.
fn next_lacks(draft: &mut Draft, random: &mut Random) -> bool {
    draft.void_number().is_some() && lose_one(draft, random)
}

/// The greatest commit loses a page and so is void; the one below it lacks an index.
fn two_lack(draft: &mut Draft, random: &mut Random) -> bool {
    let greatest = draft.greatest();
    let below = draft.pages.iter().filter(|page| page.commit < greatest).max_by_key(|page| page.commit);
    let Some(below) = below.map(|page| (page.commit, page.count as usize)) else { return false };
    let held = draft.pages.iter().filter(|page| page.commit == below.0).count();
    draft.void_number().is_none() && held < below.1 && lose_one(draft, random)
}
