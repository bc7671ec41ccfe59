//! A draft of an image: pages with their fields apart, so that a single field can be made wrong.
use crate::model::chip::{OBSOLETE, USED, VALID};
use crate::model::geometry::Geometry;
use crate::model::unit::{self, Unit, UNIT};
use crate::random::Random;

/// A live page of a draft.
#[derive(Clone)]
pub struct Page {
    pub commit: u32,
    pub index: u8,
    pub count: u8,
    /// The unit count that the page tells.
    pub told: u16,
    pub units: Vec<[u8; UNIT]>,
    pub spare: Vec<u8>,
    pub place: usize,
    /// Whether it belongs to a commit that lacks an index and is void.
    pub void: bool,
}

/// A draft: live pages by commit number and index, other pages as bytes by place, and single bytes set last.
pub struct Draft {
    pub geometry: Geometry,
    pub blocks: usize,
    pub pages: Vec<Page>,
    pub others: Vec<(usize, Vec<u8>)>,
    pub patches: Vec<(usize, u8)>,
}

impl Page {
    /// A page of units, with the spare bytes of a live page.
    pub fn new(random: &mut Random, geometry: Geometry, commit: u32, index: u8, count: u8, units: Vec<[u8; UNIT]>) -> Page {
        let told = units.len() as u16;
        Page { commit, index, count, told, units, spare: live_spare(random, geometry), place: 0, void: false }
    }

    /// The bytes of the page.
    fn bytes(&self, geometry: Geometry) -> Vec<u8> {
        let mut page = unit::page_data(geometry, self.commit, self.index, self.count, &self.units);
        page[6..8].copy_from_slice(&self.told.to_le_bytes());
        page.extend_from_slice(&self.spare);
        page
    }

    /// Whether a further unit has room.
    pub fn has_room(&self, geometry: Geometry) -> bool {
        self.units.len() < geometry.room
    }

    /// Puts a unit in at a position and tells one more.
    pub fn put(&mut self, at: usize, bytes: [u8; UNIT]) {
        self.units.insert(at, bytes);
        self.told += 1;
    }
}

/// A byte that is not 0, odd values more often: 255, 254, 1 or any.
pub fn unset(random: &mut Random) -> u8 {
    match random.below(5) {
        0 => 1,
        1 => 254,
        2 => (random.below(255) + 1) as u8,
        _ => 255,
    }
}

/// Spare bytes of a live page: valid mark set, obsolete mark not set, the others often odd.
fn live_spare(random: &mut Random, geometry: Geometry) -> Vec<u8> {
    let odd = random.once_in(4);
    let used = if random.once_in(4) { random.byte() } else { 0 };
    let mut spare = vec![255; geometry.spare];
    spare[USED] = used;
    spare[VALID] = 0;
    spare[OBSOLETE] = unset(random);
    for byte in &mut spare[OBSOLETE + 1..] {
        if odd && random.once_in(3) {
            *byte = random.byte();
        }
    }
    spare
}

impl Draft {
    /// The image of the draft.
    pub fn render(&self) -> Vec<u8> {
        let mut image = vec![255; self.blocks * self.geometry.block()];
        let mut put = |place: usize, bytes: &[u8]| image[self.offset(place)..][..bytes.len()].copy_from_slice(bytes);
        self.pages.iter().for_each(|page| put(page.place, &page.bytes(self.geometry)));
        self.others.iter().for_each(|(place, bytes)| put(*place, bytes));
        for (at, byte) in &self.patches {
            image[*at] = *byte;
        }
        image
    }

    /// Where the page at a place begins in the image.
    pub fn offset(&self, place: usize) -> usize {
        place * self.geometry.page()
    }

    /// A place without a live page, taken from the other pages if need be.
    pub fn spare_place(&mut self, random: &mut Random) -> Option<usize> {
        let held: Vec<bool> =
            (0..self.blocks * self.geometry.pages).map(|place| self.pages.iter().any(|page| page.place == place)).collect();
        let left: Vec<usize> = (0..held.len()).filter(|place| !held[*place]).collect();
        if left.is_empty() {
            return None;
        }
        let place = left[random.index(left.len())];
        self.others.retain(|other| other.0 != place);
        Some(place)
    }

    /// Positions of the standing pages, by commit number and index.
    pub fn standing(&self) -> Vec<usize> {
        (0..self.pages.len()).filter(|at| !self.pages[*at].void).collect()
    }

    /// The greatest standing commit number.
    pub fn greatest(&self) -> u32 {
        self.pages.iter().filter(|page| !page.void).map(|page| page.commit).max().unwrap_or(0)
    }

    /// The void commit's number.
    pub fn void_number(&self) -> Option<u32> {
        self.pages.iter().find(|page| page.void).map(|page| page.commit)
    }

    /// Adds a whole commit of one page after the greatest standing one. False when no number or place is left for it.
    pub fn append(&mut self, random: &mut Random, units: &[Unit]) -> bool {
        let Some(number) = self.greatest().checked_add(1) else { return false };
        if self.void_number().is_some_and(|void| void <= number) {
            return false;
        }
        let Some(place) = self.spare_place(random) else { return false };
        let mut page = Page::new(random, self.geometry, number, 0, 1, units.iter().map(unit::encode).collect());
        page.place = place;
        let after = self.standing().len();
        self.pages.insert(after, page);
        true
    }
}
