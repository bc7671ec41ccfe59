//! Images set byte by byte: valid ones that no format began, damaged ones, noise, and commit numbers near the last.

use super::blocks;
use super::calls::{read, step, update, Keys};
use super::spread;
use super::torn::tear;
use super::writer::Writer;
use crate::model::chip::{USED, VALID};
use crate::model::foreign;
use crate::model::geometry::Geometry;
use crate::model::image::live;
use crate::model::unit::{self, encode, page_data, Deed, Unit, HEAD, UNIT};
use crate::random::Random;

/// The most bytes of an image other than 255 that a script uploads.
const UPLOAD: usize = 120_000;

/// How many lines an image takes.
pub fn weight(image: &[u8]) -> usize {
    image.iter().filter(|&&b| b != 255).count()
}

/// The lightest of several images, of 3 to 5 blocks mostly; none where all are too long to upload.
fn short(random: &mut Random, geometry: Geometry, tries: usize, make: &dyn Fn(&mut Random, usize) -> Option<Vec<u8>>) -> Option<Vec<u8>> {
    let mut images = Vec::new();
    for _ in 0..tries {
        let n = blocks(random, geometry, &[3, 3, 3, 3, 3, 4, 4, 5, 5, 8, 16, 32]);
        images.extend(make(random, n as usize).filter(|image| weight(image) <= UPLOAD));
    }
    images.into_iter().min_by_key(|image| weight(image))
}

/// A valid image that no format began.
pub fn valid_image(random: &mut Random, geometry: Geometry) -> Vec<u8> {
    loop {
        if let Some(image) = short(random, geometry, 2, &|random, n| Some(foreign::valid(random, geometry, n))) {
            return image;
        }
    }
}

/// A valid image that is not thin and whose nodes have few entries each.
pub fn slim_image(random: &mut Random, geometry: Geometry) -> Vec<u8> {
    loop {
        if let Some(image) = short(random, geometry, 2, &|random, n| Some(foreign::slim_of(random, geometry, n).0)) {
            return image;
        }
    }
}

/// An image of one of four kinds that no format began: valid, with few entries a node, with pages that no list names, with nodes in all
/// blocks but the spare ones.
pub fn any_image(random: &mut Random, geometry: Geometry) -> Vec<u8> {
    match random.below(5) {
        0 => spent_image(random, geometry),
        1 => spread::image(random, geometry),
        2 => slim_image(random, geometry),
        _ => valid_image(random, geometry),
    }
}

/// A damaged image, each fault as often as another.
pub fn damaged_image(random: &mut Random, geometry: Geometry) -> Vec<u8> {
    let faults = foreign::faults();
    loop {
        let fault = &faults[random.index(faults.len())];
        let make = |random: &mut Random, n| foreign::damaged_by(random, geometry, n, fault).map(|damaged| damaged.image);
        if let Some(image) = short(random, geometry, 4, &make) {
            return image;
        }
    }
}

/// An image of one leaf whose newest commit has pages that no list names, since a later page of it resets the leaf again;
/// other pages are free or have a used mark alone.
fn spent_image(random: &mut Random, geometry: Geometry) -> Vec<u8> {
    let blocks = 3 + random.index(4);
    let mut image = vec![255; blocks * geometry.block()];
    let mut places: Vec<usize> = (0..blocks * geometry.pages).collect();
    random.shuffle(&mut places);
    let number = 1 + random.below(9) as u32;
    let count = 1 + random.below(6) as u8;
    for index in 0..count {
        let (data, spare) = image[places[usize::from(index)] * geometry.page()..].split_at_mut(geometry.data);
        data.copy_from_slice(&page_data(geometry, number, index, count, &leaf_units(random)));
        spare[USED] = 0;
        spare[VALID] = 0;
    }
    let free = random.below(3);
    for &place in &places[usize::from(count)..] {
        if random.below(2) >= free {
            image[place * geometry.page() + geometry.data + USED] = 0;
        }
    }
    image
}

/// A reset of node 0 as a leaf, and up to 15 inserts.
pub fn leaf_units(random: &mut Random) -> Vec<[u8; UNIT]> {
    let unit = |deed| encode(&Unit { node: 0, deed });
    let inserts = random.index(16);
    let mut units = vec![unit(Deed::Reset(0))];
    for _ in 0..inserts {
        units.push(unit(Deed::Insert(random.below(40) as u32, random.next() as u32)));
    }
    units
}

/// Every call on the image as it is: mount, look ups, shows and reports.
fn look_round(random: &mut Random, writer: &mut Writer, keys: &mut Keys) {
    let geometry = writer.geometry();
    let pages = writer.probe().image().chunks_exact(geometry.page()).enumerate();
    let shown: Vec<usize> = pages.filter(|(_, page)| live(geometry, page)).map(|(place, _)| place).collect();
    for &place in shown.iter().take(40) {
        writer.show(place as u32);
    }
    for _ in 0..20 {
        read(random, writer, keys);
    }
    for block in 0..=(writer.probe().image().len() / geometry.block()).min(6) {
        writer.report(block as u32);
    }
    for key in stored_keys(writer).into_iter().take(60) {
        writer.look_up(key);
    }
}

/// Keys that units of the image's live pages hold.
fn stored_keys(writer: &Writer) -> Vec<u32> {
    let geometry = writer.geometry();
    let pages = writer.probe().image().chunks_exact(geometry.page()).filter(|page| live(geometry, page));
    let units = pages.flat_map(|page| page[HEAD..geometry.data].chunks_exact(UNIT));
    let mut keys: Vec<u32> = units.map(|bytes| unit::number(bytes, 4)).filter(|&key| key != u32::MAX).collect();
    keys.sort_unstable();
    keys.dedup();
    keys
}

/// Updates, commits and mounts on a chip that was mounted.
fn work(random: &mut Random, writer: &mut Writer, keys: &mut Keys, steps: u64) {
    for _ in 0..random.below(steps) {
        step(random, writer, keys);
    }
}

/// A valid image that no format began, mounted, read back, updated and committed.
pub fn valid(random: &mut Random, geometry: Geometry) -> Vec<Vec<u8>> {
    let mut writer = Writer::new(geometry);
    let image = any_image(random, geometry);
    let mut keys = Keys::any(random, geometry);
    writer.bring(&image);
    writer.check();
    if random.once_in(2) {
        tear(random, &mut writer);
        let allowance = writer.allowance(random, 5);
        writer.mount(allowance);
        writer.check();
    }
    writer.mount(255);
    look_round(random, &mut writer, &mut keys);
    for _ in 0..3 {
        for _ in 0..random.below(16) {
            update(random, &mut writer, &mut keys);
        }
        writer.forecast();
        writer.commit(writer.enough());
        writer.check();
    }
    work(random, &mut writer, &mut keys, 200);
    look_round(random, &mut writer, &mut keys);
    writer.lines()
}

/// An image whose nodes are full, or almost, on the path of a key: mounted, that key and its neighbours inserted, and committed.
pub fn steep(random: &mut Random, geometry: Geometry) -> Vec<Vec<u8>> {
    let mut writer = Writer::new(geometry);
    let (image, key) = loop {
        let n = blocks(random, geometry, &[3, 3, 4, 5, 8, 16]);
        let (image, key) = foreign::full_path(random, geometry, n as usize);
        if weight(&image) <= UPLOAD / 2 {
            break (image, key);
        }
    };
    let mut keys = Keys::any(random, geometry);
    writer.bring(&image);
    writer.mount(255);
    for i in 0..20 {
        let near = key.wrapping_add(i * random.below(3) as u32);
        writer.insert(near, random.next() as u32);
        writer.look_up(near);
        if random.once_in(8) {
            writer.commit(writer.enough());
            writer.check();
        }
    }
    writer.mount(255);
    writer.insert(key, 7);
    writer.forecast();
    writer.commit(writer.enough());
    writer.check();
    look_round(random, &mut writer, &mut keys);
    work(random, &mut writer, &mut keys, 60);
    writer.lines()
}

/// A damaged image: what a mount says of it, with every other call beside it.
pub fn damaged(random: &mut Random, geometry: Geometry) -> Vec<Vec<u8>> {
    let mut writer = Writer::new(geometry);
    for _ in 0..1 + random.below(3) {
        let image = damaged_image(random, geometry);
        let mut keys = Keys::any(random, geometry);
        if random.once_in(3) {
            writer.lend((image.len() / geometry.block()) as u32);
            writer.format(writer.enough());
        }
        writer.bring(&image);
        look_round(random, &mut writer, &mut keys);
        writer.check();
        writer.mount(random.below(2) as u32 * 255);
        writer.check();
        look_round(random, &mut writer, &mut keys);
        work(random, &mut writer, &mut keys, 30);
    }
    writer.lines()
}

/// An image of noise, here and there with marks that make its pages live.
pub fn noise(random: &mut Random, geometry: Geometry) -> Vec<Vec<u8>> {
    let mut writer = Writer::new(geometry);
    let mut keys = Keys::any(random, geometry);
    for _ in 0..4 {
        let most = writer.probe().most_blocks();
        let n = random.below(most as u64 + 1) as u32;
        writer.lend(blocks(random, geometry, &[n]));
        if random.once_in(4) {
            writer.lend_bytes(random.index(most * geometry.block() + 1) as u32);
        }
        writer.noise(random.next() as u32);
        writer.check();
        writer.mount(255);
        let pages = writer.probe().image().len() / geometry.page();
        for _ in 0..random.below(20).min(pages as u64) {
            writer.set(random.index(pages) * geometry.page() + geometry.data + VALID, 0);
        }
        for _ in 0..40 {
            read(random, &mut writer, &mut keys);
        }
        writer.mount(255);
        update(random, &mut writer, &mut keys);
        writer.forecast();
        writer.commit(writer.enough());
        writer.check();
    }
    writer.lines()
}

/// Commits up to the last commit number, which refuses with 6.
pub fn last(random: &mut Random, geometry: Geometry) -> Vec<Vec<u8>> {
    let mut writer = Writer::new(geometry);
    let mut keys = Keys::any(random, geometry);
    writer.lend(blocks(random, geometry, &[3, 3, 3, 4, 4, 5, 8, 16, 31, 32]));
    writer.format(writer.enough());
    for _ in 0..random.below(6) {
        for _ in 0..1 + random.below(16) {
            update(random, &mut writer, &mut keys);
        }
        writer.commit(writer.enough());
    }
    renumber(&mut writer, u32::MAX - random.below(4) as u32);
    writer.check();
    writer.mount(255);
    for _ in 0..6 {
        writer.commit(0);
        for _ in 0..random.below(18) {
            update(random, &mut writer, &mut keys);
        }
        if random.once_in(2) {
            writer.forecast();
        }
        let allowance = if random.once_in(5) { writer.allowance(random, 4) } else { writer.enough() };
        writer.commit(allowance);
        writer.check();
        read(random, &mut writer, &mut keys);
        if random.once_in(3) || !writer.is_on() {
            writer.mount(255);
        }
    }
    writer.lines()
}

/// The pages of the greatest commit given another number.
pub fn renumber(writer: &mut Writer, number: u32) {
    let (geometry, mut image) = (writer.geometry(), writer.probe().image().to_vec());
    let greatest = writer.probe().state().commit;
    for page in image.chunks_exact_mut(geometry.page()).filter(|page| live(geometry, page)) {
        if unit::number(page, 0) == greatest {
            page[..4].copy_from_slice(&number.to_le_bytes());
        }
    }
    writer.upload(&image);
}
