//! Torn bytes of several kinds.

use super::writer::Writer;
use crate::model::chip::{USED, VALID};
use crate::model::geometry::Geometry;
use crate::model::image::live;
use crate::random::Random;

/// The kinds of torn bytes that `tear` makes.
pub const KINDS: u64 = 9;

/// The bytes of a live page of the image, from a random place on; all 90 where there is none.
fn old_page(random: &mut Random, geometry: Geometry, image: &[u8]) -> Vec<u8> {
    let pages: Vec<&[u8]> = image.chunks_exact(geometry.page()).filter(|page| live(geometry, page)).collect();
    match pages.is_empty() {
        true => vec![90; geometry.page()],
        false => pages[random.index(pages.len())].to_vec(),
    }
}

/// The bytes of a page that the next commit writes; all 90 where it writes none.
fn next_page(random: &mut Random, writer: &Writer) -> Vec<u8> {
    let (geometry, after) = (writer.geometry(), writer.probe().after_commit(u32::MAX));
    let pairs = after.chunks_exact(geometry.page()).zip(writer.probe().image().chunks_exact(geometry.page()));
    let pages: Vec<&[u8]> = pairs.filter(|(new, old)| new != old && live(geometry, new)).map(|(new, _)| new).collect();
    match pages.is_empty() {
        true => vec![90; geometry.page()],
        false => pages[random.index(pages.len())].to_vec(),
    }
}

/// A page with a valid mark's byte that is not 0, so that a torn erase leaves it in each page of the block.
fn marked(geometry: Geometry, mut page: Vec<u8>, mark: u8) -> Vec<u8> {
    let spare = &mut page[geometry.data..];
    spare.fill(255);
    spare[USED] = mark;
    spare[VALID] = mark;
    page
}

/// Torn bytes of a kind: one byte throughout; random; only byte 0 is 0; a page of the next commit or an old one.
pub fn bytes(random: &mut Random, writer: &Writer, kind: u64) -> Vec<u8> {
    let geometry = writer.geometry();
    let mut any = || -> Vec<u8> { (0..geometry.torn).map(|_| random.byte()).collect() };
    match kind {
        0 => vec![0; geometry.torn],
        1 => vec![0x5A; geometry.torn],
        2 => vec![255; geometry.torn],
        3 => vec![1; geometry.torn],
        4 => any(),
        5 => {
            let mut bytes = any();
            bytes[0] = 0;
            bytes
        }
        6 => next_page(random, writer),
        7 => old_page(random, geometry, writer.probe().image()),
        _ => {
            let mark = random.byte();
            marked(geometry, next_page(random, writer), mark)
        }
    }
}

/// The torn bytes made those of a random kind, the seldomer the more they are, or byte 0 alone changed.
pub fn tear(random: &mut Random, writer: &mut Writer) {
    if random.once_in(if writer.geometry() == Geometry::LARGE { 9 } else { 3 }) {
        let kind = random.below(KINDS);
        let bytes = bytes(random, writer, kind);
        writer.tear(&bytes);
    } else {
        let mut bytes = writer.probe().torn().to_vec();
        if let Some(first) = bytes.first_mut() {
            *first = [0, 1, 255, 0x5A, 254][random.index(5)];
        }
        writer.tear(&bytes);
    }
}
