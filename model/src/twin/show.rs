//! Show: the units of a page, as a part of the image.

use super::chip::is_live;
use super::geometry::Geometry;
use super::unit::{half, header_of, UNIT};

/// The offset and length of the units of a page, both 0 for an empty part; else the refusal, 1 or 4.
pub fn show(geometry: Geometry, image: &[u8], page: u32) -> Result<(usize, usize), u32> {
    let blocks = geometry.blocks_of(image.len());
    if blocks == 0 {
        return Err(1);
    }
    let place = page as usize;
    if place >= blocks * geometry.pages {
        return Err(4);
    }
    let bytes = geometry.page_at(image, place);
    if !is_live(geometry, bytes) || header_of(geometry, bytes).is_none() {
        return Ok((0, 0));
    }
    Ok((place * geometry.page() + 8, UNIT * half(bytes, 6) as usize))
}
