//! Images whose next commit has to write all nodes: they stand in all blocks but the spare ones, and no page of the newest block is free.

use super::blocks;
use super::wide::Wide;
use super::writer::Writer;
use crate::model::chip::{USED, VALID};
use crate::model::geometry::Geometry;
use crate::model::unit::{encode, page_data, Deed, Unit, UNIT};
use crate::random::Random;
use crate::twin::view::{key_of, value_of};

/// A node's units where it is written anew.
type Node = Vec<[u8; UNIT]>;

/// A store of several leaves on a chip of so many blocks.
fn grown(random: &mut Random, geometry: Geometry, blocks: u32) -> Writer {
    let (mut writer, mut wide) = (Writer::new(geometry), Wide::default());
    writer.lend(blocks);
    writer.format(writer.enough());
    wide.grow(random, &mut writer);
    for _ in 0..random.below(4 * u64::from(blocks)) {
        for _ in 0..16 {
            let key = wide.pick(random, &writer);
            writer.insert(key, random.next() as u32);
        }
        writer.commit(writer.enough());
    }
    writer
}

/// The nodes of a store.
fn nodes(writer: &Writer) -> Vec<Node> {
    let (state, image) = (writer.probe().state(), writer.probe().image());
    let node = |n: u32| {
        let view = state.view(image, n);
        let unit = |deed| encode(&Unit { node: n as u16, deed });
        let inserts = view.entries().iter().map(|&entry| unit(Deed::Insert(key_of(entry), value_of(entry))));
        [unit(Deed::Reset(view.level))].into_iter().chain(inserts).collect()
    };
    state.in_use().map(node).collect()
}

/// Nodes put into pages, one behind the other.
fn pages(geometry: Geometry, nodes: impl Iterator<Item = Node>) -> Vec<Node> {
    let mut pages: Vec<Node> = vec![Vec::new()];
    for node in nodes {
        if pages.last().is_some_and(|page| page.len() + node.len() > geometry.room) {
            pages.push(Vec::new());
        }
        pages.last_mut().into_iter().for_each(|page| page.extend(&node));
    }
    pages
}

/// The used marks of pages that are free set.
fn use_up(geometry: Geometry, block: &mut [u8]) {
    for page in block.chunks_exact_mut(geometry.page()) {
        page[geometry.data + USED] = 0;
    }
}

/// An image with the nodes of a store dealt out to all blocks but the spare ones, each page a commit of its own. The spare blocks are free
/// or have to be erased.
pub fn image(random: &mut Random, geometry: Geometry) -> Vec<u8> {
    let blocks = blocks(random, geometry, &[3, 3, 4, 5, 8, 16, 32]) as usize;
    let (held, nodes) = (blocks - 4 * blocks / geometry.pages - 1, nodes(&grown(random, geometry, blocks as u32)));
    let (mut image, mut number) = (vec![255; blocks * geometry.block()], random.below(9) as u32);
    for (at, block) in image.chunks_exact_mut(geometry.block()).enumerate() {
        if at + 1 == held || at >= held && random.once_in(2) {
            use_up(geometry, block);
        }
        let own = nodes.iter().skip(at).step_by(held).filter(|_| at < held).cloned();
        for (page, units) in block.chunks_exact_mut(geometry.page()).zip(pages(geometry, own)).filter(|(_, units)| !units.is_empty()) {
            number += 1;
            let (data, spare) = page.split_at_mut(geometry.data);
            data.copy_from_slice(&page_data(geometry, number, 0, 1, &units));
            spare[USED] = 0;
            spare[VALID] = 0;
        }
    }
    image
}
