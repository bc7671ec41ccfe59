//! Images with freed nodes, made by hand: which have a meaning, and which refusal the others give.
use model::model::chip::{self, Power};
use model::model::geometry::Geometry;
use model::model::image::{meaning, Meaning};
use model::model::tree::Tree;
use model::model::unit::{encode, fields, page_data, Deed, Unit, FREED, UNIT};

/// The part of these tests.
const SMALL: Geometry = Geometry::SMALL;

/// A unit.
fn unit(node: u16, deed: Deed) -> [u8; UNIT] {
    encode(&Unit { node, deed })
}

/// An insert of a node.
fn insert(node: u16, key: u32, value: u32) -> [u8; UNIT] {
    unit(node, Deed::Insert(key, value))
}

/// A reset of a node.
fn reset(node: u16, level: u32) -> [u8; UNIT] {
    unit(node, Deed::Reset(level))
}

/// A reset that frees a node.
fn free(node: u16) -> [u8; UNIT] {
    reset(node, FREED)
}

/// The meaning of an image of 3 blocks with commits of one page each, from number 1 on, of these units.
fn read(commits: &[Vec<[u8; UNIT]>]) -> Result<Meaning, u32> {
    let mut image = vec![255; 3 * SMALL.block()];
    let mut power = Power::new(SMALL, u32::MAX, &[]);
    for (place, units) in commits.iter().enumerate() {
        assert!(chip::write_page(&mut image, &mut power, place, &page_data(SMALL, place as u32 + 1, 0, 1, units)));
    }
    meaning(SMALL, &image, 3)
}

/// The bytes of a reset that frees node 5.
#[test]
fn bytes_of_a_reset_that_frees() {
    assert_eq!(free(5), [3, 0, 5, 0, 0, 0, 0, 0, 255, 0, 0, 0]);
}

/// A freed node need not be reached; its list is the page of its reset, and look up takes no length of it.
#[test]
fn a_freed_node_is_skipped() {
    let means = read(&[vec![reset(0, 0), reset(5, 0), insert(5, 7, 7)], vec![free(5)]]).unwrap();
    assert_eq!(means.tree, Tree::leaf(3));
    assert_eq!((means.lists[5].clone(), means.freed(5), means.length(5)), (vec![1], true, 0));
    assert_eq!((means.freed(4), means.length(4), means.freed(0), means.length(0)), (false, 0, false, 1));
}

/// A freed node that was never anything else.
#[test]
fn a_node_freed_at_first() {
    assert!(read(&[vec![free(23), reset(0, 0)]]).unwrap().freed(23));
    assert_eq!(read(&[vec![free(24), reset(0, 0)]]), Err(8));
}

/// Freed twice, and freed with units before that break the rules of a view.
#[test]
fn units_before_count_nothing() {
    let mut units = vec![reset(0, 0), reset(1, 3)];
    units.extend((0..17).map(|key| insert(1, key, 9)));
    assert_eq!(read(std::slice::from_ref(&units)), Err(8));
    units.extend([free(1), free(1)]);
    assert!(read(&[units]).unwrap().freed(1));
    assert!(read(&[vec![insert(1, 4, 4), reset(0, 0)], vec![free(1)]]).is_ok());
    let pages: Vec<Vec<[u8; UNIT]>> = (0..5).map(|key| vec![insert(1, key, 1)]).collect();
    assert!(read(&[vec![vec![reset(0, 0), reset(1, 0)]], pages, vec![vec![free(1)]]].concat()).is_ok());
}

/// A unit of a freed node after its reset gives 8: an insert, a delete, in the same page or a later one.
#[test]
fn a_unit_after_it_gives_8() {
    for deed in [Deed::Insert(7, 7), Deed::Delete(7)] {
        assert_eq!(read(&[vec![reset(0, 0), free(5), unit(5, deed)]]), Err(8));
        assert_eq!(read(&[vec![reset(0, 0), free(5)], vec![unit(5, deed)]]), Err(8));
        assert_eq!(read(&[vec![reset(0, 0), free(5)], vec![unit(5, deed), free(6)]]), Err(8));
    }
}

/// A further reset begins it anew, and what stood after the value of 255 before it counts nothing.
#[test]
fn a_further_reset_begins_it_anew() {
    let root = vec![reset(0, 1), insert(0, 0, 5), reset(5, 0), insert(5, 1, 1)];
    let means = read(&[root.clone(), vec![free(5), insert(5, 2, 2)], vec![reset(5, 0), insert(5, 3, 3)]]).unwrap();
    assert_eq!(means.tree.node(5).entries, [(3, 3)]);
    assert_eq!((means.lists[5].clone(), means.freed(5), means.length(5)), (vec![2], false, 1));
    let means = read(&[root, vec![free(5), reset(5, 0), insert(5, 3, 3)]]).unwrap();
    assert_eq!(means.lists[5], [1]);
    assert!(read(&[vec![reset(0, 0), free(5), insert(5, 2, 2)], vec![free(5)]]).unwrap().freed(5));
}

/// A parent that names a freed node gives 9.
#[test]
fn a_parent_that_names_a_freed_node() {
    let nodes = vec![reset(0, 1), insert(0, 0, 5), insert(0, 9, 6), reset(5, 0), reset(6, 0)];
    assert!(read(std::slice::from_ref(&nodes)).is_ok());
    assert_eq!(read(&[nodes, vec![free(6)]]), Err(9));
}

/// Node 0 freed gives 9, with and without other nodes; reset again it has a meaning.
#[test]
fn node_0_freed() {
    assert_eq!(read(&[vec![free(0)]]), Err(9));
    assert_eq!(read(&[vec![reset(0, 0)], vec![free(0)]]), Err(9));
    assert_eq!(read(&[vec![free(0), free(1), reset(2, 0)]]), Err(9));
    assert!(read(&[vec![reset(0, 0)], vec![free(0)], vec![reset(0, 0)]]).is_ok());
    assert_eq!(read(&[vec![free(0), insert(0, 1, 1)]]), Err(8));
}

/// A node left out of the tree and not freed still gives 9.
#[test]
fn a_node_that_is_not_freed_has_to_be_reached() {
    assert_eq!(read(&[vec![reset(0, 0), reset(5, 0)], vec![free(6)]]), Err(9));
}

/// Values of a reset other than 0 to 3 and 255 give 8; so does a key beside 255.
#[test]
fn other_values_of_a_reset() {
    let with = |key, value| read(&[vec![reset(0, 0)], vec![fields(3, 0, 5, key, value)]]);
    for value in [4, 5, 127, 128, 254, 256, 255 << 8, 255 << 24, 1 << 31 | 255, u32::MAX, 511, 0x00FF_00FF] {
        assert_eq!(with(0, value), Err(8), "{value}");
    }
    assert_eq!((with(1, 255), with(255, 255)), (Err(8), Err(8)));
    assert_eq!((0..4).map(|value| with(0, value).err()).collect::<Vec<_>>(), [Some(9); 4]);
    assert!(with(0, 255).is_ok());
    assert_eq!(read(&[vec![reset(0, 0)], vec![fields(3, 1, 5, 0, 255)]]), Err(8));
}

/// A void commit that frees nodes changes nothing.
#[test]
fn a_void_commit_frees_nothing() {
    let mut image = vec![255; 3 * SMALL.block()];
    let mut power = Power::new(SMALL, u32::MAX, &[]);
    chip::write_page(&mut image, &mut power, 0, &page_data(SMALL, 1, 0, 1, &[reset(0, 0)]));
    chip::write_page(&mut image, &mut power, 1, &page_data(SMALL, 2, 0, 2, &[free(0)]));
    let means = meaning(SMALL, &image, 3).unwrap();
    assert_eq!((means.void.clone(), means.tree), (vec![1], Tree::leaf(3)));
}
