//! The lines of document 01, 'What is shown of the cases', and the example of its 'Bench program'.
use model::model::chip::{self, Power};
use model::model::crc::crc32;
use model::model::geometry::Geometry;
use model::model::image::{meaning, Meaning};
use model::model::plain::{Answer, Call, Lengths, Plain};
use model::model::tree::{Node, Tree};
use model::model::unit::{encode, page_data, Deed, Unit, UNIT};
use model::random::Random;
use std::collections::BTreeMap;

/// The part of these tests.
const SMALL: Geometry = Geometry::SMALL;
/// Bytes of its blocks.
const BLOCK: usize = SMALL.block();
/// Bytes of its pages.
const PAGE: usize = SMALL.page();
/// Data bytes of its pages.
const DATA: usize = SMALL.data;
/// Bytes of its torn slices.
const TORN: usize = SMALL.torn;
/// Right lengths of a chip of 3 blocks.
const LENGTHS: Lengths = Lengths { image: 3 * BLOCK, torn: TORN };

/// An insert of node 0.
fn insert(key: u32, value: u32) -> [u8; UNIT] {
    encode(&Unit { node: 0, deed: Deed::Insert(key, value) })
}

/// A reset.
fn reset(node: u16, level: u32) -> [u8; UNIT] {
    encode(&Unit { node, deed: Deed::Reset(level) })
}

/// An image of 3 blocks whose first pages are given by commit number, index, count and units.
fn image(pages: &[(u32, u8, u8, Vec<[u8; UNIT]>)]) -> Vec<u8> {
    let mut image = vec![255; 3 * BLOCK];
    let mut power = Power::new(SMALL, u32::MAX, &[]);
    for (place, (commit, index, count, units)) in pages.iter().enumerate() {
        assert!(chip::write_page(&mut image, &mut power, place, &page_data(SMALL, *commit, *index, *count, units)));
    }
    image
}

/// The meaning of such an image.
fn read(pages: &[(u32, u8, u8, Vec<[u8; UNIT]>)]) -> Result<Meaning, u32> {
    meaning(SMALL, &image(pages), 3)
}

/// The tree of keys 1 to n, inserted in order.
fn counted(n: u32) -> Tree {
    let mut tree = Tree::leaf(3);
    for key in 1..=n {
        assert!(tree.insert(key, key * 10));
    }
    tree
}

/// The keys of a node.
fn keys(tree: &Tree, number: u32) -> Vec<u32> {
    tree.node(number).entries.iter().map(|entry| entry.0).collect()
}

/// The unit that inserts (7, 99) in node 0.
#[test]
fn insert_in_node_0() {
    assert_eq!(insert(7, 99), [1, 0, 0, 0, 7, 0, 0, 0, 0x63, 0, 0, 0]);
}

/// The first bytes of format's page.
#[test]
fn formats_page() {
    let data = page_data(SMALL, 1, 0, 1, &[reset(0, 0)]);
    assert_eq!(data[..9], [1, 0, 0, 0, 0, 1, 1, 0, 3]);
    assert_eq!(data.len(), DATA);
}

/// Keys 1 to 17 in order split node 0.
#[test]
fn keys_1_to_17() {
    let tree = counted(17);
    assert_eq!(keys(&tree, 1), (1..=9).collect::<Vec<u32>>());
    assert_eq!(keys(&tree, 2), (10..=17).collect::<Vec<u32>>());
    assert_eq!(tree.node(0), &Node { level: 1, entries: vec![(0, 1), (10, 2)] });
}

/// Keys on to 26 split node 2.
#[test]
fn on_to_26() {
    let tree = counted(26);
    assert_eq!(keys(&tree, 2), (10..=18).collect::<Vec<u32>>());
    assert_eq!(keys(&tree, 3), (19..=26).collect::<Vec<u32>>());
    assert_eq!(tree.find(26), Some(260));
    assert_eq!(tree.find(27), None);
}

/// 42 units pass step 2, 43 give 8.
#[test]
fn forty_two_and_forty_three_units() {
    let mut units = vec![insert(1, 1); 41];
    units.insert(0, reset(0, 0));
    assert!(read(&[(1, 0, 1, units.clone())]).is_ok());
    let mut bytes = image(&[(1, 0, 1, units)]);
    bytes[6] = 43;
    assert_eq!(meaning(SMALL, &bytes, 3), Err(8));
}

/// The greatest commit with page 0 of 2 is void.
#[test]
fn greatest_commit_with_page_0_of_2_is_void() {
    let means = read(&[(1, 0, 1, vec![reset(0, 0)]), (2, 0, 2, vec![insert(7, 99)])]).unwrap();
    assert_eq!((means.void.clone(), means.greatest), (vec![1], 1));
    assert_eq!(means.tree, Tree::leaf(3));
}

/// An older commit with page 0 of 2 stands when the greatest is whole.
#[test]
fn older_commit_with_page_0_of_2_stands() {
    let means = read(&[(1, 0, 2, vec![reset(0, 0)]), (2, 0, 1, vec![insert(7, 99)])]).unwrap();
    assert_eq!((means.void.clone(), means.greatest), (vec![], 2));
    assert_eq!(means.tree.find(7), Some(99));
    assert_eq!(means.lists[0], vec![0, 1]);
}

/// The greatest void and the next lower with page 0 of 2 give 8.
#[test]
fn greatest_void_next_with_page_0_of_2() {
    let pages = [(1, 0, 1, vec![reset(0, 0)]), (2, 0, 2, vec![insert(1, 1)]), (3, 0, 2, vec![insert(2, 2)])];
    assert_eq!(read(&pages), Err(8));
}

/// Level 4 in a reset gives 8.
#[test]
fn level_4_in_a_reset() {
    assert!(read(&[(1, 0, 1, vec![reset(0, 0)])]).is_ok());
    assert_eq!(read(&[(1, 0, 1, vec![reset(0, 4)])]), Err(8));
}

/// A key below its leaf's low bound gives 9.
#[test]
fn key_below_its_leafs_low_bound() {
    let unit = |node, key, value| encode(&Unit { node, deed: Deed::Insert(key, value) });
    let units = |key| vec![reset(0, 1), unit(0, 0, 1), unit(0, 10, 2), reset(1, 0), reset(2, 0), unit(2, key, 5)];
    assert!(read(&[(1, 0, 1, units(10))]).is_ok());
    assert_eq!(read(&[(1, 0, 1, units(9))]), Err(9));
}

/// The 17th update without a commit gives 3; B = 2 or 33 gives 1.
#[test]
fn seventeenth_update_and_block_numbers() {
    let mut plain = Plain::new();
    assert_eq!(plain.call(Call::Format(SMALL, 2000), LENGTHS, false, false), Answer::Accepted);
    for key in 0..16 {
        assert_eq!(plain.call(Call::Insert(key, 1), LENGTHS, false, false), Answer::Accepted);
    }
    assert_eq!(plain.call(Call::Insert(16, 1), LENGTHS, false, false), Answer::Refused(3));
    assert_eq!(plain.call(Call::Delete(99), LENGTHS, false, false), Answer::Refused(3));
    for blocks in [0, 2, 33] {
        let lengths = Lengths { image: blocks * BLOCK, torn: TORN };
        assert_eq!(plain.call(Call::Format(SMALL, 2000), lengths, false, false), Answer::Refused(1));
        assert_eq!(SMALL.blocks_of(blocks * BLOCK), None);
    }
    assert_eq!((SMALL.blocks_of(3 * BLOCK), SMALL.blocks_of(32 * BLOCK), SMALL.blocks_of(3 * BLOCK + 1)), (Some(3), Some(32), None));
}

/// The example of 'Bench program' through the plain store.
#[test]
fn bench_example() {
    let mut plain = Plain::new();
    let calls = [
        (Call::Format(SMALL, 2000), false, Answer::Accepted),
        (Call::Insert(7, 99), false, Answer::Accepted),
        (Call::LookUp(7), false, Answer::Found(99)),
        (Call::Commit(0), true, Answer::Refused(10)),
        (Call::LookUp(7), false, Answer::Refused(2)),
        (Call::Mount(SMALL, 255), false, Answer::Accepted),
        (Call::LookUp(7), false, Answer::Refused(4)),
    ];
    for (call, was_ten, answer) in calls {
        assert_eq!(plain.call(call, LENGTHS, was_ten, false), answer, "{call:?}");
    }
}

/// A commit with 2,000 or with nothing pending is finished even if the answer was 10.
#[test]
fn a_commit_is_not_cut_with_2000_or_with_nothing_pending() {
    let mut plain = Plain::new();
    plain.call(Call::Format(SMALL, 2000), LENGTHS, false, false);
    assert_eq!(plain.call(Call::Commit(0), LENGTHS, true, false), Answer::Accepted);
    plain.call(Call::Insert(1, 1), LENGTHS, false, false);
    assert_eq!(plain.call(Call::Commit(2000), LENGTHS, true, false), Answer::Accepted);
    assert_eq!(plain.number, 2);
}

/// The torn effects of an erase, a mark and a data program.
#[test]
fn torn_operations() {
    let mut torn = [7; TORN];
    torn[DATA + 3] = 0;
    let mut image = vec![9; 3 * BLOCK];
    chip::torn(SMALL, &mut image, &chip::Operation::Erase(1), &torn);
    assert_eq!((image[BLOCK - 1], image[BLOCK], image[BLOCK + DATA + 3], image[BLOCK + PAGE + DATA + 3]), (9, 7, 255, 255));
    chip::torn(SMALL, &mut image, &chip::Operation::Mark(0, 2), &torn);
    assert_eq!(image[DATA + 2], 7);
    torn[0] = 0;
    chip::torn(SMALL, &mut image, &chip::Operation::Erase(0), &torn);
    assert_eq!(image[0], 9);
    chip::torn(SMALL, &mut image, &chip::Operation::Program(0, &[1; DATA]), &torn);
    assert_eq!((image[0], image[1], image[DATA - 1], image[DATA]), (0, 7, 7, 9));
}

/// Inserts in key order take all 24 numbers, then answer none and change nothing.
#[test]
fn trees_grow_to_refusal() {
    let mut tree = Tree::leaf(3);
    let mut key = 0;
    while tree.insert(key, key) {
        key += 1;
    }
    assert_eq!(tree.nodes.iter().flatten().count(), 24);
    let before = tree.clone();
    assert!(!tree.insert(key, key));
    assert_eq!(tree, before);
    assert!((0..key).all(|key| tree.find(key) == Some(key)));
}

/// CRC-32 has its known check value and equals the sum bit by bit.
#[test]
fn check_value_of_the_sum() {
    assert_eq!(crc32(b"123456789"), 0xCBF4_3926);
    assert_eq!(crc32(b"1234567812345678"), {
        let mut sum = u32::MAX;
        for byte in b"1234567812345678" {
            sum ^= *byte as u32;
            for _ in 0..8 {
                sum = if sum & 1 == 1 { (sum >> 1) ^ 0xEDB8_8320 } else { sum >> 1 };
            }
        }
        !sum
    });
}

/// Random updates find what a map finds, and the tree written as one commit means itself.
#[test]
fn random_updates_equal_a_map() {
    let mut random = Random::new(5);
    for span in [30, 120, 400, 1 << 32] {
        let (mut tree, mut map) = (Tree::leaf(32), BTreeMap::new());
        for _ in 0..2500 {
            let (key, value) = (random.below(span) as u32, random.next() as u32);
            if random.below(5) < 3 {
                if tree.insert(key, value) {
                    map.insert(key, value);
                }
            } else {
                assert_eq!(tree.delete(key), map.remove(&key).is_some());
            }
            let key = random.below(span) as u32;
            assert_eq!(tree.find(key), map.get(&key).copied());
        }
        assert!(map.iter().all(|(key, value)| tree.find(*key) == Some(*value)));
        assert_eq!(meaning(SMALL, &written(&tree), 32).expect("a meaning").tree, tree);
    }
}

/// An image of 32 blocks with the nodes of a tree, a page each, as commits 1, 2 and so on.
fn written(tree: &Tree) -> Vec<u8> {
    let mut image = vec![255; 32 * BLOCK];
    let mut power = Power::new(SMALL, u32::MAX, &[]);
    for (number, node) in tree.nodes.iter().enumerate().filter_map(|(number, node)| Some((number, node.as_ref()?))) {
        let unit = |deed| encode(&Unit { node: number as u16, deed });
        let mut units = vec![unit(Deed::Reset(node.level))];
        units.extend(node.entries.iter().map(|entry| unit(Deed::Insert(entry.0, entry.1))));
        chip::write_page(&mut image, &mut power, number, &page_data(SMALL, number as u32 + 1, 0, 1, &units));
    }
    image
}
