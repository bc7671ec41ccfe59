//! Erases of free blocks, which no image shows: the counts told and the figures of the reports hold them to note 8.
use super::{erased, List};
use crate::PAGES;

/// A list on a chip of some blocks whose commits all write into block 0; each tells so many erases, of the other blocks.
fn hidden(blocks: usize, erases: &[usize]) -> List {
    let mut list = List::new(blocks);
    for more in erases {
        more_hidden(&mut list, *more);
    }
    list
}

/// Adds a commit that writes the next page of block 0 and tells erases that do not show.
fn more_hidden(list: &mut List, erases: usize) {
    let place = list.number as usize;
    list.commit_with((&[], place, &[]), erases);
}

/// Whether the judge accepts such a commit.
fn accepts(list: &mut List, erases: usize) -> bool {
    let place = list.number as usize;
    list.accepts_with((&[], place, &[]), erases)
}

/// No commit erases a block twice: where only one block can have been erased, one erase is told.
#[test]
fn twice_in_a_commit() {
    let mut list = List::new(3);
    list.commit((&[], PAGES, &[]));
    list.commit((&[], 2 * PAGES, &[]));
    assert!(!list.accepts_with((&[0], 0, &[]), 1));
    assert!(!list.accepts_with((&[0], 0, &[]), 5));
    assert!(list.accepts_with((&[0], 0, &[]), 0));
}

/// With one free block, one erase may be told that does not show; the figures are then known.
#[test]
fn one_free_block() {
    let mut list = List::new(3);
    list.commit((&[], PAGES, &[]));
    assert!(!list.accepts_with((&[0], 0, &[]), 2));
    let mut list = List::new(3);
    list.commit((&[], PAGES, &[]));
    list.commit_with((&[0], 0, &[]), 1);
    assert_eq!([list.figures(0), list.figures(1), list.figures(2)], [[1], [0], [1]]);
    let mut list = erased();
    assert!(!list.accepts_with((&[], 1, &[]), 2) && list.accepts_with((&[], 1, &[]), 1));
}

/// Over k commits a figure grows by at most (k + 1) / 2, rounded down.
#[test]
fn most_of_a_figure() {
    for commits in 1..8 {
        let list = hidden(5, &vec![1; commits]);
        let most = (commits as u64 + 1) / 2;
        assert_eq!(list.figures(1), (0..=most).collect::<Vec<u64>>(), "{commits} commits");
        assert_eq!(list.figures(0), [0]);
    }
    assert_eq!(hidden(5, &[2]).figures(3), [0, 1]);
    assert_eq!(hidden(5, &[2, 2]).figures(3), [1]);
    assert_eq!(hidden(5, &[2, 2, 2]).figures(3), [1, 2]);
}

/// With two free blocks and an erase told each time, they are erased in turn.
#[test]
fn two_free_blocks() {
    for (commits, figures) in [(1, vec![0, 1]), (2, vec![1]), (3, vec![1, 2]), (4, vec![2]), (5, vec![2, 3])] {
        let list = hidden(3, &vec![1; commits]);
        assert_eq!([list.figures(1), list.figures(2)], [figures.clone(), figures], "{commits} commits");
    }
    assert!(!accepts(&mut hidden(3, &[2]), 1) && !accepts(&mut hidden(3, &[1]), 2));
    assert!(accepts(&mut hidden(3, &[2]), 0) && accepts(&mut hidden(3, &[2, 0]), 2));
    assert!(!accepts(&mut hidden(3, &[1]), 3));
}

/// A report tells what the last commit erased, and the figures grow from there.
#[test]
fn after_a_report() {
    for (figure, next) in [(0, vec![0, 1]), (1, vec![1])] {
        let mut list = hidden(5, &[1]);
        list.reported(1, figure);
        more_hidden(&mut list, 1);
        assert_eq!(list.figures(1), next);
        more_hidden(&mut list, 1);
        assert_eq!(list.figures(1).last(), Some(&(figure + 1)));
    }
    let mut list = hidden(5, &[1, 1]);
    list.reported(1, 1);
    more_hidden(&mut list, 1);
    assert_eq!(list.figures(1), [1, 2]);
    list.reported(1, 2);
    more_hidden(&mut list, 1);
    assert_eq!(list.figures(1), [2]);
}

/// The same over a mount, after which the figures start at 0.
#[test]
fn over_a_mount() {
    let mut list = hidden(3, &[1]);
    list.reported(1, 1);
    list.mount();
    assert_eq!([list.figures(1), list.figures(2)], [[0], [0]]);
    assert!(!accepts(&mut list, 2));
    let mut list = hidden(3, &[1]);
    list.reported(2, 0);
    list.mount();
    more_hidden(&mut list, 1);
    assert_eq!([list.figures(1), list.figures(2)], [[0], [1]]);
    more_hidden(&mut list, 1);
    assert_eq!([list.figures(1), list.figures(2)], [[1], [1]]);
    for (erases, next) in [(2, [true, false, false]), (1, [true, true, false]), (0, [true, true, true])] {
        let mut list = hidden(3, &[erases]);
        list.mount();
        assert_eq!([0, 1, 2].map(|more| accepts(&mut list, more)), next);
    }
}

/// An erase that shows says that an earlier one, which did not, was of another block.
#[test]
fn shown_after_hidden() {
    let mut list = List::new(3);
    list.commit_with((&[], PAGES, &[]), 1);
    assert_eq!([list.figures(1), list.figures(2)], [[0, 1], [0, 1]]);
    list.commit((&[], 1, &[1]));
    assert_eq!([list.figures(0), list.figures(1), list.figures(2)], [[0], [1], [1]]);
    let mut list = List::new(3);
    list.commit_with((&[], PAGES, &[]), 1);
    list.reported(1, 1);
    assert!(!list.accepts((&[], 1, &[1])));
}
