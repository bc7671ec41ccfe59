//! Where the lists of note 8 go on and where they end.
use super::{erased, List, AGAIN};
use crate::hand::{data, obsolete, reply, write};
use crate::{ENOUGH, NONE, PAGES};
use model::model::chip::Operation;
use model::model::frame::Frame;
use model::model::unit::Deed;

/// Adds an update and a commit of it that is cut after some operations: its page, an erase of block 0, an obsolete mark.
fn cut(list: &mut List, allowance: u32, counts: [u32; 3]) {
    list.update();
    let page = data(list.number + 1, 0, 1, &[(0, Deed::Reset(0)), (0, Deed::Insert(7, list.number))]);
    let mut operations = write(PAGES + 2, &page);
    operations.push(Operation::Erase(0));
    operations.extend(obsolete(&[PAGES]));
    let image = list.hand.after(&operations, allowance as usize);
    list.hand.call(Frame::Commit(allowance), &reply(10, counts), image);
}

/// A mount, refused calls, look ups, reports and commits with nothing pending leave what the last commit erased.
#[test]
fn calls_between() {
    let between: [fn(&mut List); 4] = [
        |list| list.quiet(1),
        |list| list.mount(),
        |list| {
            list.quiet(1);
            list.mount();
            list.quiet(0);
        },
        |list| {
            list.update();
            list.mount();
            list.hand.frame(Frame::Commit(ENOUGH), &reply(0, NONE));
        },
    ];
    for calls in between {
        let mut list = erased();
        calls(&mut list);
        assert!(!list.accepts(AGAIN));
        let mut later = erased();
        calls(&mut later);
        later.commit((&[], PAGES + 1, &[]));
        later.mount();
        later.quiet(0);
        assert!(later.accepts((&[], PAGES + 2, &[0])));
    }
}

/// A commit that is cut may erase a block again, and so may those after it.
#[test]
fn cut_commit() {
    for (allowance, counts) in [(0, NONE), (4, [1, 2, 1])] {
        let mut list = erased();
        cut(&mut list, allowance, counts);
        list.mount();
        list.number += (allowance == 4) as u32;
        list.commit((&[], PAGES + 3, &[]));
        list.commit((&[0], 0, &[]));
        assert!(list.accepts((&[], PAGES + 4, &[0])));
    }
}

/// A finished format begins a new list, also after a cut.
#[test]
fn format() {
    let mut list = erased();
    list.format();
    assert!(list.accepts((&[], PAGES, &[0])));
    let mut list = erased();
    cut(&mut list, 0, NONE);
    list.format();
    list.commit((&[], PAGES, &[]));
    list.commit((&[0], 0, &[]));
    assert!(!list.accepts(AGAIN));
}

/// A format that is cut ends the list.
#[test]
fn cut_format() {
    let mut list = erased();
    let image = list.hand.after(&[Operation::Erase(0), Operation::Erase(1)], 1);
    list.hand.call(Frame::Format(1), &reply(10, [0, 0, 1]), image);
    list.hand.frame(Frame::Commit(ENOUGH), &reply(2, NONE));
    list.format();
    assert!(list.accepts((&[], PAGES, &[0])));
}

/// An image set from outside was not left alone, even where it is set back.
#[test]
fn image_set() {
    let mut list = erased();
    let image = list.hand.image.clone();
    let mut other = image.clone();
    other[40000] = 1;
    list.hand.set_image(&other);
    list.hand.set_image(&image);
    assert!(list.accepts(AGAIN));
    let mut list = erased();
    list.hand.frame(Frame::SetImage(40000, 255), "00");
    assert!(!list.accepts(AGAIN));
}
