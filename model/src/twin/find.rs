//! To find a key: the way down from node 0, each node read from its pages and then from the buffer.

use super::state::State;
use super::view::View;

/// What a look up answers: the refusal, 0 for none, the value found and the pages read.
#[derive(Clone, Copy, PartialEq, Eq, Debug)]
pub struct Look {
    pub refusal: u32,
    pub value: u32,
    pub pages: u32,
}

impl State {
    /// The view of the leaf of `key`, and the pages read on the way to it.
    fn leaf(&self, image: &[u8], key: u32) -> (View, u32) {
        let (mut view, mut pages) = self.view_and_pages(image, 0);
        for _ in 0..view.level {
            let (child, more) = self.view_and_pages(image, view.child(key));
            view = child;
            pages += more;
        }
        (view, pages as u32)
    }

    /// The value of `key` in P with the pages read: 2, 1, 4.
    pub fn look_up(&self, image: &[u8], key: u32) -> Look {
        if let Err(refusal) = self.admit(image) {
            return Look { refusal, value: 0, pages: 0 };
        }
        let (view, pages) = self.leaf(image, key);
        match view.lookup(key) {
            Some(value) => Look { refusal: 0, value, pages },
            None => Look { refusal: 4, value: 0, pages },
        }
    }
}
