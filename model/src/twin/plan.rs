//! The plan of a commit: which nodes are written, each anew or in its own buffered units, and into which of its pages.

use super::ground::Ground;
use super::state::{State, BUFFER};
use super::unit::{decode, encode, node_of, Update, FREED, UNIT};
use super::view::{key_of, value_of, Stage, View};

/// The buffered units by node: `order[start[n]..start[n + 1]]` are the indexes of those of node n.
pub struct Sorted {
    start: [u16; 257],
    order: [u16; BUFFER],
    reset: [bool; 256],
    bad: bool,
}

impl Sorted {
    /// The units of the buffer sorted by node; `bad` where a node number is not below `limit`, which breaks every view.
    pub fn of(units: &[[u8; UNIT]], limit: u32) -> Sorted {
        let mut s = Sorted { start: [0; 257], order: [0; BUFFER], reset: [false; 256], bad: false };
        for unit in units {
            let n = node_of(unit);
            s.bad |= n >= limit;
            s.start[n.min(255) as usize + 1] += 1;
        }
        for n in 0..256 {
            s.start[n + 1] += s.start[n];
        }
        let mut at = s.start;
        for (i, unit) in units.iter().enumerate() {
            let n = node_of(unit).min(255) as usize;
            s.order[usize::from(at[n])] = i as u16;
            at[n] += 1;
            s.reset[n] |= unit[0] == 3;
        }
        s
    }

    /// The indexes of the units of a node.
    fn own(&self, n: usize) -> &[u16] {
        &self.order[usize::from(self.start[n])..usize::from(self.start[n + 1])]
    }
}

/// The most units of a node written anew: a reset and 16 entries.
const WHOLE: usize = 17;

/// No page.
const NONE: u8 = 255;

/// The most pages of a commit: 256 nodes, of which each page but the last holds two or more.
pub const MOST: usize = 128;

/// The pages of a commit: for each node its page, if it has one, and whether it is written anew; of a node that was read, `whole` is how
/// many units that is, and `units` has them, 17 places a node; the free units of each page.
pub struct Plan {
    pub pages: usize,
    target: [u8; 256],
    anew: [bool; 256],
    read: [bool; 256],
    whole: [u8; 256],
    rooms: [u8; MOST],
    units: [[u8; UNIT]; 256 * WHOLE],
}

impl Plan {
    /// No page yet, and no node read.
    pub fn empty() -> Plan {
        Plan {
            pages: 0,
            target: [NONE; 256],
            anew: [false; 256],
            read: [false; 256],
            whole: [0; 256],
            rooms: [0; MOST],
            units: [[0; UNIT]; 256 * WHOLE],
        }
    }

    /// A node's units where it is written anew: freed, its reset alone; none where it is untouched or broken.
    fn keep(&mut self, n: usize, view: &View) {
        self.read[n] = true;
        let reset = match view.stage {
            Stage::Full => view.level,
            Stage::Freed => FREED,
            Stage::Untouched | Stage::Broken => return,
        };
        put_node(&mut self.units[WHOLE * n..][..view.len + 1], n as u32, reset, view);
        self.whole[n] = view.len as u8 + 1;
    }

    /// All nodes of these views anew, packed in the order of their numbers into pages of at most `units` units.
    pub fn anew(views: &[View], units: usize) -> Plan {
        let mut plan = Plan::empty();
        for (n, view) in views.iter().enumerate() {
            plan.keep(n, view);
            plan.anew[n] = true;
            plan.pack(n, plan.whole[n], units);
        }
        plan
    }

    /// The first page with room for this many units.
    fn first(&self, size: u8) -> Option<usize> {
        self.rooms[..self.pages].iter().position(|&room| room >= size)
    }

    /// A node's units put into a page.
    fn put(&mut self, n: usize, page: usize, size: u8) {
        self.rooms[page] -= size;
        self.target[n] = page as u8;
    }

    /// A node of this many units put into the first page that has room, else into a new one, which has room for `units`.
    fn pack(&mut self, n: usize, size: u8, units: usize) {
        if size == 0 || self.target[n] != NONE {
            return;
        }
        let page = self.first(size).unwrap_or_else(|| {
            self.rooms[self.pages] = units as u8;
            self.pages += 1;
            self.pages - 1
        });
        self.put(n, page, size);
    }

    /// A node without a page written anew where a page has room.
    fn fill(&mut self, n: usize) {
        if self.target[n] == NONE && self.whole[n] > 0 {
            if let Some(page) = self.first(self.whole[n]) {
                self.anew[n] = true;
                self.put(n, page, self.whole[n]);
            }
        }
    }

    /// A node in its own units turned anew where its page has room.
    fn widen(&mut self, n: usize, part: usize) {
        if self.anew[n] || self.target[n] == NONE {
            return;
        }
        let more = self.whole[n] - part as u8;
        let room = &mut self.rooms[usize::from(self.target[n])];
        if more <= *room {
            *room -= more;
            self.anew[n] = true;
        }
    }
}

impl State {
    /// A node's view from its pages and then from its sorted units; its pages count nothing where the buffer has a reset.
    fn view_sorted(&self, image: &[u8], sorted: &Sorted, n: usize) -> View {
        let limit = self.limit();
        let mut view = match sorted.reset[n] {
            true => View::UNTOUCHED,
            false => self.stored(image, n as u32, limit),
        };
        let units = self.buffered();
        for &i in sorted.own(n) {
            if let Some(update) = decode(&units[usize::from(i)], limit) {
                view.apply(update);
            }
        }
        view
    }

    /// Whether the list of a node has a page in this block.
    fn stands_in(&self, n: usize, block: Option<usize>) -> bool {
        self.list(n as u32).iter().any(|&place| Some(self.geometry.block_of(place as usize)) == block)
    }

    /// A snapshot: every node anew. A node that was read already is not read again.
    pub fn snapshot(&self, image: &[u8], sorted: &Sorted, plan: &mut Plan) {
        plan.pages = 0;
        plan.target = [NONE; 256];
        for n in 0..self.limit() as usize {
            if !sorted.bad && !plan.read[n] {
                plan.keep(n, &self.view_sorted(image, sorted, n));
            }
            plan.anew[n] = true;
            plan.pack(n, plan.whole[n], self.geometry.units);
        }
    }

    /// The nodes that a delta may write, read once: those with buffered units, and those of the oldest block. A node is written anew
    /// where its buffered units have a reset, or that is no more units, or its list is full.
    fn measure(&self, image: &[u8], sorted: &Sorted, ground: &Ground, plan: &mut Plan) {
        for n in 0..self.limit() as usize {
            let own = sorted.own(n).len();
            if own > 0 || self.stands_in(n, ground.oldest) {
                plan.keep(n, &self.view_sorted(image, sorted, n));
                plan.anew[n] = own > 0 && (sorted.reset[n] || usize::from(plan.whole[n]) <= own || self.lens[n] >= 4);
            }
        }
    }

    /// A delta: the nodes to be written anew go into pages first, then the others in their own units. Room that is left is filled: lists
    /// of 3 pages turn anew, then nodes of the oldest block join, then lists of 2 and of 1 turn.
    pub fn delta(&self, image: &[u8], sorted: &Sorted, ground: &Ground, plan: &mut Plan) {
        if sorted.bad {
            return;
        }
        let nodes = || 0..self.limit() as usize;
        self.measure(image, sorted, ground, plan);
        for n in nodes() {
            if plan.anew[n] {
                plan.pack(n, plan.whole[n], self.geometry.units);
            }
        }
        for n in nodes() {
            if !plan.anew[n] {
                plan.pack(n, sorted.own(n).len() as u8, self.geometry.units);
            }
        }
        self.widen(sorted, plan, 3);
        for n in nodes() {
            if self.stands_in(n, ground.oldest) {
                plan.fill(n);
            }
        }
        self.widen(sorted, plan, 2);
        self.widen(sorted, plan, 1);
    }

    /// The nodes whose lists have `depth` pages turned anew where their pages have room.
    fn widen(&self, sorted: &Sorted, plan: &mut Plan, depth: u32) {
        for n in (0..self.limit() as usize).filter(|&n| self.lens[n] == depth) {
            plan.widen(n, sorted.own(n).len());
        }
    }

    /// The units of a page's nodes in the order of their numbers, written behind its header. Returns how many there are.
    pub fn gather(&self, sorted: &Sorted, plan: &Plan, index: usize, data: &mut [u8]) -> usize {
        let (out, _) = data[8..].as_chunks_mut::<UNIT>();
        let buffered = self.buffered();
        let mut k = 0;
        for n in (0..self.limit() as usize).filter(|&n| usize::from(plan.target[n]) == index) {
            if plan.anew[n] {
                let whole = usize::from(plan.whole[n]);
                out[k..k + whole].copy_from_slice(&plan.units[WHOLE * n..][..whole]);
                k += whole;
            } else {
                for &i in sorted.own(n) {
                    out[k] = buffered[usize::from(i)];
                    k += 1;
                }
            }
        }
        k
    }
}

/// A node written anew: a reset and an insert for each entry.
fn put_node(out: &mut [[u8; UNIT]], number: u32, reset: u32, view: &View) {
    out[0] = encode(number, Update::Reset(reset));
    for (unit, &e) in out[1..].iter_mut().zip(view.entries()) {
        *unit = encode(number, Update::Insert(key_of(e), value_of(e)));
    }
}
