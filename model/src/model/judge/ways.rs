//! The ways in which flash operations of a commit explain a change of the image, with the operations of each by kind.
use crate::model::counts::{Counts, Kind};
use crate::model::erases::Range;
use std::collections::BTreeSet;

/// One way: its whole operations, its torn one, and whether it leaves room for erases that do not show.
#[derive(Clone, Copy, Debug, Default, PartialEq, Eq, PartialOrd, Ord)]
pub struct Way {
    /// The operations done whole.
    pub whole: Counts,
    /// Pages and blocks where a torn operation was.
    pub torn: u32,
    /// Whether a block may have been erased once more without showing it.
    pub more_erases: bool,
}

impl Way {
    /// The way of one whole operation.
    pub fn whole(kind: Kind) -> Way {
        Way { whole: Counts::one(kind), ..Way::default() }
    }

    /// The way of a torn operation after whole ones.
    pub fn torn(whole: Counts) -> Way {
        Way { whole, torn: 1, ..Way::default() }
    }

    /// Both together.
    fn and(self, other: Way) -> Way {
        Way { whole: self.whole.and(other.whole), torn: self.torn + other.torn, more_erases: self.more_erases || other.more_erases }
    }

    /// Whether a commit done in this way tells these counts.
    fn tells(self, told: Counts) -> bool {
        let erases = told.erases == self.whole.erases || (self.more_erases && told.erases > self.whole.erases);
        told.programs == self.whole.programs && told.marks == self.whole.marks && erases
    }
}

/// All ways to explain one change; empty when there is none.
#[derive(Clone, Debug, Default)]
pub struct Ways(BTreeSet<Way>);

impl Ways {
    /// The one way without any operation.
    pub fn nothing() -> Ways {
        Ways::one(Way::default())
    }

    /// One way alone.
    pub fn one(way: Way) -> Ways {
        Ways(BTreeSet::from([way]))
    }

    /// Whether there is no way.
    pub fn is_empty(&self) -> bool {
        self.0.is_empty()
    }

    /// Adds a way if it is one.
    pub fn add(&mut self, is: bool, way: Way) {
        if is {
            self.0.insert(way);
        }
    }

    /// These ways, or the others.
    pub fn or(mut self, other: Ways) -> Ways {
        self.0.extend(other.0);
        self
    }

    /// The ways to explain two changes together: of a call, at most one operation is torn.
    pub fn and(&self, other: &Ways) -> Ways {
        let pairs = self.0.iter().flat_map(|one| other.0.iter().map(|two| one.and(*two)));
        Ways(pairs.filter(|way| way.torn <= 1).collect())
    }

    /// The erases of the block that these ways explain, at most a number of them.
    pub fn erases(&self, most: u64) -> Range {
        let erases = || self.0.iter().map(|way| way.whole.erases as u64);
        let shown = erases().max().unwrap_or(0);
        let more = self.0.iter().any(|way| way.more_erases);
        Range { least: erases().min().unwrap_or(0), most: if more { most } else { shown } }
    }

    /// Whether a commit done in one of the ways tells these counts.
    pub fn tell(&self, told: Counts) -> bool {
        self.0.iter().any(|way| way.tells(told))
    }

    /// The counts of the way with the fewest operations, as a reply has them.
    pub fn fewest(&self) -> String {
        let fewest = self.0.iter().min_by_key(|way| way.whole.sum());
        fewest.map_or(String::new(), |way| way.whole.digits())
    }
}
