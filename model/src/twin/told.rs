//! What format, mount, rebuild, commit and forecast tell: the refusal, and how many operations of each kind were done, or would be.

/// The kinds of operations.
#[derive(Clone, Copy, PartialEq, Eq, Debug)]
pub enum Kind {
    Program,
    Mark,
    Erase,
}

/// The operations done whole, by kind: data programs, marks set, erases.
#[derive(Clone, Copy, PartialEq, Eq, Debug, Default)]
pub struct Counts {
    pub programs: u32,
    pub marks: u32,
    pub erases: u32,
}

impl Counts {
    /// One more operation by what it tells: its kind, or nothing where it was torn or not done.
    pub fn take(&mut self, told: Option<Kind>) {
        match told {
            Some(Kind::Program) => self.programs += 1,
            Some(Kind::Mark) => self.marks += 1,
            Some(Kind::Erase) => self.erases += 1,
            None => {}
        }
    }

    /// The operations of all kinds.
    pub fn total(&self) -> u32 {
        self.programs + self.marks + self.erases
    }
}

/// What a call tells: the refusal, 0 for none, and the operations done.
#[derive(Clone, Copy, PartialEq, Eq, Debug)]
pub struct Told {
    pub refusal: u32,
    pub counts: Counts,
}

impl Told {
    /// A call that does no operation.
    pub fn quiet(refusal: u32) -> Told {
        Told { refusal, counts: Counts::default() }
    }
}
