//! The operations of a call told by kind: data programs, marks set and erases.
use super::frame;

/// Digits of one count in a reply.
const DIGITS: usize = 8;

/// The kind of a flash operation.
#[derive(Clone, Copy, Debug, PartialEq, Eq)]
pub enum Kind {
    Program,
    Mark,
    Erase,
}

/// How many operations of each kind were done whole; a torn one counts nowhere.
#[derive(Clone, Copy, Debug, Default, PartialEq, Eq, PartialOrd, Ord)]
pub struct Counts {
    pub programs: u32,
    pub marks: u32,
    pub erases: u32,
}

impl Counts {
    /// Three zeros.
    pub const NONE: Counts = Counts { programs: 0, marks: 0, erases: 0 };

    /// The counts of one operation of a kind.
    pub fn one(kind: Kind) -> Counts {
        match kind {
            Kind::Program => Counts { programs: 1, ..Counts::NONE },
            Kind::Mark => Counts { marks: 1, ..Counts::NONE },
            Kind::Erase => Counts { erases: 1, ..Counts::NONE },
        }
    }

    /// Both together, kind by kind.
    pub fn and(self, other: Counts) -> Counts {
        Counts { programs: self.programs + other.programs, marks: self.marks + other.marks, erases: self.erases + other.erases }
    }

    /// Whether there are of each kind at most as many as of others.
    pub fn within(self, other: Counts) -> bool {
        self.programs <= other.programs && self.marks <= other.marks && self.erases <= other.erases
    }

    /// The operations of all kinds; any three counts have a sum of 64 bits.
    pub fn sum(self) -> u64 {
        self.programs as u64 + self.marks as u64 + self.erases as u64
    }

    /// The counts as a reply has them: data programs, marks set, erases, 8 digits each.
    pub fn digits(self) -> String {
        format!("{:08X}{:08X}{:08X}", self.programs, self.marks, self.erases)
    }

    /// The counts of three times 8 digits; none when there are not so many or a byte is no digit.
    pub fn read(digits: &[u8]) -> Option<Counts> {
        if digits.len() != 3 * DIGITS {
            return None;
        }
        let count = |at: usize| frame::hexadecimal(&digits[at * DIGITS..(at + 1) * DIGITS]);
        Some(Counts { programs: count(0)?, marks: count(1)?, erases: count(2)? })
    }
}
