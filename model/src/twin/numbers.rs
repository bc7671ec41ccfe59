//! The free node numbers: those below 8 x B that no node of P has.

use super::view::{Stage, View};

/// Numbers from 0 to 255 as a set, 64 to a word.
#[derive(Clone, Copy, PartialEq, Eq, Debug)]
pub struct Numbers {
    words: [u64; 4],
}

/// The word of a number and its bit there; none from 256 on.
fn bit(number: u32) -> Option<(usize, u64)> {
    (number < 256).then(|| (number as usize / 64, 1 << (number % 64)))
}

impl Numbers {
    /// None.
    pub const NONE: Numbers = Numbers { words: [0; 4] };

    /// All numbers below `limit` but 0.
    pub fn fresh(limit: u32) -> Numbers {
        let mut numbers = Numbers::NONE;
        (1..limit).for_each(|number| numbers.put(number));
        numbers
    }

    /// The numbers below `limit` that no node has, by the views of all.
    pub fn of(views: &[View; 256], limit: u32) -> Numbers {
        let mut numbers = Numbers::NONE;
        for (number, _) in views.iter().enumerate().take(limit as usize).filter(|(_, view)| view.stage != Stage::Full) {
            numbers.put(number as u32);
        }
        numbers
    }

    /// Whether the set has a number.
    pub fn has(&self, number: u32) -> bool {
        bit(number).is_some_and(|(word, bit)| self.words[word] & bit != 0)
    }

    /// A number put in.
    pub fn put(&mut self, number: u32) {
        if let Some((word, bit)) = bit(number) {
            self.words[word] |= bit;
        }
    }

    /// The least number taken out; 256 where there is none.
    pub fn take_least(&mut self) -> u32 {
        let Some(word) = self.words.iter().position(|&word| word != 0) else { return 256 };
        let low = self.words[word].trailing_zeros();
        self.words[word] &= !(1 << low);
        64 * word as u32 + low
    }

    /// How many there are.
    pub fn count(&self) -> u32 {
        self.words.iter().map(|word| word.count_ones()).sum()
    }
}
