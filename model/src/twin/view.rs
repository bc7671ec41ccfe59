//! A node's view: what its units make of it.

use super::unit::{decode, is_unit, node_of, Update, FREED, UNIT};

/// No unit yet; units without a reset or behind one that frees, above 16 entries since the last one, or bytes that are no unit; freed by the
/// last unit; a level and entries.
#[derive(Clone, Copy, PartialEq, Eq, Debug)]
pub enum Stage {
    Untouched,
    Broken,
    Freed,
    Full,
}

/// A node's view so far. An entry is its key above its value in one number; what is not full has level 0 and no entries.
#[derive(Clone, Copy)]
pub struct View {
    pub stage: Stage,
    pub level: u32,
    pub len: usize,
    entries: [u64; 17],
}

/// The entry of a key and a value.
pub fn entry(key: u32, value: u32) -> u64 {
    u64::from(key) << 32 | u64::from(value)
}

/// The key of an entry.
pub fn key_of(entry: u64) -> u32 {
    (entry >> 32) as u32
}

/// The value of an entry.
pub fn value_of(entry: u64) -> u32 {
    entry as u32
}

impl View {
    /// A node before its first unit.
    pub const UNTOUCHED: View = View { stage: Stage::Untouched, level: 0, len: 0, entries: [0; 17] };

    /// A freed node.
    pub const FREED: View = View { stage: Stage::Freed, ..View::UNTOUCHED };

    /// A node of a level with these entries in key order, at most 16.
    pub fn node(level: u32, entries: &[u64]) -> View {
        let mut view = View { stage: Stage::Full, level, len: entries.len(), ..View::UNTOUCHED };
        view.entries[..entries.len()].copy_from_slice(entries);
        view
    }

    /// The entries in key order.
    pub fn entries(&self) -> &[u64] {
        &self.entries[..self.len]
    }

    /// How many entries have a key not above `key`. The search begins at the end, where a node written in key order grows.
    fn reach(&self, key: u32) -> usize {
        let mut i = self.len.min(17);
        while i > 0 && key_of(self.entries[i - 1]) > key {
            i -= 1;
        }
        i
    }

    /// The value of `key`, if an entry has it.
    pub fn lookup(&self, key: u32) -> Option<u32> {
        let last = *self.entries[..self.reach(key)].last()?;
        (key_of(last) == key).then(|| value_of(last))
    }

    /// The place of the entry for `key`: that of the greatest key not above it, 0 where there is none.
    pub fn place(&self, key: u32) -> usize {
        self.reach(key).saturating_sub(1)
    }

    /// The child for `key`: the value of the greatest entry key not above it, 0 where there is none.
    pub fn child(&self, key: u32) -> u32 {
        self.entries[..self.reach(key)].last().map_or(0, |&e| value_of(e))
    }

    /// `key` with `value`, in the place of an equal key if there is one; room for a 17th entry is there.
    pub fn insert(&mut self, key: u32, value: u32) {
        let at = self.reach(key);
        if at > 0 && key_of(self.entries[at - 1]) == key {
            self.entries[at - 1] = entry(key, value);
            return;
        }
        if self.len < 17 {
            if at < self.len {
                self.entries.copy_within(at..self.len, at + 1);
            }
            self.entries[at] = entry(key, value);
            self.len += 1;
        }
    }

    /// Without `key`, if it is there.
    pub fn delete(&mut self, key: u32) {
        let at = self.reach(key);
        if at > 0 && key_of(self.entries[at - 1]) == key {
            self.entries.copy_within(at..self.len, at - 1);
            self.len -= 1;
        }
    }

    /// No entries, at a level; freed with the value for that.
    fn reset(&mut self, value: u32) {
        (self.stage, self.level) = match value {
            FREED => (Stage::Freed, 0),
            level => (Stage::Full, level),
        };
        self.len = 0;
    }

    /// The view made a broken one.
    pub fn spoil(&mut self) {
        self.stage = Stage::Broken;
        self.level = 0;
        self.len = 0;
    }

    /// The view after one more of the node's units.
    #[inline]
    pub fn apply(&mut self, update: Update) {
        match update {
            Update::Reset(value) => self.reset(value),
            _ if self.stage != Stage::Full => self.stage = Stage::Broken,
            Update::Delete(key) => self.delete(key),
            Update::Insert(key, value) => {
                self.insert(key, value);
                if self.len > 16 {
                    self.spoil();
                }
            }
        }
    }

    /// The view after these units, of which those of `number` count; broken at the first 12 bytes that are no unit.
    pub fn fold(&mut self, units: &[[u8; UNIT]], number: u32, limit: u32) {
        for unit in units {
            if node_of(unit) == number {
                match decode(unit, limit) {
                    Some(update) => self.apply(update),
                    None => return self.spoil(),
                }
            } else if !is_unit(unit, limit) {
                return self.spoil();
            }
        }
    }
}
