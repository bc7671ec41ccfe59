//! The crash test of rebuilds: cut at every operation, on the chip of a case and on a thin one in stock.

use super::Case;
use crate::model::plain::POWER;
use crate::random::Random;
use crate::scripts::rebuilds;
use crate::scripts::torn;
use crate::scripts::writer::Writer;

/// Torn bytes of a kind, and whether void pages of a cut commit are there: the torn marks are set, are not, and any.
const CASES: [(bool, &[u64]); 3] = [(false, &[0, 5]), (true, &[0, 5]), (true, &[1, 2, 4, 6])];
/// Keys looked up after a rebuild that goes on from a cut one.
const SOME: usize = 12;

impl Case {
    /// Every allowance of a rebuild of the chip with updates pending, and of one with void pages; then of one of a thin chip in stock.
    pub(super) fn cut_rebuilds(&self, random: &mut Random, writer: &mut Writer) -> usize {
        let mut replays = 0;
        for (void, kinds) in CASES {
            self.replay(writer);
            let kind = kinds[random.index(kinds.len())];
            let bytes = torn::bytes(random, writer, kind);
            replays += self.cut_rebuild(writer, void, &bytes);
        }
        let kind = [0, 1, 5][random.index(3)];
        replays + rebuilds::cut_all(random, writer, kind)
    }

    /// A replay for each allowance up to the one that finishes the rebuild, with these torn bytes. Each time the chip is mounted and read,
    /// rebuilt again, and used on.
    fn cut_rebuild(&self, writer: &mut Writer, void: bool, bytes: &[u8]) -> usize {
        for allowance in 0.. {
            self.replay(writer);
            writer.tear(bytes);
            if void {
                let need = writer.probe().need(4).total();
                writer.tear(&[1]);
                writer.commit(need - 1);
                writer.tear(&bytes[..1]);
            }
            let refusal = writer.rebuild(allowance);
            self.check(writer);
            writer.rebuild(writer.enough());
            self.use_on(writer);
            if refusal != POWER {
                return allowance as usize + 1;
            }
        }
        0
    }

    /// Reports of all blocks, look ups, two updates and a commit.
    fn use_on(&self, writer: &mut Writer) {
        writer.check();
        writer.reports();
        for &key in self.keys.iter().take(SOME) {
            writer.look_up(key);
        }
        writer.delete(self.keys[0]);
        writer.insert(77_777, 7);
        writer.commit(writer.enough());
        writer.check();
    }
}
