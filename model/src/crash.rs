//! The crash test: every allowance of a commit, of a mount, of a format and of a rebuild, with several torn slices, then a mount and
//! look ups.

mod rebuilds;

use crate::model::geometry::Geometry;
use crate::model::image::meaning;
use crate::random::Random;
use crate::scripts::part;
use crate::scripts::torn;
use crate::scripts::wide::Wide;
use crate::scripts::writer::Writer;

/// One step of a case: an update, or a commit with power enough.
#[derive(Clone, Copy)]
enum Step {
    Insert(u32, u32),
    Delete(u32),
    Commit,
}

/// What each replay of a case begins with: a format, rounds of updates and commits, and at the end pending updates.
pub struct Case {
    geometry: Geometry,
    blocks: u32,
    steps: Vec<Step>,
    keys: Vec<u32>,
}

/// The lines of all replays of a case, and how many replays they are.
pub struct Replays {
    pub lines: Vec<Vec<u8>>,
    pub replays: usize,
}

/// Which commits a case ends before: any, one that erases a block, one of so many pages or more, one on a store with a list of four pages,
/// one that frees a node.
#[derive(Clone, Copy, PartialEq)]
enum Aim {
    Any,
    Erase,
    Pages(u32),
    Four,
    Free,
}

/// The aims, each as often as it stands here.
const AIMS: [Aim; 8] = [Aim::Any, Aim::Free, Aim::Free, Aim::Erase, Aim::Erase, Aim::Pages(2), Aim::Pages(2), Aim::Pages(3)];

/// The aims on the large part, where hardly a commit has 3 pages, and an erase needs many commits before it.
const LARGE_AIMS: [Aim; 8] = [Aim::Any, Aim::Free, Aim::Free, Aim::Erase, Aim::Four, Aim::Pages(2), Aim::Pages(2), Aim::Pages(2)];

impl Aim {
    /// The numbers of blocks of its chips.
    fn sizes(self, large: bool) -> [u32; 4] {
        match self {
            Aim::Erase if large => [3, 3, 3, 3],
            Aim::Erase => [3, 3, 3, 4],
            Aim::Pages(_) | Aim::Four if large => [5, 5, 6, 8],
            _ => [3, 3, 4, 8],
        }
    }

    /// Of five updates, how many are deletes: more where the rounds before have filled leaves and one that frees is wanted.
    fn deletes(self, filled: bool) -> u64 {
        if self == Aim::Free && filled {
            4
        } else {
            1
        }
    }

    /// Whether the pending commit of a case is one of these.
    fn is_met(self, case: &Case, writer: &Writer) -> bool {
        let probe = writer.probe();
        match self {
            Aim::Any => true,
            Aim::Erase => probe.need(4).erases > 0,
            Aim::Pages(pages) => probe.need(4).programs >= pages,
            Aim::Four => probe.state().lens.contains(&4),
            Aim::Free => case.frees(probe.image()),
        }
    }
}

impl Case {
    /// A case on a chip of a part that it chooses.
    pub fn fresh(random: &mut Random) -> Case {
        let geometry = part(random);
        Case::new(random, geometry)
    }

    /// A case on a chip of a geometry.
    pub fn new(random: &mut Random, geometry: Geometry) -> Case {
        let large = geometry == Geometry::LARGE;
        let aim = if large { LARGE_AIMS } else { AIMS }[random.index(AIMS.len())];
        let blocks = aim.sizes(large)[random.index(4)];
        let mut wide = (large && matches!(aim, Aim::Pages(_) | Aim::Four)).then(Wide::default);
        let range = if matches!(aim, Aim::Pages(_)) { [120, 260][random.index(2)] } else { [30, 60, 120, 260][random.index(4)] };
        let keys: Vec<u32> = (0..range).map(|i| if i == 0 { 0 } else { i * (u32::MAX / (range - 1)) }).collect();
        let mut case = Case { geometry, blocks, steps: Vec::new(), keys };
        let mut writer = case.begin();
        let rounds = 3 + random.below(if aim == Aim::Any { 40 } else { 8 });
        for round in 0.. {
            case.round(random, &mut writer, wide.as_mut(), aim.deletes(round >= rounds));
            if round >= rounds && aim.is_met(&case, &writer) || round > 200 {
                break;
            }
            case.take(&mut writer, Step::Commit);
        }
        case.keys.sort_unstable();
        case.keys.dedup();
        case
    }

    /// Whether the steps since the last commit free a node of an image, by the model's tree.
    fn frees(&self, image: &[u8]) -> bool {
        let Ok(means) = meaning(self.geometry, image, self.blocks as usize) else { return false };
        let mut tree = means.tree.clone();
        let from = self.steps.iter().rposition(|step| matches!(step, Step::Commit)).map_or(0, |at| at + 1);
        for step in &self.steps[from..] {
            match *step {
                Step::Insert(key, value) => tree.insert(key, value),
                Step::Delete(key) => tree.delete(key),
                Step::Commit => true,
            };
        }
        means.tree.nodes.iter().zip(&tree.nodes).any(|(before, after)| before.is_some() && after.is_none())
    }

    /// Up to 16 updates, so many of five deletes, at least one of them accepted; 16 where they are spread over the leaves, though the
    /// one after a refusal is not.
    fn round(&mut self, random: &mut Random, writer: &mut Writer, mut wide: Option<&mut Wide>, deletes: u64) {
        let updates = if wide.is_some() { 16 } else { [1, 1, 2, 3, 8, 16][random.index(6)] };
        let (mut done, mut refused) = (0, false);
        while done < updates {
            let key = match &mut wide {
                Some(wide) if !refused => {
                    self.keys.push(wide.pick(random, writer));
                    self.keys[self.keys.len() - 1]
                }
                _ => self.keys[random.index(self.keys.len())],
            };
            let step = match random.below(5) < deletes {
                true => Step::Delete(key),
                false => Step::Insert(key, random.next() as u32),
            };
            refused = self.take(writer, step) != 0;
            match refused {
                true => drop(self.steps.pop()),
                false => done += 1,
            }
        }
    }

    /// One more step, done at once.
    fn take(&mut self, writer: &mut Writer, step: Step) -> u32 {
        self.steps.push(step);
        apply(writer, step)
    }

    /// A script that has formatted a chip of the case's size.
    fn begin(&self) -> Writer {
        let mut writer = Writer::new(self.geometry);
        writer.lend(self.blocks);
        writer.format(writer.enough());
        writer
    }

    /// The chip formatted and the steps done.
    fn replay(&self, writer: &mut Writer) {
        writer.format(u32::MAX);
        for &step in &self.steps {
            apply(writer, step);
        }
    }

    /// A checksum, a mount with power enough, a checksum, reports of all blocks, and a look up of every key of the case and of some others.
    fn check(&self, writer: &mut Writer) {
        writer.check();
        writer.mount(255);
        writer.check();
        writer.reports();
        for &key in &self.keys {
            writer.look_up(key);
        }
        for key in [1, 77_777, 1 << 31, u32::MAX - 1] {
            writer.look_up(key);
        }
    }

    /// Every allowance of the pending commit with each of several torn slices; cut mounts; cut formats; cut rebuilds.
    pub fn replays(&self, random: &mut Random) -> Replays {
        let mut writer = self.begin();
        let mut replays = 0;
        for kind in [0, 1, 2, 4, 5, 6, 8] {
            replays += self.cut_commits(random, &mut writer, kind);
        }
        replays += self.cut_mounts(random, &mut writer);
        replays += self.cut_formats(&mut writer);
        replays += self.cut_rebuilds(random, &mut writer);
        Replays { lines: writer.lines(), replays }
    }

    /// A replay for each allowance from 0 to what the commit needs, forecast before it, with torn bytes of a kind.
    fn cut_commits(&self, random: &mut Random, writer: &mut Writer, kind: u64) -> usize {
        self.replay(writer);
        let need = writer.probe().need(4).total();
        let bytes = torn::bytes(random, writer, kind);
        writer.tear(&bytes);
        for allowance in 0..=need {
            if allowance > 0 {
                self.replay(writer);
            }
            writer.forecast();
            writer.commit(allowance);
            self.check(writer);
        }
        need as usize + 1
    }

    /// A commit cut at its last operation, whose pages are void then, and a replay for each allowance of the mount.
    fn cut_mounts(&self, random: &mut Random, writer: &mut Writer) -> usize {
        let kind = [0, 1, 2, 4][random.index(4)];
        let bytes = torn::bytes(random, writer, kind);
        writer.tear(&bytes);
        let mut allowance = 0;
        loop {
            self.replay(writer);
            let need = writer.probe().need(4).total();
            writer.tear(&[1]);
            writer.commit(need - 1);
            let voids = writer.probe().need(5).total();
            writer.tear(&bytes[..1]);
            writer.mount(allowance);
            self.check(writer);
            allowance += 1;
            if allowance > voids {
                return allowance as usize;
            }
        }
    }

    /// A format for each allowance up to what it needs, mounted as it is left.
    fn cut_formats(&self, writer: &mut Writer) -> usize {
        let need = self.blocks + 3;
        for allowance in 0..=need {
            self.replay(writer);
            writer.format(allowance);
            writer.check();
            writer.reports();
            writer.mount(255);
            writer.check();
            writer.reports();
        }
        need as usize + 1
    }
}

/// One step of a case.
fn apply(writer: &mut Writer, step: Step) -> u32 {
    match step {
        Step::Insert(key, value) => writer.insert(key, value),
        Step::Delete(key) => writer.delete(key),
        Step::Commit => writer.commit(u32::MAX),
    }
}
