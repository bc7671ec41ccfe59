//! Long runs without a format: how often each block is erased, by the block reports, and how many commits finish between two erases.

use crate::both::{Both, PENDING};
use crate::random::Random;

/// Another value for keys of a full tree: any, one after the other from the least on and again after the greatest, and any of ten.
const WORKS: [&str; 3] = ["random keys, full tree", "rising keys, full tree", "hot set of 10 keys"];

/// The fewest commits that may finish from an erase of a block to its next one, the one that did the first erase included.
const REST: usize = 2;

/// A long run: both stores and the keys in the tree; after the last commit the erases of each block, the commit that did the last of
/// them, and the fewest commits from an erase of a block to its next one.
pub struct Long {
    work: &'static str,
    both: Both,
    keys: Vec<u32>,
    commits: usize,
    erases: Vec<u64>,
    last: Vec<Option<usize>>,
    fewest: Option<usize>,
}

impl Long {
    /// A full tree; the filling erases no block.
    fn filled(work: &'static str, blocks: usize, random: &mut Random) -> Long {
        let (both, keys) = Both::filled(blocks, usize::MAX, random);
        let erases: Vec<u64> = both.block_reports().iter().map(|report| report.2).collect();
        assert!(erases.iter().all(|&e| e == 0), "the filling erased a block");
        Long { work, both, keys, commits: 0, erases, last: vec![None; blocks], fewest: None }
    }

    /// The key of an event, by the number of events before it.
    fn key(&self, event: usize, random: &mut Random) -> u32 {
        match WORKS.iter().position(|w| *w == self.work).unwrap() {
            0 => random.pick(&self.keys),
            1 => self.keys[event % self.keys.len()],
            _ => random.pick(&self.keys[..10]),
        }
    }

    /// A commit of 16 events.
    fn commit(&mut self, random: &mut Random) {
        for event in 0..PENDING {
            let key = self.key(self.commits * PENDING + event, random);
            assert_eq!(self.both.insert(key, random.next() as u32), 0);
        }
        let erased = self.both.commit().counts.erases;
        self.commits += 1;
        self.compare(erased);
    }

    /// The reports after a commit beside those before it: as many figures grew as the commit told erases, each by one, and none that
    /// grew at the commit before; where one grew a page is free.
    fn compare(&mut self, told: u32) {
        let reports = self.both.block_reports();
        let grown: Vec<usize> = (0..reports.len()).filter(|&b| reports[b].2 != self.erases[b]).collect();
        assert_eq!(grown.len(), told as usize, "the blocks erased by commit {}", self.commits);
        for &block in &grown {
            self.count(block);
            assert_eq!(reports[block].2, self.erases[block], "the erases of block {block} after commit {}", self.commits);
        }
        assert!(grown.is_empty() || reports.iter().any(|report| report.0 > 0), "commit {} erased and left no page free", self.commits);
    }

    /// An erase of a block by the last commit, counted.
    fn count(&mut self, block: usize) {
        if let Some(last) = self.last[block] {
            let between = self.commits - last;
            assert!(between >= REST, "block {block} was erased by commits {last} and {}", self.commits);
            self.fewest = Some(self.fewest.map_or(between, |fewest| fewest.min(between)));
        }
        self.last[block] = Some(self.commits);
        self.erases[block] += 1;
    }
}

/// Each work at B = 3, 8, 32: the tree filled, and then `commits` commits.
pub fn runs(commits: usize) -> Vec<Long> {
    let mut runs = Vec::new();
    for work in WORKS {
        for blocks in [3, 8, 32] {
            let mut random = Random::new(blocks as u64 + 100);
            let mut long = Long::filled(work, blocks, &mut random);
            (0..commits).for_each(|_| long.commit(&mut random));
            runs.push(long);
        }
    }
    runs
}

/// The table of the long runs.
pub fn table(runs: &[Long]) -> String {
    let mut out = String::from(
        "| Work | B | Keys | Commits | Blocks erased | Erases of a block, least and most | Fewest commits between two erases of a block |\n\
         |---|---|---|---|---|---|---|\n",
    );
    for l in runs {
        out += &format!(
            "| {} | {} | {} | {} | {} | {} to {} | {} |\n",
            l.work,
            l.erases.len(),
            l.keys.len(),
            l.commits,
            l.erases.iter().sum::<u64>(),
            l.erases.iter().min().unwrap(),
            l.erases.iter().max().unwrap(),
            l.fewest.map_or("none twice".to_string(), |f| f.to_string())
        );
    }
    out
}
