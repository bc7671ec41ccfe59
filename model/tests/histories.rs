//! Erases of blocks by commits in a row, held to note 8 of document 02: what shows, what counts and figures tell.
use model::model::erases::{Erases, Range};
use model::model::pays::Pays;
use model::random::Random;

/// How often each commit erased each block.
type History = Vec<Vec<u64>>;

/// Whether between any two erases of a block at least two commits finished, the one that did the first included.
fn pays(history: &[Vec<u64>]) -> bool {
    let blocks = history.first().map_or(0, Vec::len);
    (0..blocks).all(|block| {
        let erases: Vec<usize> = (0..history.len()).flat_map(|at| vec![at; history[at][block] as usize]).collect();
        erases.windows(2).all(|two| two[1] - two[0] >= 2)
    })
}

/// What is known of the erases of a commit: of each block, as its flag says, whether it was erased, or nothing; and their sum.
fn known(commit: &[u64], shows: impl Fn(usize) -> bool) -> Erases {
    let sum: u64 = commit.iter().sum();
    let range = |(block, erases): (usize, &u64)| match (shows(block), *erases) {
        (true, 0) => Range::just(0),
        (shown, _) => Range { least: shown as u64, most: sum },
    };
    Erases::of(commit.iter().enumerate().map(range).collect(), sum)
}

/// A list under way: note 8, the figures known, and the true ones.
struct List {
    pays: Pays,
    figures: Erases,
    truth: Vec<u64>,
}

impl List {
    /// The start.
    fn new(blocks: usize) -> List {
        List { pays: Pays::new(blocks), figures: Erases::none(blocks), truth: vec![0; blocks] }
    }

    /// One commit.
    fn commit(&mut self, commit: &[u64], shows: impl Fn(usize) -> bool) -> Result<(), String> {
        self.figures = self.pays.commit(&self.figures, &known(commit, shows))?;
        self.truth.iter_mut().zip(commit).for_each(|(sum, erases)| *sum += erases);
        Ok(())
    }

    /// A report with the true figure.
    fn report(&mut self, block: usize) -> Result<(), String> {
        self.figures.hold(block, self.truth[block])?;
        self.figures = self.pays.hold(&self.figures)?;
        Ok(())
    }

    /// A mount.
    fn mount(&mut self) {
        self.pays.mount();
        self.truth.fill(0);
        self.figures = Erases::none(self.truth.len());
    }
}

/// A random history, in which each commit erases some blocks, at times one of them twice.
fn any(random: &mut Random, blocks: usize, commits: usize) -> History {
    let often = 2 + random.below(6);
    let erases = |random: &mut Random| if random.once_in(often) { 1 + random.once_in(8) as u64 } else { 0 };
    (0..commits).map(|_| (0..blocks).map(|_| erases(random)).collect()).collect()
}

/// A history that keeps to note 8.
fn legal(random: &mut Random, blocks: usize, commits: usize) -> History {
    let mut history = any(random, blocks, commits);
    for at in 0..commits {
        for block in 0..blocks {
            let before = at > 0 && history[at - 1][block] > 0;
            history[at][block] = if before { 0 } else { history[at][block].min(1) };
        }
    }
    history
}

/// A history that keeps to note 8 passes, whatever shows of it, with reports and mounts anywhere.
#[test]
fn legal_histories_pass() {
    let mut random = Random::new(51);
    for round in 0..20_000 {
        let (blocks, shown) = (3 + random.index(4), random.below(4));
        let history = legal(&mut random, blocks, 12);
        assert!(pays(&history));
        let mut list = List::new(blocks);
        for commit in &history {
            let hidden: Vec<bool> = (0..blocks).map(|_| random.below(4) >= shown).collect();
            list.commit(commit, |block| !hidden[block]).unwrap_or_else(|why| panic!("round {round}: {why}: {history:?}"));
            for _ in 0..random.below(3) {
                list.report(random.index(blocks)).unwrap_or_else(|why| panic!("round {round}: {why}: {history:?}"));
            }
            if random.once_in(6) {
                list.mount();
            }
        }
    }
}

/// The commits of a history before the first that does not keep to note 8.
fn paid(history: &History) -> usize {
    (0..history.len()).find(|at| !pays(&history[..=*at])).unwrap_or(history.len())
}

/// Histories with mounts, a commit at a time as `sees` tells it: the first that does not keep to note 8 is found, and none before.
fn finds(seed: u64, sees: impl Fn(&mut List, &Vec<u64>) -> bool) {
    let mut random = Random::new(seed);
    for _ in 0..20_000 {
        let blocks = 3 + random.index(3);
        let history = any(&mut random, blocks, 10);
        let mut list = List::new(blocks);
        let mut step = |commit: &Vec<u64>| {
            if random.once_in(4) {
                list.mount();
            }
            sees(&mut list, commit)
        };
        assert_eq!(history.iter().take_while(|commit| step(commit)).count(), paid(&history), "{history:?}");
    }
}

/// Histories of which all shows.
#[test]
fn shown_histories() {
    finds(52, |list, commit| list.commit(commit, |_| true).is_ok());
}

/// Histories of which nothing shows but the figures of all blocks after each commit.
#[test]
fn reported_histories() {
    finds(53, |list, commit| list.commit(commit, |_| false).is_ok() && (0..commit.len()).all(|block| list.report(block).is_ok()));
}
