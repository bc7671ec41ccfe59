//! Lists of calls in which the blocks are reported after each call that writes: the figures are the erases since the start.
use super::{call, outside, refused_commit, set_torn, Run, BLOCK, DATA, PAGE, PAGES, SMALL};
use crate::tiny::Bug;
use model::model::chip;
use model::model::erases;
use model::model::frame::{hexadecimal, Frame};
use model::random::Random;

/// The erases since the last finished mount or format: told by commits, and by block as the images show them.
struct Tally {
    told: u64,
    shown: Vec<u64>,
}

/// Whether a block shows an erase: a page that was not free has other data, or another spare byte that is not a mark set.
fn erased(before: &[u8], after: &[u8], block: usize) -> bool {
    (block * PAGES..(block + 1) * PAGES).any(|place| {
        let (from, to) = (chip::page(SMALL, before, place), chip::page(SMALL, after, place));
        let unset = (DATA..PAGE).any(|at| from[at] != to[at] && to[at] != 0);
        !chip::free(from) && (from[..DATA] != to[..DATA] || unset)
    })
}

impl Tally {
    /// The start.
    fn new(blocks: usize) -> Tally {
        Tally { told: 0, shown: vec![0; blocks] }
    }

    /// A call that may be finished, its reply, and the images before and after it.
    fn take(&mut self, frame: Frame, reply: &str, before: &[u8], after: &[u8]) {
        match frame {
            Frame::Format(_) | Frame::Mount(_) if reply.starts_with("00") => *self = Tally::new(after.len() / BLOCK),
            Frame::Commit(_) if reply.starts_with("00") => {
                self.told += hexadecimal(&reply.as_bytes()[18..]).unwrap() as u64;
                for block in 0..self.shown.len() {
                    self.shown[block] += erased(before, after, block) as u64;
                }
            }
            _ => {}
        }
    }

    /// Asks for all blocks: the figures are `times` what the images show, and their sum is what was told; none when off.
    fn hold(&self, run: &mut Run, times: u64) -> u64 {
        let mut sum = 0;
        for (block, shown) in self.shown.iter().enumerate() {
            let reply = run.frame(Frame::Report(block as u32)).unwrap();
            if reply == "02" {
                return 0;
            }
            let figure = erases::read(&reply.as_bytes()[6..]).unwrap();
            assert_eq!(figure, times * shown, "block {block}");
            sum += figure;
        }
        assert_eq!(sum, self.told);
        sum
    }
}

/// After a finished format of a store that erases blocks twice: a commit that is cut, so that note 8 is not about the list, and a mount.
fn cut(run: &mut Run, times: u64) {
    if times > 1 {
        for frame in [Frame::Insert(5, 5), Frame::Commit(0), Frame::Mount(255)] {
            run.frame(frame).unwrap();
        }
    }
}

/// A list from a format on a chip of a number of blocks, with cuts, mounts and formats; tells the greatest sum of figures.
fn list(run: &mut Run, random: &mut Random, blocks: usize, times: u64) -> u64 {
    run.frame(Frame::Blocks(blocks as u32)).unwrap();
    run.frame(Frame::Format(2000)).unwrap();
    cut(run, times);
    let mut tally = Tally::new(blocks);
    let mut greatest = 0;
    for _ in 0..1500 {
        let frame = call(random);
        let before = run.tiny.image().to_vec();
        let reply = run.frame(frame).unwrap();
        tally.take(frame, &reply, &before, run.tiny.image());
        if matches!(frame, Frame::Format(_)) && reply.starts_with("00") {
            cut(run, times);
        }
        if matches!(frame, Frame::Commit(_) | Frame::Mount(_) | Frame::Format(_)) || random.once_in(9) {
            greatest = greatest.max(tally.hold(run, times));
        }
        if reply.starts_with("02") {
            run.frame(Frame::Format(2000)).unwrap();
            cut(run, times);
            tally = Tally::new(blocks);
        }
    }
    greatest
}

/// After every call that writes, the figures of all blocks add up to the erases told since the start.
#[test]
fn figures_add_up() {
    let mut random = Random::new(31);
    for (bug, times) in [(Bug::None, 1), (Bug::EraseTwice, 2)] {
        let mut run = Run::new(bug);
        let greatest = (3..9).map(|blocks| list(&mut run, &mut random, blocks, times)).max();
        println!("{bug:?}: the greatest sum is {greatest:?}");
        assert!(greatest > Some(5));
    }
}

/// The same with torn bytes that make torn operations look whole or not show.
#[test]
fn figures_add_up_with_other_torn_bytes() {
    let mut random = Random::new(32);
    let mut run = Run::new(Bug::None);
    for kind in 0..4 {
        set_torn(&mut run, &mut random, kind).unwrap();
        list(&mut run, &mut random, 3, 1);
    }
}

/// The replies of all blocks of a store that is on.
fn reports(run: &mut Run) -> Vec<String> {
    (0..3).map(|block| run.frame(Frame::Report(block)).unwrap()).collect()
}

/// Frames that change what is lent and a call refused by them leave the figures; other ones are seen when all is set back.
#[test]
fn figures_stay_when_slices_change() {
    let mut random = Random::new(33);
    let mut above = 0;
    for _ in 0..12 {
        let mut run = Run::new(Bug::None);
        list(&mut run, &mut random, 3, 1);
        if !run.judge.store().on {
            run.frame(Frame::Mount(255)).unwrap();
        }
        let (image, before) = (run.tiny.image().to_vec(), reports(&mut run));
        refused_commit(&mut run).unwrap();
        for _ in 0..3 {
            run.frame(outside(&mut random)).unwrap();
            run.frame(Frame::Report(random.below(4) as u32)).unwrap();
        }
        run.set(&image).unwrap();
        assert_eq!(reports(&mut run), before);
        above += before.iter().filter(|reply| !reply.ends_with("0")).count();
        let other = format!("{}F", &before[1][..21]);
        assert!(run.judge.line(b"0600000001", &other, run.tiny.image()).is_err());
    }
    assert!(above > 0);
}
