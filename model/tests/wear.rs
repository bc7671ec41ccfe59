//! The twin held by the judge in lists of calls in which all blocks are reported after each commit.
use model::model::erases;
use model::model::frame::{hexadecimal, line, Frame};
use model::model::geometry::Geometry;
use model::model::judge::Judge;
use model::probe::Probe;
use model::random::Random;

/// A list under way: the twin, the judge, and the erases told since the last finished mount or format.
struct List {
    twin: Probe,
    judge: Judge,
    told: u64,
}

impl List {
    /// A chip of so many blocks of a part, formatted.
    fn new(part: Geometry, blocks: u32) -> List {
        let mut list = List { twin: Probe::new(), judge: Judge::new(), told: 0 };
        list.frame(Frame::Name((part == Geometry::LARGE) as u8));
        list.frame(Frame::TornLength(part.torn as u32));
        list.frame(Frame::Blocks(blocks));
        list.frame(Frame::Format(part.never_cut));
        list
    }

    /// One frame.
    fn frame(&mut self, frame: Frame) -> String {
        let text = line(&frame);
        let reply = self.twin.line(text.as_bytes());
        self.judge.line(text.as_bytes(), &reply, self.twin.image()).unwrap();
        match frame {
            Frame::Format(_) | Frame::Mount(_) if reply.starts_with("00") => self.told = 0,
            Frame::Commit(_) if reply.starts_with("00") => self.told += hexadecimal(&reply.as_bytes()[18..]).unwrap() as u64,
            _ => {}
        }
        reply
    }

    /// The reports of all blocks: the figures of a store that is on add up to the erases told.
    fn reports(&mut self, blocks: u32) {
        let replies: Vec<String> = (0..blocks).map(|block| self.frame(Frame::Report(block))).collect();
        if self.judge.store().on {
            let sum: u64 = replies.iter().map(|reply| erases::read(&reply.as_bytes()[6..]).unwrap()).sum();
            assert_eq!(sum, self.told);
        }
    }

    /// Some updates, a commit, and at times a mount or a format, finished or cut.
    fn round(&mut self, random: &mut Random, blocks: u32) {
        for _ in 0..1 + random.below(16) {
            let key = random.below(40 * blocks as u64) as u32;
            self.frame(if random.once_in(5) { Frame::Delete(key) } else { Frame::Insert(key, random.next() as u32) });
        }
        self.frame(Frame::Commit(if random.once_in(90) { random.below(9) as u32 } else { 4000 }));
        self.reports(blocks);
        match random.below(200) {
            0 => drop(self.frame(Frame::Mount(random.below(2) as u32))),
            1 if random.once_in(3) => drop(self.frame(Frame::Format(4000))),
            _ => {}
        }
        if !self.judge.store().on {
            self.frame(Frame::Mount(255));
        }
        self.reports(blocks);
    }
}

/// The figures are the erases of each block since the last finished mount or format.
#[test]
fn figures_of_the_twin() {
    let mut random = Random::new(41);
    for (part, sizes) in [(Geometry::SMALL, [3, 4, 8]), (Geometry::LARGE, [3, 3, 5])] {
        let mut greatest = 0;
        for blocks in sizes {
            let mut list = List::new(part, blocks);
            for _ in 0..600 {
                list.round(&mut random, blocks);
                greatest = greatest.max(list.told);
            }
        }
        assert!(greatest > 3, "{greatest} erases at most");
    }
}
