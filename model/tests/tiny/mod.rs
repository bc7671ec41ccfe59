//! A tiny store behind the probe's protocol, for tests of the judge: a commit writes all nodes into one erased block.
mod erases;
mod forecast;
mod height;
mod joins;
mod parts;
mod rebuild;

use model::model::chip::{self, Operation, Power, OBSOLETE, VALID};
use model::model::counts::Counts;
use model::model::crc::crc32;
use model::model::frame::{parse, Frame};
use model::model::geometry::Geometry;
use model::model::image::{self, meaning, Meaning};
use model::model::tree::Tree;
use model::model::unit::{encode, page_data, Deed, Unit, HEAD, UNIT};

/// A fault of the store that the judge has to see.
#[derive(Clone, Copy, Debug, PartialEq, Eq)]
pub enum Bug {
    None,
    /// A commit erases a block twice: a fault only where note 8 of document 02 says so.
    EraseTwice,
    CommitToldHigh,
    CommitToldLow,
    CutTold,
    FormatTold,
    MountTold,
    FormatKinds,
    MountKinds,
    ProgramToldAsMark,
    MarkToldAsErase,
    EraseToldAsMark,
    OneMarkMore,
    CutKinds,
    TornTold,
    WrongValue,
    WrongPagesRead,
    ImageByteOnInsert,
    ImageByteOnFormat,
    SpareByteOnCommit,
    SizeBeforeOff,
    AbsentBeforePending,
    TenAt2000,
    TenWithNothingPending,
    EarlyThree,
    EarlyFive,
    NodeInTwoPages,
    EraseBeforeCopy,
    ProgramTornPage,
    LosesUpdate,
    SameNumber,
    ReportOneLess,
    ReportFirst,
    ShowTooLong,
    MountSeven,
    MountHighestFirst,
    MountLeavesOff,
    WritesOnReport,
    LastNumber,
    WrongSum,
    Noise,
    NoFrame,
    ProgramInPlace,
    ContinuesAfterCut,
    OldPageValid,
    PageOfOtherCommit,
    EraseNotCounted,
    EraseCountedTwice,
    EraseOfNextBlock,
    HiddenEraseNotCounted,
    MarksCounted,
    FormatErasesCounted,
    FormatKeepsErases,
    MountKeepsErases,
    RefusedCommitCounted,
    EmptyCommitCounted,
    ErasesTurned,
    ErasesShort,
    ForecastPageShort,
    ForecastForgetsErases,
    ForecastErasesFree,
    ForecastSixOfNothing,
    ForecastTen,
    ForecastTellsRefused,
    ForecastSizeBeforeOff,
    ForecastTornSize,
    ForecastDropsPending,
    ForecastTurnsOff,
    ForecastWrites,
    ForecastTwice,
    ForecastKept,
    CommitOtherwise,
    CommitWithLess,
    CutWithSum,
    MountKeepsPart,
    FormatKeepsPart,
    ShowKeepsPart,
    NameChangesStore,
    NameTurnsOff,
    NameLendsTorn,
    NameWrites,
    NameTakesTwo,
    NameRefusedNames,
    BlocksOfStore,
    FortyLargeBlocks,
    CommitTakesNamedTorn,
    CommitTakesSmallTorn,
    CallsTakeNamedSize,
    ReportNone32,
    ReportOf32,
    RightKept,
    KeyNotRenewed,
    GreatestPlusOne,
    FreedLeftOut,
    RootStays,
    LooksLeft,
    JoinsAt15,
    LooksAtSix,
    MovesTwo,
    ParentsStay,
    FreedNotTaken,
    FreedHasLength,
    NewHasNoLength,
    MountRefusesFreed,
    MountLosesFreed,
    ThinNode,
    ThinRoot,
    ThinOfSeven,
    ThinRootOfTwo,
    ThinLeaf,
    TwelveAfterMarks,
    TwelveLeavesOn,
    RebuildTwelve,
    RebuildOnlyOn,
    RebuildKeepsPart,
    RebuildRefusedOn,
    RebuildFiveOff,
    RebuildFiveMarks,
    FiveBeforeSix,
    OneBlockFewer,
    OneBlockMore,
    ManyBlocks,
    FreePages,
    VoidsAfterPages,
    VoidsHighestFirst,
    LastIndexFirst,
    LeavesLastPage,
    KeepsNumber,
    KeepsThin,
    LeavesNode,
    LeavesFreed,
    LosesRecord,
    ChangesRecord,
    NodeInTwo,
    RebuildErases,
    RebuildTold,
    RebuildTenAt2000,
    RebuildCutOn,
    RebuildLeavesOff,
    PendingKept,
    PendingCount,
    PendingWritten,
    OldTree,
    OldNumber,
    RebuildKeepsErases,
    FiveAtLevel2,
    StaysAtLevel2,
}

impl Bug {
    /// All faults.
    pub const FAULTS: [Bug; 73] = [
        Bug::EraseTwice,
        Bug::CommitToldHigh,
        Bug::CommitToldLow,
        Bug::CutTold,
        Bug::FormatTold,
        Bug::MountTold,
        Bug::FormatKinds,
        Bug::MountKinds,
        Bug::ProgramToldAsMark,
        Bug::MarkToldAsErase,
        Bug::EraseToldAsMark,
        Bug::OneMarkMore,
        Bug::CutKinds,
        Bug::TornTold,
        Bug::WrongValue,
        Bug::WrongPagesRead,
        Bug::ImageByteOnInsert,
        Bug::ImageByteOnFormat,
        Bug::SpareByteOnCommit,
        Bug::SizeBeforeOff,
        Bug::AbsentBeforePending,
        Bug::TenAt2000,
        Bug::TenWithNothingPending,
        Bug::EarlyThree,
        Bug::EarlyFive,
        Bug::NodeInTwoPages,
        Bug::EraseBeforeCopy,
        Bug::ProgramTornPage,
        Bug::LosesUpdate,
        Bug::SameNumber,
        Bug::ReportOneLess,
        Bug::ReportFirst,
        Bug::ShowTooLong,
        Bug::MountSeven,
        Bug::MountHighestFirst,
        Bug::MountLeavesOff,
        Bug::WritesOnReport,
        Bug::LastNumber,
        Bug::WrongSum,
        Bug::Noise,
        Bug::NoFrame,
        Bug::ProgramInPlace,
        Bug::ContinuesAfterCut,
        Bug::OldPageValid,
        Bug::PageOfOtherCommit,
        Bug::EraseNotCounted,
        Bug::EraseCountedTwice,
        Bug::EraseOfNextBlock,
        Bug::HiddenEraseNotCounted,
        Bug::MarksCounted,
        Bug::FormatErasesCounted,
        Bug::FormatKeepsErases,
        Bug::MountKeepsErases,
        Bug::RefusedCommitCounted,
        Bug::EmptyCommitCounted,
        Bug::ErasesTurned,
        Bug::ErasesShort,
        Bug::ForecastPageShort,
        Bug::ForecastForgetsErases,
        Bug::ForecastErasesFree,
        Bug::ForecastSixOfNothing,
        Bug::ForecastTen,
        Bug::ForecastTellsRefused,
        Bug::ForecastSizeBeforeOff,
        Bug::ForecastTornSize,
        Bug::ForecastDropsPending,
        Bug::ForecastTurnsOff,
        Bug::ForecastWrites,
        Bug::ForecastTwice,
        Bug::ForecastKept,
        Bug::CommitOtherwise,
        Bug::CommitWithLess,
        Bug::CutWithSum,
    ];
}

impl Bug {
    /// The faults of a store in joins, numbers and freed nodes.
    pub const JOINS: [Bug; 15] = [
        Bug::RightKept,
        Bug::KeyNotRenewed,
        Bug::GreatestPlusOne,
        Bug::FreedLeftOut,
        Bug::RootStays,
        Bug::LooksLeft,
        Bug::JoinsAt15,
        Bug::LooksAtSix,
        Bug::MovesTwo,
        Bug::ParentsStay,
        Bug::FreedNotTaken,
        Bug::FreedHasLength,
        Bug::NewHasNoLength,
        Bug::MountRefusesFreed,
        Bug::MountLosesFreed,
    ];
}

impl Bug {
    /// The faults of a store in mounts of thin trees and in rebuilds.
    pub const REBUILDS: [Bug; 40] = [
        Bug::ThinNode,
        Bug::ThinRoot,
        Bug::ThinOfSeven,
        Bug::ThinRootOfTwo,
        Bug::ThinLeaf,
        Bug::TwelveAfterMarks,
        Bug::TwelveLeavesOn,
        Bug::RebuildTwelve,
        Bug::RebuildOnlyOn,
        Bug::RebuildKeepsPart,
        Bug::RebuildRefusedOn,
        Bug::RebuildFiveOff,
        Bug::RebuildFiveMarks,
        Bug::FiveBeforeSix,
        Bug::OneBlockFewer,
        Bug::OneBlockMore,
        Bug::ManyBlocks,
        Bug::FreePages,
        Bug::VoidsAfterPages,
        Bug::VoidsHighestFirst,
        Bug::LastIndexFirst,
        Bug::LeavesLastPage,
        Bug::KeepsNumber,
        Bug::KeepsThin,
        Bug::LeavesNode,
        Bug::LeavesFreed,
        Bug::LosesRecord,
        Bug::ChangesRecord,
        Bug::NodeInTwo,
        Bug::RebuildErases,
        Bug::RebuildTold,
        Bug::RebuildTenAt2000,
        Bug::RebuildCutOn,
        Bug::RebuildLeavesOff,
        Bug::PendingKept,
        Bug::PendingCount,
        Bug::PendingWritten,
        Bug::OldTree,
        Bug::OldNumber,
        Bug::RebuildKeepsErases,
    ];
}

impl Bug {
    /// The faults of a store where node 0 splits at level 2.
    pub const HEIGHT: [Bug; 2] = [Bug::FiveAtLevel2, Bug::StaysAtLevel2];
}

impl Bug {
    /// The faults of a store that is told parts by frame 17.
    pub const PARTS: [Bug; 16] = [
        Bug::MountKeepsPart,
        Bug::FormatKeepsPart,
        Bug::ShowKeepsPart,
        Bug::NameChangesStore,
        Bug::NameTurnsOff,
        Bug::NameLendsTorn,
        Bug::NameWrites,
        Bug::NameTakesTwo,
        Bug::NameRefusedNames,
        Bug::BlocksOfStore,
        Bug::FortyLargeBlocks,
        Bug::CommitTakesNamedTorn,
        Bug::CommitTakesSmallTorn,
        Bug::CallsTakeNamedSize,
        Bug::ReportNone32,
        Bug::ReportOf32,
    ];
}

/// The store's state while it is on.
#[derive(Clone)]
struct State {
    tree: Tree,
    /// The numbers taken by nodes since the last commit or mount.
    taken: Vec<usize>,
    pending: u32,
    number: u32,
    blocks: usize,
}

/// A reply with a refusal and three counts.
fn reply(refusal: u32, counts: Counts) -> String {
    format!("{refusal:02X}{:08X}{:08X}{:08X}", counts.programs, counts.marks, counts.erases)
}

/// The same number of operations, all of them erases.
fn all_erases(counts: Counts) -> Counts {
    Counts { erases: counts.programs + counts.marks + counts.erases, ..Counts::NONE }
}

/// The tiny probe.
#[derive(Clone)]
pub struct Tiny {
    /// The geometry that format, mount and show name, and the store's.
    named: Geometry,
    geometry: Geometry,
    buffer: Vec<u8>,
    lent: usize,
    torn: Vec<u8>,
    torn_lent: usize,
    state: Option<State>,
    /// The erases of each block.
    erases: [u64; 32],
    /// The forecasts since the last commit that were not refused, and the first answer of them.
    forecasts: u32,
    first: (u32, Counts),
    /// The allowance of the commit under way.
    allowance: u32,
    bug: Bug,
}

impl Tiny {
    /// The start of a probe whose frames name a geometry, with a fault.
    pub fn new(geometry: Geometry, bug: Bug) -> Tiny {
        let (buffer, torn) = (vec![255; 33 * Geometry::LARGE.block()], vec![0x5A; 2200]);
        Tiny {
            named: geometry,
            geometry,
            buffer,
            lent: 3 * geometry.block(),
            torn,
            torn_lent: geometry.torn,
            state: None,
            erases: [0; 32],
            forecasts: 0,
            first: (0, Counts::NONE),
            allowance: 0,
            bug,
        }
    }

    /// The image lent.
    pub fn image(&self) -> &[u8] {
        &self.buffer[..self.lent]
    }

    /// Reads one line and answers the reply.
    pub fn line(&mut self, line: &[u8]) -> String {
        let Some(frame) = parse(line) else { return if self.bug == Bug::NoFrame { "00" } else { "FF" }.to_string() };
        match frame {
            Frame::Format(allowance) => self.format(allowance),
            Frame::Insert(key, value) => self.insert(key, value),
            Frame::Delete(key) => self.delete(key),
            Frame::LookUp(key) => self.look_up(key),
            Frame::Commit(allowance) => self.commit(allowance),
            Frame::Mount(allowance) => self.mount(allowance),
            Frame::Report(block) => self.report(block),
            Frame::Show(page) => self.show(page),
            Frame::Forecast => self.forecast(),
            Frame::Rebuild(allowance) => self.rebuild(allowance),
            _ => self.lend(frame),
        }
    }

    /// Whether the store has a fault.
    fn is(&self, bug: Bug) -> bool {
        self.bug == bug
    }

    /// Format.
    fn format(&mut self, allowance: u32) -> String {
        let named = self.part(Bug::FormatKeepsPart);
        let Some(blocks) = self.whole(named) else { return reply(1, Counts::NONE) };
        self.geometry = named;
        let torn = self.torn.clone();
        let mut power = Power::new(self.geometry, allowance, &torn);
        let image = &mut self.buffer[..self.lent];
        let erased = (0..blocks).all(|block| power.run(image, &Operation::Erase(block)));
        let reset = encode(&Unit { node: 0, deed: Deed::Reset(0) });
        let finished = erased && chip::write_page(image, &mut power, 0, &page_data(self.geometry, 1, 0, 1, &[reset]));
        self.state = finished.then(|| State { tree: Tree::leaf(blocks), taken: Vec::new(), pending: 0, number: 1, blocks });
        let mut told = power.told();
        self.formatted();
        if self.is(Bug::ImageByteOnFormat) {
            self.buffer[20000] = 7;
        }
        told.erases += self.is(Bug::FormatTold) as u32;
        if self.is(Bug::FormatKinds) {
            told = Counts { programs: told.erases, erases: told.programs, ..told };
        }
        reply(if finished { 0 } else { 10 }, told)
    }

    /// The blocks of a right image and torn length of a geometry.
    fn whole(&self, geometry: Geometry) -> Option<usize> {
        geometry.blocks_of(self.lent).filter(|_| self.torn_lent == geometry.torn)
    }

    /// Refusals 2 and 1.
    fn refused(&self, torn: bool) -> Option<u32> {
        let blocks = self.sized().blocks_of(self.lent).filter(|_| !torn || self.torn_fits());
        match &self.state {
            None if self.is(Bug::SizeBeforeOff) && blocks.is_none() => Some(1),
            None => Some(2),
            Some(state) => (blocks != Some(state.blocks)).then_some(1),
        }
    }

    /// Insert.
    fn insert(&mut self, key: u32, value: u32) -> String {
        if let Some(refusal) = self.refused(false) {
            return format!("{refusal:02X}");
        }
        let (early, five, loses) = (self.is(Bug::EarlyThree), self.is(Bug::EarlyFive), self.is(Bug::LosesUpdate));
        let (given, bug) = (self.given(), self.bug);
        let state = self.state.as_mut().unwrap();
        if state.pending == 16 - early as u32 {
            return "03".to_string();
        }
        let held = state.tree.clone();
        let inserted = joins::insert(&mut state.tree, key, value, &given);
        state.taken.extend((0..held.nodes.len()).filter(|number| held.nodes[*number].is_none() && state.tree.nodes[*number].is_some()));
        if !inserted || (five && state.tree.nodes.iter().flatten().count() > 20) || height::refuses(bug, &held, &state.tree) {
            state.tree = held;
            return "05".to_string();
        }
        height::stay(bug, &held, &mut state.tree);
        if loses && key % 16 == 3 {
            state.tree = held;
        }
        state.pending += 1;
        if self.is(Bug::ImageByteOnInsert) {
            self.buffer[40000] ^= 1;
        }
        "00".to_string()
    }

    /// Delete.
    fn delete(&mut self, key: u32) -> String {
        if let Some(refusal) = self.refused(false) {
            return format!("{refusal:02X}");
        }
        let (order, bug) = (self.is(Bug::AbsentBeforePending), self.bug);
        let state = self.state.as_mut().unwrap();
        if order && state.tree.find(key).is_none() {
            return "04".to_string();
        }
        if state.pending == 16 {
            return "03".to_string();
        }
        if !joins::delete(&mut state.tree, key, bug) {
            return "04".to_string();
        }
        state.pending += 1;
        "00".to_string()
    }

    /// Look up.
    fn look_up(&mut self, key: u32) -> String {
        if let Some(refusal) = self.refused(false) {
            return format!("{refusal:02X}");
        }
        let state = self.state.as_ref().unwrap();
        let path = state.tree.path(key);
        let means = meaning(self.geometry, self.image(), state.blocks).ok();
        let pages: usize = path.iter().map(|number| self.length(means.as_ref(), *number as usize)).sum();
        let pages = pages + self.is(Bug::WrongPagesRead) as usize;
        match state.tree.find(key) {
            Some(value) => format!("00{:08X}{pages:02X}", value ^ self.is(Bug::WrongValue) as u32),
            None => format!("04{pages:02X}"),
        }
    }

    /// Block report.
    fn report(&mut self, block: u32) -> String {
        if let Some(refusal) = self.refused(false) {
            return format!("{refusal:02X}");
        }
        if block as usize >= self.state.as_ref().unwrap().blocks {
            return "04".to_string();
        }
        let (count, first) = self.free_pages(block as usize);
        if self.is(Bug::WritesOnReport) {
            self.buffer[3000] ^= 4;
        }
        let (less, later) = (self.is(Bug::ReportOneLess) as usize, self.is(Bug::ReportFirst) as usize);
        format!("00{:02X}{:02X}{}", count.saturating_sub(less), first + later, self.figure(block as usize))
    }

    /// Show.
    fn show(&mut self, page: u32) -> String {
        let geometry = self.part(Bug::ShowKeepsPart);
        let Some(blocks) = geometry.blocks_of(self.lent) else { return "01".to_string() };
        if page as usize >= blocks * geometry.pages {
            return "04".to_string();
        }
        let page = chip::page(geometry, self.image(), page as usize);
        let head = image::own_rules(geometry, page, 0).filter(|_| image::live(geometry, page));
        let length = head.map_or(0, |head| head.units * UNIT) + (self.is(Bug::ShowTooLong) && head.is_some()) as usize;
        let digits: String = page[HEAD..HEAD + length].iter().map(|byte| format!("{byte:02X}")).collect();
        format!("00{digits}")
    }

    /// Mount.
    fn mount(&mut self, allowance: u32) -> String {
        let named = self.part(Bug::MountKeepsPart);
        let Some(blocks) = self.whole(named) else { return reply(1, Counts::NONE) };
        self.geometry = named;
        if self.is(Bug::MountSeven) {
            return reply(7, Counts::NONE);
        }
        self.state = None;
        let mut means = match self.read(blocks) {
            Ok(means) => means,
            Err(refusal) => return reply(refusal, Counts::NONE),
        };
        if let Some(refusal) = self.too_thin(&means) {
            return refusal;
        }
        if self.is(Bug::MountHighestFirst) {
            means.void.reverse();
        }
        let torn = self.torn.clone();
        let mut power = Power::new(self.geometry, allowance, &torn);
        let image = &mut self.buffer[..self.lent];
        let finished = means.void.iter().all(|place| power.run(image, &Operation::Mark(*place, OBSOLETE)));
        let mut told = power.told();
        told.marks += self.is(Bug::MountTold) as u32;
        if self.is(Bug::MountKinds) {
            told = all_erases(told);
        }
        if !finished {
            return reply(10, told);
        }
        if !self.is(Bug::MountLeavesOff) {
            self.state = Some(State { tree: means.tree, taken: Vec::new(), pending: 0, number: means.greatest, blocks });
            self.mounted();
        }
        reply(0, told)
    }

    /// Commit.
    fn commit(&mut self, allowance: u32) -> String {
        if let Some(refusal) = self.refused(true) {
            self.erases[0] += self.is(Bug::RefusedCommitCounted) as u64;
            return reply(refusal, Counts::NONE);
        }
        let state = self.state.as_ref().unwrap();
        if state.pending == 0 && !(self.is(Bug::TenWithNothingPending) && allowance == 0) {
            self.erases[0] += self.is(Bug::EmptyCommitCounted) as u64;
            return reply(0, Counts::NONE);
        }
        let last = if self.is(Bug::LastNumber) { 7 } else { u32::MAX };
        let pages = self.pages();
        let block = meaning(self.geometry, self.image(), state.blocks).ok().and_then(|means| self.spent_block(&means));
        let (Some(block), true, true) = (block, state.number < last, pages.len() <= self.geometry.pages) else {
            return reply(6, Counts::NONE);
        };
        let number = state.number + 1 - self.is(Bug::SameNumber) as u32;
        self.allowance = allowance;
        let torn = self.torn.clone();
        let allowed = if self.is(Bug::TenAt2000) { allowance.min(3) } else { allowance };
        let mut power = Power::new(self.geometry, allowed, &torn);
        self.write(&mut power, block, number, &pages);
        self.stray(&power, block);
        self.count(block, power.told());
        self.forecasts = 0;
        self.told(&power, allowance, number)
    }

    /// What a faulty commit writes besides its operations.
    fn stray(&mut self, power: &Power, block: usize) {
        let (page, data) = (self.geometry.page(), self.geometry.data);
        let last = (block + 1) * self.geometry.block() - page;
        if self.is(Bug::ContinuesAfterCut) && power.gone() {
            self.buffer[last + data] = 0;
        }
        let mut starts = (0..self.lent).step_by(page);
        let dead = starts.find(|start| self.buffer[*start] != 255 && self.buffer[start + data + VALID] == 255);
        if let (Bug::OldPageValid, Some(start)) = (self.bug, dead) {
            self.buffer[start + data + VALID..=start + data + OBSOLETE].fill(0);
        }
        if self.is(Bug::PageOfOtherCommit) && !power.gone() {
            let reset = encode(&Unit { node: 0, deed: Deed::Reset(0) });
            self.buffer[last..last + data].copy_from_slice(&page_data(self.geometry, 1, 7, 8, &[reset]));
            self.buffer[last + data..=last + data + VALID].fill(0);
        }
    }

    /// The commit's reply, and the state after it.
    fn told(&mut self, power: &Power, allowance: u32, number: u32) -> String {
        if power.gone() {
            self.state = None;
            return reply(10, self.cut_counts(power.told(), allowance));
        }
        let state = self.state.as_mut().unwrap();
        state.number = number;
        state.pending = 0;
        state.taken.clear();
        reply(0, self.finished_counts(power.told(), allowance))
    }

    /// The counts that a cut commit tells.
    fn cut_counts(&self, done: Counts, allowance: u32) -> Counts {
        match self.bug {
            Bug::TenAt2000 => Counts { erases: allowance, ..Counts::NONE },
            Bug::CutTold => Counts { marks: done.marks.saturating_sub(1), ..done },
            Bug::CutKinds => all_erases(done),
            Bug::TornTold => Counts { marks: done.marks + 1, ..done },
            _ => done,
        }
    }

    /// The counts that a finished commit tells.
    fn finished_counts(&self, done: Counts, allowance: u32) -> Counts {
        match self.bug {
            Bug::CommitToldHigh => Counts { erases: allowance, ..done },
            Bug::CommitToldLow => Counts { marks: 2, ..Counts::NONE },
            Bug::ProgramToldAsMark => Counts { programs: done.programs - 1, marks: done.marks + 1, ..done },
            Bug::MarkToldAsErase => Counts { marks: done.marks - 1, erases: done.erases + 1, ..done },
            Bug::EraseToldAsMark => Counts { marks: done.marks + done.erases, erases: 0, ..done },
            Bug::OneMarkMore => Counts { marks: done.marks + 1, ..done },
            _ => done,
        }
    }

    /// The units of all nodes of the present tree and of those freed, page by page.
    fn pages(&self) -> Vec<Vec<[u8; UNIT]>> {
        let mut pages: Vec<Vec<[u8; UNIT]>> = vec![Vec::new()];
        for (number, mut units) in self.snapshot() {
            if pages.last().unwrap().len() + units.len() > self.geometry.room {
                pages.push(Vec::new());
            }
            if self.is(Bug::NodeInTwoPages) && number == 0 && units.len() > 1 {
                pages.last_mut().unwrap().push(units.remove(0));
                pages.push(Vec::new());
            }
            pages.last_mut().unwrap().extend(units);
        }
        pages
    }

    /// A block that no list needs and that has no page of the greatest commit.
    fn spent_block(&self, means: &Meaning) -> Option<usize> {
        let state = self.state.as_ref().unwrap();
        let early = self.is(Bug::EraseBeforeCopy);
        (0..state.blocks).rev().find(|block| {
            let mut places = block * self.geometry.pages..(block + 1) * self.geometry.pages;
            let needed = |place: usize| {
                let page = chip::page(self.geometry, self.image(), place);
                let greatest = image::live(self.geometry, page) && page[0..4] == means.greatest.to_le_bytes();
                greatest || means.lists.iter().any(|list| list.contains(&place))
            };
            early ^ !places.any(needed)
        })
    }

    /// Erases a block, writes the commit into it and sets the obsolete mark of each older page.
    fn write(&mut self, power: &mut Power, block: usize, number: u32, pages: &[Vec<[u8; UNIT]>]) {
        let torn_page = self.is(Bug::ProgramTornPage);
        let in_place = self.is(Bug::ProgramInPlace);
        let spare_byte = self.is(Bug::SpareByteOnCommit);
        let times = 1 + (self.is(Bug::EraseTwice) || self.is(Bug::HiddenEraseNotCounted)) as u32;
        let erases_free = self.is(Bug::CutWithSum) && self.allowance < self.geometry.never_cut;
        let geometry = self.geometry;
        let image = &mut self.buffer[..self.lent];
        let blank = !erases_free && chip::free_pages(geometry, image, block).0 == geometry.pages;
        let torn_mark = in_place || (torn_page && image[block * geometry.block()] == 255);
        if !blank && !torn_mark && !(0..times).all(|_| power.run(image, &Operation::Erase(block))) {
            return;
        }
        for (index, units) in pages.iter().enumerate() {
            let data = page_data(geometry, number, index as u8, pages.len() as u8, units);
            if !chip::write_page(image, power, block * geometry.pages + index, &data) {
                return;
            }
        }
        if spare_byte {
            image[block * geometry.block() + geometry.data + 9] = 3;
        }
        self.spend(power, block);
    }

    /// Sets the obsolete mark of each live page of the other blocks.
    fn spend(&mut self, power: &mut Power, block: usize) {
        for place in (0..self.lent / self.geometry.page()).filter(|place| place / self.geometry.pages != block) {
            let page = chip::page(self.geometry, self.image(), place);
            if chip::mark(self.geometry, page, VALID) != 0 || !image::live(self.geometry, page) {
                continue;
            }
            if self.leaves_mark(power) || !power.run(&mut self.buffer[..self.lent], &Operation::Mark(place, OBSOLETE)) {
                return;
            }
        }
    }

    /// Frames 10 to 17.
    fn lend(&mut self, frame: Frame) -> String {
        let bug = self.bug;
        let fits = match frame {
            Frame::Blocks(blocks) => blocks as usize <= self.most_blocks(),
            Frame::Length(length) => length as usize <= self.buffer.len(),
            Frame::SetImage(at, _) => (at as usize) < self.lent,
            Frame::SetTorn(at, _) => (at as usize) < self.torn_lent,
            Frame::TornLength(length) => length as usize <= self.torn.len(),
            _ => true,
        };
        if !fits {
            return "FF".to_string();
        }
        match frame {
            Frame::Name(part) => return self.name(part),
            Frame::Blocks(blocks) => {
                self.buffer.fill(255);
                self.lent = (blocks as usize * self.part(Bug::BlocksOfStore).block()).min(self.buffer.len());
            }
            Frame::Length(length) => self.lent = length as usize,
            Frame::SetImage(at, byte) => self.buffer[at as usize] = byte,
            Frame::SetTorn(at, byte) => self.torn[at as usize] = byte,
            Frame::TornLength(length) => self.torn_lent = length as usize,
            Frame::Noise(seed) => self.noise(seed),
            _ => return format!("00{:08X}", crc32(self.image()) ^ (bug == Bug::WrongSum) as u32),
        }
        "00".to_string()
    }

    /// Frame 16.
    fn noise(&mut self, seed: u32) {
        let shift = if self.is(Bug::Noise) { 8 } else { 16 };
        let mut x = seed;
        for at in 0..self.lent {
            x = x.wrapping_mul(1664525).wrapping_add(1013904223);
            self.buffer[at] = (x >> shift) as u8;
        }
    }
}
