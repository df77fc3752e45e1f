//! Demand 3 on bytes: exchanges that lose power, at every operation and in every way, and then run to their finish.
use crate::call::{Call, Lent, LentFlash};
use crate::inputs::*;
use crate::random::Random;
use crate::reference::*;
use crate::report::{hex, Compare};

/// How a loss of power leaves the operation that it breaks off.
#[derive(Clone, Copy, Debug)]
enum Tear {
    Old,
    AnyBytes,
    New,
}

/// The ways in which this operation may be broken off; one way if there is none.
fn tears(next: Option<Operation>) -> &'static [Tear] {
    match next {
        None => &[Tear::Old],
        Some(op) if op.may_tear().is_some() => &[Tear::Old, Tear::AnyBytes, Tear::New],
        Some(_) => &[Tear::Old, Tear::New],
    }
}

/// A power-up of the list, which is printed where it broke demand 3.
#[allow(dead_code)]
#[derive(Clone, Debug)]
enum Event {
    Untorn { budget: u64 },
    Lost { after: u64, next: Option<Operation>, tear: Tear },
    WrongGeometry(Geometry),
}

/// Where a list has come to: the flash, the erase counts if these are kept, the operations completed, the early ends, and the list.
#[derive(Clone)]
pub struct Stage {
    pub flash: Flash,
    pub counts: Option<Counts>,
    pub done: u64,
    pub early: u64,
    list: Vec<Event>,
}

impl Stage {
    /// Where a list begins.
    fn first(flash: Flash) -> Self {
        Stage { flash, counts: None, done: 0, early: 0, list: Vec::new() }
    }

    /// Whether the last power-up lost its power.
    pub fn lost_power(&self) -> bool {
        matches!(self.list.last(), Some(Event::Lost { .. }))
    }
}

/// What was tried.
#[derive(Default)]
pub struct Tried {
    pub single_cuts: u64,
    pub pairs: u64,
    pub lists: u64,
}

/// An update or a fallback: where it begins, and the old sectors. These are of the same flash, unless it was mended, and then they are
/// the ones that the flags show.
pub struct Job {
    pub g: Geometry,
    /// The first stage of a list; or, of a fallback, the one where the same list has finished the update before it.
    pub begin: Stage,
    old: Flash,
    fallback: bool,
    /// The moves that the flags have behind them when it begins.
    behind: u64,
}

/// Where a sector's two old contents stand by its flag.
fn places(flag: u8) -> Option<(Area, Area)> {
    match flag {
        0xF => Some((Area::Boot, Area::Update)),
        7 => Some((Area::Boot, Area::Swap)),
        3 => Some((Area::Update, Area::Swap)),
        0 => Some((Area::Update, Area::Boot)),
        _ => None,
    }
}

/// How far a flag has moved on.
pub fn moves(flag: u8) -> usize {
    [0xF, 7, 3, 0].iter().position(|f| *f == flag).unwrap_or(usize::MAX)
}

impl Job {
    pub fn new(c: &Compare, g: Geometry, old: Flash, fallback: bool) -> Self {
        Job { g, begin: Stage::first(old.clone()), old, fallback, behind: 0 }.seen(c)
    }

    /// The same, and every power-up counts its erases, from this row on.
    pub fn counting(mut self, row: Vec<u32>) -> Self {
        self.begin.counts = Some(Counts { total: sum(&row), row });
        self
    }

    /// The fallback that the list goes on with, now that this update has finished.
    pub fn fallback_from(&self, c: &Compare, finish: &Stage) -> Self {
        Job { g: self.g, begin: finish.clone(), old: finish.flash.clone(), fallback: true, behind: 0 }.seen(c)
    }

    /// The rest of an update whose flags were mended, for the images that they show.
    pub fn mended(c: &Compare, g: Geometry, begin: Flash) -> Self {
        let flags = begin.flags(g);
        let (boot, update) = old_images(g, &begin, &flags);
        let behind = flags.iter().map(|flag| moves(*flag) as u64).sum();
        let old = Flash { boot, update, swap: begin.swap.clone() };
        Job { g, begin: Stage::first(begin), old, fallback: false, behind }.seen(c)
    }

    fn seen(self, c: &Compare) -> Self {
        let start = &self.begin;
        if self.finished(&start.flash) || plan(self.g, &start.flash).map_or(true, |p| p.reason.is_some()) {
            self.broken(c, "no start of an exchange", start, start);
        }
        self
    }

    pub fn start(&self) -> Stage {
        self.begin.clone()
    }

    pub fn finished(&self, f: &Flash) -> bool {
        if self.fallback {
            f.boot.last() == Some(&SUCCESS)
        } else {
            f.update.last() == Some(&NEW)
        }
    }

    // ---- what has to hold

    fn in_place(&self, f: &Flash) -> bool {
        (0..self.g.m()).all(|i| match places(f.flag(self.g, i)) {
            None => false,
            Some((boot, update)) => self.stands(f, Area::Boot, boot, i) && self.stands(f, Area::Update, update, i),
        })
    }

    fn stands(&self, f: &Flash, old: Area, now: Area, i: usize) -> bool {
        self.old.sector(self.g, old, i) == f.sector(self.g, now, i)
    }

    fn exchanged(&self, f: &Flash) -> bool {
        (0..self.g.m()).all(|i| self.stands(f, Area::Boot, Area::Update, i) && self.stands(f, Area::Update, Area::Boot, i))
    }

    /// An update ends with BOOT on test and UPDATE's trailer erased, a fallback with BOOT SUCCESS, UPDATE NEW and its flags 0.
    fn closed(&self, f: &Flash) -> bool {
        let trailer = f.sector(self.g, Area::Update, self.g.m());
        if self.fallback {
            f.boot.last() == Some(&SUCCESS) && f.update.last() == Some(&NEW) && f.flags(self.g).iter().all(|x| *x == 0)
        } else {
            f.boot.last() == Some(&TESTING) && trailer.iter().all(|b| *b == 0xFF)
        }
    }

    /// Whether some flag moved on, if asked, and none moved back.
    fn flags_moved(&self, before: &Flash, after: &Flash, some: bool) -> bool {
        let pairs: Vec<(usize, usize)> =
            (0..self.g.m()).map(|i| (moves(before.flag(self.g, i)), moves(after.flag(self.g, i)))).collect();
        pairs.iter().all(|(a, b)| a <= b) && (!some || pairs.iter().any(|(a, b)| a < b))
    }

    fn holds(&self, c: &Compare, before: &Stage, after: &Stage, some_flag: bool) {
        let (done, early) = (after.done - self.begin.done, after.early - self.begin.early);
        let bound = 9 * self.g.m() as u64 - 3 * self.behind + if self.fallback { 1 } else { 3 } + 2 * early;
        let f = &after.flash;
        if done > bound {
            self.broken(c, "more operations than the bound", before, after);
        }
        if self.finished(f) {
            if !self.exchanged(f) {
                self.broken(c, "the sectors are not exchanged at the finish", before, after);
            }
            if !self.closed(f) {
                self.broken(c, "the trailers are wrong at the finish", before, after);
            }
        } else {
            if !self.in_place(f) {
                self.broken(c, "a sector is not where its flag says", before, after);
            }
            if !self.flags_moved(&before.flash, f, some_flag) {
                self.broken(c, "a flag moved back, or none moved on", before, after);
            }
        }
    }

    fn broken(&self, c: &Compare, what: &str, before: &Stage, after: &Stage) -> ! {
        self.broken_claim(c, "DEMAND 3", what, before, after)
    }

    /// Prints all of a list that broke this claim, and fails.
    pub fn broken_claim(&self, c: &Compare, claim: &str, what: &str, before: &Stage, after: &Stage) -> ! {
        println!("{claim} BROKEN: {what}; call {} of seed {}", c.calls, c.seed);
        println!("{}, {:?}", if self.fallback { "fallback" } else { "update" }, self.g);
        println!("{} operations, {} early ends: {:?}", after.done, after.early, after.list);
        if let (Some(begin), Some(was), Some(is)) = (&self.begin.counts, &before.counts, &after.counts) {
            println!("counts at the start {begin:?}, before {was:?}, after {is:?}");
        }
        let all = [("old", &self.old), ("start", &self.begin.flash), ("before", &before.flash), ("after", &after.flash)];
        for (when, f) in all {
            for (name, b) in [("boot", &f.boot), ("update", &f.update), ("swap", &f.swap)] {
                println!("  {name}, {when}: {}", hex(b, &format!("{}-{}-{when}-{name}", c.seed, c.calls)));
            }
        }
        std::process::exit(1);
    }

    // ---- power-ups

    /// The answer, the row and the stage that is left but for its list, equal on both sides.
    fn power_up(&self, c: &mut Compare, g: Geometry, at: &Stage, budget: u64) -> (u32, Vec<u64>, Stage) {
        let flash = LentFlash::new(&at.flash);
        let call = match &at.counts {
            None => Call::PowerUp { g, flash, budget, answer: Lent::new(&[u64::MAX; 6]) },
            Some(Counts { row, total }) => {
                let answer = Lent::new(&[u64::MAX; 7]);
                Call::PowerUpCounted { g, flash, budget, row: Lent::new(row), total: *total, answer }
            }
        };
        let (number, left) = c.call(call);
        let (flash, answer, counts) = match &left {
            Call::PowerUp { flash, answer, .. } => (flash, answer, None),
            Call::PowerUpCounted { flash, row, answer, .. } => {
                (flash, answer, Some(Counts { row: row.to_vec(), total: answer[6] }))
            }
            _ => unreachable!(),
        };
        (number, answer[..6].to_vec(), Stage { flash: flash.flash(), counts, ..at.clone() })
    }

    /// The counts, if they are kept, are what so many operations, which were completed, add to them.
    fn counted(&self, c: &Compare, before: &Stage, after: &Stage, done: u64) {
        if let (Some(was), Some(is)) = (&before.counts, &after.counts) {
            let done = &self.operations(c, before)[..done as usize];
            let mut due = was.clone();
            due.count(self.g, done);
            let erases = done.iter().filter(|op| matches!(op, Operation::Erase(..) | Operation::EraseTrailer(_))).count();
            if *is != due || is.total != was.total + erases as u64 {
                self.broken(c, "the counts are not those of the completed erases", before, after);
            }
        }
    }

    /// A power-up that loses no power. It is cut or finishes, and with a budget of three or more it gets on.
    pub fn untorn(&self, c: &mut Compare, at: &Stage, budget: u64) -> Stage {
        let (number, row, mut next) = self.power_up(c, self.g, at, budget);
        next.done += row[1];
        next.list.push(Event::Untorn { budget });
        let finish = if self.fallback { 4 } else { 3 };
        let outcome = if self.finished(&next.flash) { finish } else { 1 };
        if number != 0 || row[0] != outcome {
            self.broken(c, &format!("the answer is {number}, {row:?}"), at, &next);
        }
        if outcome == 1 {
            next.early += 1;
        }
        self.holds(c, at, &next, budget >= 3);
        self.counted(c, at, &next, row[1]);
        next
    }

    /// Power is lost after so many operations: every way in which the next one may be broken off. It is not counted, whatever its bytes
    /// are; the total is lost too, and the one handed in next is the row's sum.
    fn lose(&self, c: &mut Compare, r: &mut Random, at: &Stage, after: u64, next: Option<Operation>) -> Vec<Stage> {
        let (number, row, stage) = self.power_up(c, self.g, at, after);
        let ways = tears(next).iter().map(|tear| {
            let mut left = stage.clone();
            left.done += after;
            left.early += 1;
            left.counts.iter_mut().for_each(|counts| counts.total = sum(&counts.row));
            left.list.push(Event::Lost { after, next, tear: *tear });
            match (next, *tear) {
                (Some(op), Tear::New) => left.flash.perform(self.g, op),
                (Some(op), Tear::AnyBytes) => {
                    let (area, i) = op.may_tear().unwrap();
                    left.flash.set_sector(self.g, area, i, &r.bytes(self.g.s));
                }
                _ => {}
            }
            if number != 0 || row[1] != after {
                self.broken(c, &format!("the answer is {number}, {row:?}"), at, &left);
            }
            self.holds(c, at, &left, false);
            self.counted(c, at, &left, after);
            left
        });
        ways.collect()
    }

    /// The operations that a power-up would do here.
    fn operations(&self, c: &Compare, at: &Stage) -> Vec<Operation> {
        match plan(self.g, &at.flash) {
            Ok(plan) => plan.operations,
            Err(outcome) => self.broken(c, &format!("{outcome:?}"), at, at),
        }
    }

    /// Power lost at every operation and in every way.
    pub fn every_loss(&self, c: &mut Compare, r: &mut Random, at: &Stage) -> Vec<Stage> {
        let operations = self.operations(c, at);
        (0..=operations.len()).flat_map(|k| self.lose(c, r, at, k as u64, operations.get(k).copied())).collect()
    }

    /// A power-up behind the finish of a fallback: BOOT runs, no operation is done, and nothing changes.
    pub fn at_rest(&self, c: &mut Compare, at: &Stage, budget: u64) -> Stage {
        let (number, row, mut next) = self.power_up(c, self.g, at, budget);
        next.list.push(Event::Untorn { budget });
        if number != 0 || row != [2, 0, 0, 0, 0, 0] || next.flash != at.flash || next.counts != at.counts {
            let what = format!("at rest the answer is {number}, {row:?}, or something changed");
            self.broken_claim(c, "THERE AND BACK", &what, at, &next);
        }
        next
    }

    pub fn finish(&self, c: &mut Compare, at: &Stage) {
        if !self.finished(&at.flash) {
            let end = self.untorn(c, at, u64::MAX);
            if !self.finished(&end.flash) {
                self.broken(c, "no finish", at, &end);
            }
        }
    }

    /// To the finish by power-ups of three operations.
    fn finish_by_threes(&self, c: &mut Compare, at: &Stage) {
        let mut at = at.clone();
        while !self.finished(&at.flash) {
            at = self.untorn(c, &at, 3);
        }
    }

    /// Every single cut and every pair, in all ways; then the rest, at once and by threes.
    pub fn every_cut(&self, c: &mut Compare, r: &mut Random, tried: &mut Tried) {
        self.finish(c, &self.start());
        for first in self.every_loss(c, r, &self.start()) {
            tried.single_cuts += 1;
            if self.finished(&first.flash) {
                continue;
            }
            self.finish(c, &first);
            self.finish_by_threes(c, &first);
            for second in self.every_loss(c, r, &first) {
                tried.pairs += 1;
                if !self.finished(&second.flash) {
                    let third = self.untorn(c, &second, 3);
                    self.finish(c, &third);
                }
            }
        }
    }

    /// Power lost at some operation, in every way.
    pub fn any_loss(&self, c: &mut Compare, r: &mut Random, at: &Stage) -> Vec<Stage> {
        let operations = self.operations(c, at);
        let k = r.below(operations.len());
        self.lose(c, r, at, k as u64, operations.get(k).copied())
    }

    /// A cut at some operation in all ways, and the rest.
    pub fn any_cut(&self, c: &mut Compare, r: &mut Random, tried: &mut Tried) {
        for left in self.any_loss(c, r, &self.start()) {
            tried.single_cuts += 1;
            self.finish(c, &left);
        }
    }

    /// Another geometry is refused and changes nothing.
    pub fn wrong_geometry(&self, c: &mut Compare, r: &mut Random, at: &Stage) -> Stage {
        let mut g = self.g;
        while g == self.g {
            g = other_geometry(r, self.g);
        }
        let (number, row, mut next) = self.power_up(c, g, at, r.next());
        next.list.push(Event::WrongGeometry(g));
        if number != 1 || row != [0; 6] || next.flash != at.flash || next.counts != at.counts {
            self.broken(c, &format!("the answer is {number}, {row:?}"), at, &next);
        }
        next
    }

    /// Any power-up before the finish.
    pub fn any_power_up(&self, c: &mut Compare, r: &mut Random, at: &Stage) -> Stage {
        let operations = self.operations(c, at);
        let some = r.within(0, operations.len());
        let few = some.min(r.below(12));
        match r.below(10) {
            0 => self.wrong_geometry(c, r, at),
            1..=4 => {
                let k = r.pick(&[few, few, some]);
                let ways = self.lose(c, r, at, k as u64, operations.get(k).copied());
                ways[r.below(ways.len())].clone()
            }
            _ => {
                let budget = r.pick(&[few, few, few, some]) as u64;
                self.untorn(c, at, budget)
            }
        }
    }

    /// A list of any power-ups, up to the finish.
    pub fn any_list(&self, c: &mut Compare, r: &mut Random) {
        let mut at = self.start();
        while !self.finished(&at.flash) {
            at = self.any_power_up(c, r, &at);
        }
    }
}

/// A good and newer update, armed, with this status of BOOT. What the trailers hold besides is left to chance.
pub fn armed(r: &mut Random, g: Geometry, boot: u8) -> Flash {
    let version = r.below(1000) as u32;
    let mut f = Flash { boot: partition(r, g, version, 0), update: partition(r, g, version + 1, 0), swap: r.bytes(g.s) };
    set_trailers(g, &mut f, boot, UPDATING, false);
    f
}

/// The updates from BOOT NEW and from SUCCESS, the fallback from each, and a fallback with any bytes in the trailers.
pub fn jobs(c: &Compare, r: &mut Random, g: Geometry) -> Vec<Job> {
    let mut all = Vec::new();
    for boot in [NEW, SUCCESS] {
        let update = armed(r, g, boot);
        let mut fallback = update.clone();
        power_up(g, &mut fallback, u64::MAX);
        all.push(Job::new(c, g, update, false));
        all.push(Job::new(c, g, fallback, true));
    }
    let mut fallback = armed(r, g, NEW);
    set_trailers(g, &mut fallback, TESTING, NEW, false);
    all.push(Job::new(c, g, fallback, true));
    all
}

/// Every cut and every pair of cuts for up to four firmware sectors.
pub fn try_every_cut(c: &mut Compare, r: &mut Random) -> Tried {
    let mut tried = Tried::default();
    for m in 1..=4 {
        for round in 1..=3 {
            let s = 256 * if m == 1 { round + 1 } else { round };
            for job in jobs(c, r, Geometry { n: m + 1, s }) {
                job.every_cut(c, r, &mut tried);
            }
        }
        println!("cuts with up to {m} firmware sectors: {} single, {} pairs, no difference", tried.single_cuts, tried.pairs);
    }
    tried
}

fn lists(c: &mut Compare, r: &mut Random, g: Geometry, tried: &mut Tried) {
    for job in jobs(c, r, g) {
        job.any_list(c, r);
        tried.lists += 1;
    }
}

/// Whole exchanges of the most firmware sectors, 510 with a trailer that fills its sector and 511, and some that lose power.
fn most_sectors(c: &mut Compare, r: &mut Random, tried: &mut Tried) {
    for (n, s) in [(511, 256), (512, 512)] {
        for job in jobs(c, r, Geometry { n, s }) {
            job.finish(c, &job.start());
            for _ in 0..5 {
                job.any_cut(c, r, tried);
            }
            job.any_list(c, r);
            tried.lists += 1;
        }
    }
}

/// Lists with many cuts, for up to 511 firmware sectors and for large ones; and a cut in the largest flash.
pub fn try_lists(c: &mut Compare, r: &mut Random, tried: &mut Tried) {
    for round in 0..400 {
        let n = if round % 20 == 0 { r.within(2, 512) } else { r.within(2, 9) };
        let s = 256 * r.within(2, 4);
        lists(c, r, Geometry { n, s }, tried);
    }
    for (n, s) in [(64, 256), (2, 131_072), (3, 131_072)] {
        lists(c, r, Geometry { n, s }, tried);
    }
    most_sectors(c, r, tried);
    let largest = Geometry { n: 512, s: 131_072 };
    let update = armed(r, largest, SUCCESS);
    Job::new(c, largest, update, false).any_cut(c, r, tried);
    println!("{} lists of power-ups, no difference", tried.lists);
}
