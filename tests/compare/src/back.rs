//! There and back on bytes: an update that is taken, left unconfirmed and powered up again until its fallback has finished. One list runs
//! through both halves, with power lost anywhere in either, and on behind them. After every power-up demand 3 holds of the half that the
//! list is in; and from the fallback's finish on every firmware sector of BOOT and of UPDATE is as it was before the update.
use crate::call::{Call, Lent, LentFlash};
use crate::counts::row_with_room;
use crate::cuts::{armed, Job, Stage, Tried};
use crate::random::Random;
use crate::reference::*;
use crate::report::Compare;
use std::rc::Rc;

/// What was tried.
#[derive(Default)]
pub struct Trips {
    pub updates: u64,
    pub tried: Tried,
}

/// What an image check says of a partition: its number, and the two rows of the header's values.
type Checked = (u32, Vec<u64>, Vec<u8>);

/// An update that is to come back, and what image checks say of BOOT and of UPDATE before it.
struct Trip {
    update: Job,
    images: [Checked; 2],
}

/// Where the list of a trip has come to: it is in the update, or in the fallback, or at rest behind it.
#[derive(Clone)]
enum At {
    Update(Stage),
    Fallback(Rc<Job>, Stage),
    Rest(Rc<Job>, Stage),
}

/// The same as the statuses show it.
#[derive(Debug)]
enum Shown {
    Update,
    Fallback,
    Rest,
    Else,
}

fn shown(f: &Flash) -> Shown {
    match (f.boot[f.boot.len() - 1], f.update[f.update.len() - 1]) {
        (NEW | SUCCESS | TESTING, UPDATING) => Shown::Update,
        (TESTING, NEW) => Shown::Fallback,
        (SUCCESS, NEW) => Shown::Rest,
        _ => Shown::Else,
    }
}

/// The most operations of both halves together with so many early ends: 9m + 3 and 9m + 1, and two for each early end.
fn bound(g: Geometry, early: u64) -> u64 {
    18 * g.m() as u64 + 4 + 2 * early
}

/// Budgets of power-ups that lose no power, one after the other and from the first again. With one below three no leg comes to its end,
/// so that each row has a three.
const SMALL: [&[u64]; 6] = [&[3], &[1, 3], &[2, 3], &[1, 2, 3], &[2, 1, 1, 3], &[2, 2, 2, 3]];

fn checked(c: &mut Compare, g: Geometry, partition: &[u8]) -> Checked {
    let (numbers, bytes) = (Lent::new(&[u64::MAX; 6]), Lent::new(&[0x5A; 128]));
    match c.call(Call::CheckImage { g, partition: Lent::new(partition), numbers, bytes }) {
        (number, Call::CheckImage { numbers, bytes, .. }) => (number, numbers.to_vec(), bytes.to_vec()),
        _ => unreachable!(),
    }
}

fn both_checked(c: &mut Compare, g: Geometry, f: &Flash) -> [Checked; 2] {
    [checked(c, g, &f.boot), checked(c, g, &f.update)]
}

impl At {
    fn stage(&self) -> &Stage {
        match self {
            At::Update(stage) | At::Fallback(_, stage) | At::Rest(_, stage) => stage,
        }
    }
}

impl Trip {
    /// The update begins with this flash, and the erases are counted from this row on, if there is one.
    fn new(c: &mut Compare, g: Geometry, flash: Flash, row: Option<Vec<u32>>) -> Self {
        let images = both_checked(c, g, &flash);
        let update = Job::new(c, g, flash, false);
        let update = match row {
            None => update,
            Some(row) => update.counting(row),
        };
        let trip = Trip { update, images };
        if trip.images.iter().any(|(number, ..)| *number != 0) {
            trip.broken(c, "an image is bad before the update", &trip.update.begin, &trip.update.begin);
        }
        trip
    }

    fn start(&self) -> At {
        At::Update(self.update.start())
    }

    /// The job that the list is at, which at rest is done.
    fn job<'a>(&'a self, at: &'a At) -> &'a Job {
        match at {
            At::Update(_) => &self.update,
            At::Fallback(job, _) | At::Rest(job, _) => job,
        }
    }

    fn note(&self, c: &mut Compare, what: &str) {
        let counts = if self.update.begin.counts.is_some() { " with counts" } else { "" };
        c.tally.note(&format!("there and back{counts}: {what}"));
    }

    // ---- what has to hold

    /// What holds from the finish of the fallback on.
    fn given_back(&self, c: &mut Compare, before: &Stage, after: &Stage) {
        let (g, was, is) = (self.update.g, &self.update.begin.flash, &after.flash);
        let firmware = ..g.m() * g.s;
        if is.boot[firmware] != was.boot[firmware] {
            self.broken(c, "a firmware sector of BOOT is not as it was before the update", before, after);
        }
        if is.update[firmware] != was.update[firmware] {
            self.broken(c, "a firmware sector of UPDATE is not as it was before the update", before, after);
        }
        let statuses = (is.boot.last(), is.update.last());
        if statuses != (Some(&SUCCESS), Some(&NEW)) || is.flags(g).iter().any(|flag| *flag != 0) {
            self.broken(c, "the trailers are not BOOT SUCCESS, UPDATE NEW, flags all 0", before, after);
        }
        if both_checked(c, g, is) != self.images {
            self.broken(c, "an image check says something else than before the update", before, after);
        }
        if after.done > bound(g, after.early) {
            self.broken(c, "more operations than the bound of both halves", before, after);
        }
    }

    /// Where a power-up has left the list. By the statuses this is the part that it was in, or the one behind that.
    fn came(&self, c: &mut Compare, at: &At, next: Stage) -> At {
        let before = at.stage();
        match (at, shown(&next.flash)) {
            (At::Update(_), Shown::Update) => At::Update(next),
            (At::Update(_), Shown::Fallback) => {
                if next.lost_power() {
                    self.note(c, "power lost with the update's last bytes standing");
                }
                At::Fallback(Rc::new(self.update.fallback_from(c, &next)), next)
            }
            (At::Fallback(job, _), Shown::Fallback) => At::Fallback(job.clone(), next),
            (At::Fallback(job, _), Shown::Rest) => {
                self.given_back(c, before, &next);
                self.note_end(c, job, &next);
                At::Rest(job.clone(), next)
            }
            (At::Rest(job, _), Shown::Rest) => {
                if next.flash != before.flash || next.counts != before.counts || next.done != before.done {
                    self.broken(c, "something changed at rest", before, &next);
                }
                self.given_back(c, before, &next);
                At::Rest(job.clone(), next)
            }
            (_, shown) => self.broken(c, &format!("the statuses show {shown:?}"), before, &next),
        }
    }

    /// How the list came to its end, and how near to the bound.
    fn note_end(&self, c: &mut Compare, fallback: &Job, end: &Stage) {
        if end.lost_power() {
            self.note(c, "power lost with the fallback's last bytes standing");
        }
        if end.done == bound(self.update.g, end.early) {
            let ends = match (fallback.begin.early, end.early - fallback.begin.early) {
                (0, 0) => "no early end",
                (_, 0) => "early ends in the update",
                (0, _) => "early ends in the fallback",
                _ => "early ends in both halves",
            };
            self.note(c, &format!("as many operations as the bound, {ends}"));
        }
    }

    fn broken(&self, c: &Compare, what: &str, before: &Stage, after: &Stage) -> ! {
        self.update.broken_claim(c, "THERE AND BACK", what, before, after)
    }

    // ---- power-ups

    fn untorn(&self, c: &mut Compare, at: &At, budget: u64) -> At {
        let next = match at {
            At::Update(stage) => self.update.untorn(c, stage, budget),
            At::Fallback(job, stage) => job.untorn(c, stage, budget),
            At::Rest(job, stage) => {
                self.note(c, "run at rest");
                job.at_rest(c, stage, budget)
            }
        };
        self.came(c, at, next)
    }

    fn wrong_geometry(&self, c: &mut Compare, r: &mut Random, at: &At) -> At {
        if matches!(at, At::Rest(..)) {
            self.note(c, "refused 1 at rest");
        }
        let next = self.job(at).wrong_geometry(c, r, at.stage());
        self.came(c, at, next)
    }

    /// Where these losses of power leave the list. One at rest is in neither half, and not counted there.
    fn lost(&self, c: &mut Compare, at: &At, losses: Vec<Stage>) -> Vec<At> {
        let each = losses.into_iter().map(|mut next| {
            if let At::Rest(_, stage) = at {
                self.note(c, "power lost at rest");
                next.early = stage.early;
            }
            self.came(c, at, next)
        });
        each.collect()
    }

    /// Power lost at every operation and in every way.
    fn every_loss(&self, c: &mut Compare, r: &mut Random, at: &At) -> Vec<At> {
        let losses = self.job(at).every_loss(c, r, at.stage());
        self.lost(c, at, losses)
    }

    /// Power lost at some operation, in every way.
    fn any_loss(&self, c: &mut Compare, r: &mut Random, at: &At) -> Vec<At> {
        let losses = self.job(at).any_loss(c, r, at.stage());
        self.lost(c, at, losses)
    }

    /// Any power-up.
    fn any_power_up(&self, c: &mut Compare, r: &mut Random, at: &At) -> At {
        if let At::Rest(..) = at {
            return self.any_rest(c, r, at);
        }
        let next = self.job(at).any_power_up(c, r, at.stage());
        self.came(c, at, next)
    }

    // ---- lists

    /// The update to its finish.
    fn finish_update(&self, c: &mut Compare, at: &At) -> At {
        let mut at = at.clone();
        while let At::Update(_) = at {
            at = self.untorn(c, &at, u64::MAX);
        }
        at
    }

    /// Both halves to their finish, with these budgets one after the other and again.
    fn finish_by(&self, c: &mut Compare, at: &At, budgets: &[u64]) -> At {
        let mut at = at.clone();
        for budget in budgets.iter().cycle() {
            if let At::Rest(..) = at {
                break;
            }
            at = self.untorn(c, &at, *budget);
        }
        at
    }

    fn finish(&self, c: &mut Compare, at: &At) -> At {
        self.finish_by(c, at, &[u64::MAX])
    }

    /// Power-ups at rest: with any budget, with another geometry, and one that loses its power.
    fn every_rest(&self, c: &mut Compare, r: &mut Random, end: &At) -> At {
        let mut at = end.clone();
        for budget in [0, 1, r.next(), u64::MAX] {
            at = self.untorn(c, &at, budget);
        }
        at = self.wrong_geometry(c, r, &at);
        for lost in self.every_loss(c, r, &at) {
            at = self.untorn(c, &lost, u64::MAX);
        }
        at
    }

    /// One of them.
    fn any_rest(&self, c: &mut Compare, r: &mut Random, end: &At) -> At {
        match r.below(3) {
            0 => self.untorn(c, end, r.next()),
            1 => self.wrong_geometry(c, r, end),
            _ => self.every_loss(c, r, end).remove(0),
        }
    }

    /// No early end: every operation of both halves once. From BOOT NEW there is no trailer of BOOT to be erased.
    fn undisturbed(&self, c: &mut Compare, r: &mut Random) {
        let end = self.finish(c, &self.start());
        let stage = end.stage();
        let trailer = u64::from(self.update.begin.flash.boot.last() == Some(&SUCCESS));
        if (stage.done, stage.early) != (18 * self.update.g.m() as u64 + 3 + trailer, 0) {
            self.broken(c, "another number of operations without an early end", &self.update.begin, stage);
        }
        if trailer == 0 {
            self.note(c, "one operation less than the bound, from BOOT NEW");
        }
        self.every_rest(c, r, &end);
    }

    /// Small budgets all through both halves, in rows and at random.
    fn by_small_budgets(&self, c: &mut Compare, r: &mut Random) {
        let random: Vec<u64> = (0..20).map(|_| r.within(1, 3) as u64).chain([3]).collect();
        for budgets in SMALL.iter().copied().chain([&random[..]]) {
            let end = self.finish_by(c, &self.start(), budgets);
            self.any_rest(c, r, &end);
        }
    }

    /// One cut, the rest at once and by small budgets, and power-ups at rest.
    fn after_cut(&self, c: &mut Compare, r: &mut Random, cut: &At, tried: &mut Tried) {
        tried.single_cuts += 1;
        let end = self.finish(c, cut);
        self.every_rest(c, r, &end);
        self.finish_by(c, cut, SMALL[r.below(SMALL.len())]);
    }

    /// Every cut in the fallback and every cut in the update, and every pair of one in each, in all ways.
    fn every_cut(&self, c: &mut Compare, r: &mut Random, tried: &mut Tried) {
        let there = self.finish_update(c, &self.start());
        for second in self.every_loss(c, r, &there) {
            self.after_cut(c, r, &second, tried);
        }
        for first in self.every_loss(c, r, &self.start()) {
            self.after_cut(c, r, &first, tried);
            let there = self.finish_update(c, &first);
            for second in self.every_loss(c, r, &there) {
                tried.pairs += 1;
                let end = self.finish(c, &second);
                self.any_rest(c, r, &end);
            }
        }
    }

    /// A cut at some operation of each half, all ways of the one with all ways of the other.
    fn any_cuts(&self, c: &mut Compare, r: &mut Random, tried: &mut Tried) {
        for first in self.any_loss(c, r, &self.start()) {
            let there = self.finish_update(c, &first);
            for second in self.any_loss(c, r, &there) {
                tried.pairs += 1;
                let end = self.finish(c, &second);
                self.any_rest(c, r, &end);
            }
        }
    }

    /// A list of any power-ups, up to the rest and some behind it.
    fn any_list(&self, c: &mut Compare, r: &mut Random, tried: &mut Tried) -> At {
        let mut at = self.start();
        while !matches!(at, At::Rest(..)) {
            at = self.any_power_up(c, r, &at);
        }
        for _ in 0..3 {
            at = self.any_power_up(c, r, &at);
        }
        tried.lists += 1;
        at
    }

    /// The same update, armed at rest: it is taken once more, and the row of counts goes on.
    fn again(&self, c: &mut Compare, rest: &At) -> Trip {
        let Stage { flash, counts, .. } = rest.stage();
        let (g, flash) = (self.update.g, LentFlash::new(flash));
        let call = match counts {
            None => Call::Arm { g, flash, count: Lent::new(&[u64::MAX]) },
            Some(Counts { row, total }) => {
                Call::ArmCounted { g, flash, row: Lent::new(row), total: *total, answer: Lent::new(&[u64::MAX; 2]) }
            }
        };
        self.note(c, "armed again at rest");
        match c.call(call) {
            (0, Call::Arm { flash, .. }) => Trip::new(c, g, flash.flash(), None),
            (0, Call::ArmCounted { flash, row, .. }) => Trip::new(c, g, flash.flash(), Some(row.to_vec())),
            (number, left) => c.fail(&format!("an arm at rest is answered {number}"), &[&left]),
        }
    }

    /// A list of any power-ups, and behind it the same update there and back once more.
    fn lists(&self, c: &mut Compare, r: &mut Random, tried: &mut Tried) {
        let rest = self.any_list(c, r, tried);
        let again = self.again(c, &rest);
        again.undisturbed(c, r);
        again.any_list(c, r, tried);
    }
}

/// From BOOT NEW and from BOOT SUCCESS, each with the plain power-up and with the one that counts its erases.
fn trips(c: &mut Compare, r: &mut Random, g: Geometry, all: &mut Trips) -> Vec<Trip> {
    let mut trips = Vec::new();
    for (boot, counted) in [(NEW, false), (NEW, true), (SUCCESS, false), (SUCCESS, true)] {
        let flash = armed(r, g, boot);
        let row = if counted { Some(row_with_room(r, g)) } else { None };
        trips.push(Trip::new(c, g, flash, row));
        all.updates += 1;
    }
    trips
}

/// Every cut in either half and every pair of one in each for up to four firmware sectors; lists for as many as 511.
pub fn try_back(c: &mut Compare, r: &mut Random) -> Trips {
    let mut all = Trips::default();
    for m in 1..=4 {
        for round in 1..=3 {
            let g = Geometry { n: m + 1, s: 256 * if m == 1 { round + 1 } else { round } };
            for trip in trips(c, r, g, &mut all) {
                trip.undisturbed(c, r);
                trip.by_small_budgets(c, r);
                trip.every_cut(c, r, &mut all.tried);
                trip.lists(c, r, &mut all.tried);
            }
        }
        let Tried { single_cuts, pairs, .. } = all.tried;
        println!(
            "there and back with up to {m} firmware sectors: {single_cuts} single cuts, {pairs} pairs of cuts, no difference"
        );
    }
    let mut geometries: Vec<Geometry> = (0..100).map(|_| Geometry { n: r.within(2, 9), s: 256 * r.within(2, 4) }).collect();
    geometries.extend([(64, 256), (511, 256), (512, 512), (3, 131_072)].map(|(n, s)| Geometry { n, s }));
    for g in geometries {
        for trip in trips(c, r, g, &mut all) {
            trip.undisturbed(c, r);
            trip.any_cuts(c, r, &mut all.tried);
            trip.lists(c, r, &mut all.tried);
        }
    }
    println!("{} lists there and back, no difference", all.tried.lists);
    all
}
