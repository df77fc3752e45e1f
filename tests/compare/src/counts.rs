//! Erase counts on bytes: power-ups with every budget and arms on flashes of every kind, each beside the call that counts nothing; lengths
//! and totals that are wrong, and every place of a row at the highest count that is taken and one above; and demand 3 once more, with the
//! row carried from one power-up of a list to the next.
use crate::call::{Call, Lent, LentFlash};
use crate::cuts::{jobs, Tried};
use crate::inputs::*;
use crate::random::Random;
use crate::reference::*;
use crate::report::Compare;

/// What was tried.
#[derive(Default)]
pub struct Tries {
    pub tried: Tried,
    pub flashes: u64,
}

/// The highest count that is taken.
fn most(g: Geometry) -> u32 {
    u32::MAX - g.m() as u32
}

/// A row that is taken: of a new flash, a used one, or one with counts as high as may be.
fn row_taken(r: &mut Random, g: Geometry) -> Vec<u32> {
    any_row(r, 2 * g.n + 1, g.m()).iter().map(|count| (*count).min(most(g))).collect()
}

// ---- the calls

/// The flash, the row, the total and the length of the answer.
#[derive(Clone)]
struct Asked {
    g: Geometry,
    flash: Flash,
    row: Vec<u32>,
    total: u64,
}

impl Asked {
    fn power_up(&self, budget: u64, numbers: usize) -> Call {
        let answer = Lent::new(&vec![u64::MAX; numbers]);
        let flash = LentFlash::new(&self.flash);
        Call::PowerUpCounted { g: self.g, flash, budget, row: Lent::new(&self.row), total: self.total, answer }
    }

    fn arm(&self, numbers: usize) -> Call {
        let answer = Lent::new(&vec![u64::MAX; numbers]);
        Call::ArmCounted { g: self.g, flash: LentFlash::new(&self.flash), row: Lent::new(&self.row), total: self.total, answer }
    }

    /// Both calls give this refusal: no byte and no count changes, and the total goes out as it came.
    fn refused(&self, c: &mut Compare, number: u32) {
        for call in [self.power_up(u64::MAX, 7), self.arm(2)] {
            let asked = call.clone();
            let (is, left) = c.call(call);
            let (flash, row, answer) = match &left {
                Call::PowerUpCounted { flash, row, answer, .. } | Call::ArmCounted { flash, row, answer, .. } => {
                    (flash, row, answer)
                }
                _ => unreachable!(),
            };
            let (numbers, total) = answer.split_at(answer.len() - 1);
            let same = flash.flash() == self.flash && row[..] == self.row[..];
            if is != number || !same || numbers.iter().any(|n| *n != 0) || total != [self.total] {
                c.fail(&format!("{is} is answered, and {number} is due, with nothing changed"), &[&asked, &left]);
            }
        }
    }

    /// Numbers of another length are 1, before all else, and all stays as it was.
    fn other_numbers(&self, c: &mut Compare) {
        let calls = [0, 1, 6, 8, 1007].map(|n| self.power_up(u64::MAX, n));
        for call in calls.into_iter().chain([0, 1, 3, 1002].map(|n| self.arm(n))) {
            let asked = call.clone();
            let (is, left) = c.call(call);
            if is != 1 || left != asked {
                c.fail("numbers of another length are taken, or something changed", &[&asked, &left]);
            }
        }
    }

    /// A row and a total that are taken: the flash and the answer are those of the power-up that counts nothing, and the row has one more
    /// for each erase of the operations that it did.
    fn power_up_beside(&self, c: &mut Compare, budget: u64) {
        let operations = plan(self.g, &self.flash).map_or(vec![], |plan| plan.operations);
        let answer = Lent::new(&[u64::MAX; 6]);
        let (number, plain) = c.call(Call::PowerUp { g: self.g, flash: LentFlash::new(&self.flash), budget, answer });
        let (is, counted) = c.call(self.power_up(budget, 7));
        let mut due = Counts { row: self.row.clone(), total: self.total };
        let good = match (&plain, &counted) {
            (Call::PowerUp { flash: f, answer: a, .. }, Call::PowerUpCounted { flash, row, answer, .. }) => {
                due.count(self.g, &operations[..a[1] as usize]);
                is == number && flash == f && answer[..6] == a[..] && row[..] == due.row[..] && answer[6] == due.total
            }
            _ => unreachable!(),
        };
        if !good {
            c.fail("a power-up that counts does something else, or counts something else", &[&plain, &counted]);
        }
    }

    /// The same of an arm.
    fn arm_beside(&self, c: &mut Compare) {
        let (number, plain) = c.call(Call::Arm { g: self.g, flash: LentFlash::new(&self.flash), count: Lent::new(&[u64::MAX]) });
        let (is, counted) = c.call(self.arm(2));
        let mut due = Counts { row: self.row.clone(), total: self.total };
        let good = match (&plain, &counted) {
            (Call::Arm { flash: f, count, .. }, Call::ArmCounted { flash, row, answer, .. }) => {
                if number == 0 {
                    due.count(self.g, &[Operation::EraseTrailer(Area::Update)]);
                }
                is == number && flash == f && answer[0] == count[0] && row[..] == due.row[..] && answer[1] == due.total
            }
            _ => unreachable!(),
        };
        if !good {
            c.fail("an arm that counts does something else, or counts something else", &[&plain, &counted]);
        }
    }
}

// ---- flashes

fn images(r: &mut Random, g: Geometry, versions: (u32, u32), bad: (bool, bool), statuses: (u8, u8)) -> Flash {
    let mut f = Flash { boot: partition(r, g, versions.0, 0), update: partition(r, g, versions.1, 0), swap: r.bytes(g.s) };
    // A digest that is wrong, wherever the header has it: the firmware's first byte is changed.
    for (p, bad) in [(&mut f.boot, bad.0), (&mut f.update, bad.1)] {
        if bad {
            p[HEADER] ^= 1;
        }
    }
    let erased = r.one_in(2);
    set_trailers(g, &mut f, statuses.0, statuses.1, erased);
    f
}

/// A flash of each kind: what a power-up does there, and what it refuses.
fn flashes(r: &mut Random, g: Geometry) -> Vec<Flash> {
    const BOTH_GOOD: (bool, bool) = (false, false);
    let v = r.below(1000) as u32;
    let (newer, same) = ((v, v + 1), (v, v));
    let mut all = Vec::new();
    for boot in [NEW, SUCCESS] {
        // At rest, an update that is taken, one that is not newer, and a bad one; then both images bad, and BOOT alone.
        all.push(images(r, g, newer, BOTH_GOOD, (boot, NEW)));
        all.push(images(r, g, newer, BOTH_GOOD, (boot, UPDATING)));
        all.push(images(r, g, same, BOTH_GOOD, (boot, UPDATING)));
        all.push(images(r, g, newer, (false, true), (boot, UPDATING)));
        all.push(images(r, g, newer, (true, true), (boot, UPDATING)));
        all.push(images(r, g, newer, (true, false), (boot, UPDATING)));
        // In the middle, with a good update and with a bad one, which is seen at the end; and at the end of all legs.
        for (bad, legs) in [(false, r.below(3 * g.m())), (true, r.within(1, 3 * g.m())), (false, 3 * g.m())] {
            let mut f = images(r, g, newer, (false, bad), (boot, UPDATING));
            do_legs(g, &mut f, legs);
            all.push(f);
        }
    }
    // The way back, with a good image and a bad one, and in the middle.
    all.push(images(r, g, newer, BOTH_GOOD, (TESTING, NEW)));
    all.push(images(r, g, newer, (false, true), (TESTING, NEW)));
    let mut back = images(r, g, newer, BOTH_GOOD, (TESTING, NEW));
    do_legs(g, &mut back, r.within(1, 3 * g.m()));
    all.push(back);
    // The last erase of an update; and with other flags 11, as with flags that are not well formed.
    let mut last = images(r, g, newer, BOTH_GOOD, (TESTING, UPDATING));
    all.push(last.clone());
    for i in 0..g.m() {
        last.perform(g, Operation::Flag(i, 0));
    }
    all.push(last);
    let mut malformed = images(r, g, newer, BOTH_GOOD, (SUCCESS, UPDATING));
    malformed.perform(g, Operation::Flag(0, 5));
    all.push(malformed);
    // Status bytes that may not stand there.
    all.push(images(r, g, newer, BOTH_GOOD, (UPDATING, NEW)));
    all.push(images(r, g, newer, BOTH_GOOD, (SUCCESS, TESTING)));
    all
}

// ---- what is tried

/// Every budget up to one more than is needed, from a new row and from others; and an arm.
fn every_budget(c: &mut Compare, r: &mut Random, g: Geometry, flash: &Flash) {
    let needed = plan(g, flash).map_or(0, |plan| plan.operations.len() as u64);
    for budget in (0..=needed + 1).chain([u64::MAX]) {
        let used = row_taken(r, g);
        for row in [vec![0; 2 * g.n + 1], vec![most(g); 2 * g.n + 1], used] {
            Asked { g, flash: flash.clone(), total: sum(&row), row }.power_up_beside(c, budget);
        }
    }
    let row = row_taken(r, g);
    Asked { g, flash: flash.clone(), total: sum(&row), row }.arm_beside(c);
}

/// What is refused, in its order: lengths, then the total, then each place of the row one above the highest count. The highest count itself
/// is taken at each place.
fn refusals(c: &mut Compare, r: &mut Random, g: Geometry, flash: &Flash) {
    let right = 2 * g.n + 1;
    let row = row_taken(r, g);
    let good = Asked { g, flash: flash.clone(), total: sum(&row), row };
    good.other_numbers(c);
    for length in [0, 1, 2 * g.n - 1, 2 * g.n, 2 * g.n + 2, g.n, right + 1000] {
        // Also with counts that are too high, and with a wrong total.
        for (count, more) in [(0, 0), (7, 0), (7, 1), (u32::MAX, 0)] {
            let row = vec![count; length];
            Asked { total: sum(&row) + more, row, ..good.clone() }.refused(c, 1);
        }
    }
    let mut other = good.clone();
    other.flash.boot.pop();
    other.refused(c, 1);
    other.total += 1;
    other.refused(c, 1);
    Asked { g: Geometry { n: g.n + 1, s: g.s }, ..good.clone() }.refused(c, 1);
    let any = r.next();
    let sums = [sum(&good.row), right as u64 * 4_294_967_295];
    for (row, sum) in [(good.row.clone(), sums[0]), (vec![u32::MAX; right], sums[1])] {
        for total in [sum.wrapping_sub(1), sum + 1, sum & 0xFFFF_FFFF, sum + (1 << 32), 0, u64::MAX, any] {
            if total != sum {
                Asked { total, row: row.clone(), ..good.clone() }.refused(c, 19);
            }
        }
    }
    for place in 0..right {
        let mut row = row_taken(r, g);
        row[place] = most(g);
        let full = Asked { total: sum(&row), row, ..good.clone() };
        full.power_up_beside(c, r.below(12) as u64);
        full.arm_beside(c);
        for above in [1, r.within(1, g.m()) as u32, g.m() as u32] {
            let mut row = full.row.clone();
            row[place] = most(g) + above;
            Asked { total: sum(&row), row: row.clone(), ..good.clone() }.refused(c, 20);
            Asked { total: sum(&row) - 1, row, ..good.clone() }.refused(c, 19);
        }
    }
}

/// A row with room for a list of power-ups.
pub fn row_with_room(r: &mut Random, g: Geometry) -> Vec<u32> {
    let below = r.pick(&[1, 100, 1 << 31, (1 << 32) - (1 << 20)]);
    (0..2 * g.n + 1).map(|_| r.below(below) as u32).collect()
}

/// Everything above, and demand 3: every cut and every pair of cuts for up to three firmware sectors, lists, and the most sectors.
pub fn try_counts(c: &mut Compare, r: &mut Random) -> Tries {
    let mut tries = Tries::default();
    for m in 1..=5 {
        for round in 1..=3 {
            let g = Geometry { n: m + 1, s: 256 * if m == 1 { round + 1 } else { round } };
            for flash in flashes(r, g) {
                every_budget(c, r, g, &flash);
                refusals(c, r, g, &flash);
                tries.flashes += 1;
            }
        }
    }
    println!("{} flashes with every budget and with counts that are refused, no difference", tries.flashes);
    for m in 1..=3 {
        for round in 1..=2 {
            let g = Geometry { n: m + 1, s: 256 * if m == 1 { round + 1 } else { round } };
            for job in jobs(c, r, g) {
                job.counting(row_with_room(r, g)).every_cut(c, r, &mut tries.tried);
            }
        }
    }
    let Tried { single_cuts, pairs, .. } = tries.tried;
    println!("cuts with erase counts: {single_cuts} single, {pairs} pairs, no difference");
    let mut geometries: Vec<Geometry> = (0..120).map(|_| Geometry { n: r.within(2, 9), s: 256 * r.within(2, 3) }).collect();
    geometries.extend([(64, 256), (511, 256), (512, 512), (3, 131_072)].map(|(n, s)| Geometry { n, s }));
    for g in geometries {
        for job in jobs(c, r, g) {
            let job = job.counting(row_with_room(r, g));
            job.finish(c, &job.start());
            job.any_cut(c, r, &mut tries.tried);
            job.any_list(c, r);
            tries.tried.lists += 1;
        }
    }
    // An update of the most sectors brings SWAP's count to the end of 32 bits.
    for (n, s) in [(511, 256), (512, 512)] {
        let g = Geometry { n, s };
        let flash = images(r, g, (1, 2), (false, false), (SUCCESS, UPDATING));
        let row = vec![most(g); 2 * n + 1];
        let full = Asked { g, flash, total: sum(&row), row };
        full.power_up_beside(c, u64::MAX);
        let mut above = full.clone();
        above.row[2 * n] += 1;
        above.total += 1;
        above.refused(c, 20);
        above.total -= 1;
        above.refused(c, 19);
        Asked { flash: images(r, g, (1, 2), (false, false), (SUCCESS, NEW)), ..full }.arm_beside(c);
    }
    println!("{} lists of power-ups with erase counts, no difference", tries.tried.lists);
    tries
}
