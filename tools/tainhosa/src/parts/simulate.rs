//! `tainhosa simulate`: an update on a flash in memory, with power lost where the user says; and there and back, up to the end of its
//! fallback.
use crate::arguments::Parsed;
use crate::files;
use crate::json::Json;
use crate::parts::check::{geometry, partition};
use crate::said::{in_words, line, Said, Stop, GOOD, REFUSED};
use std::ffi::OsStr;
use std::fmt;
use tainhosa::{Flag, Flash, Geometry, Image, Outcome, PowerUp, Refusal, Status};

/// What a sector holds whose erase or copy was broken off.
const TORN: u8 = 0x5A;

/// The three buffers.
#[derive(Clone)]
struct Buffers {
    geometry: Geometry,
    boot: Vec<u8>,
    update: Vec<u8>,
    swap: Vec<u8>,
}

/// A firmware sector of BOOT or UPDATE, or SWAP.
struct Sector {
    area: &'static str,
    number: usize,
}

impl Sector {
    fn json(&self) -> Json {
        Json::object([("area", Json::text(self.area)), ("sector", Json::Number(self.number as u64))])
    }
}

impl fmt::Display for Sector {
    fn fmt(&self, f: &mut fmt::Formatter<'_>) -> fmt::Result {
        match self.area {
            "SWAP" => f.write_str("SWAP"),
            area => write!(f, "{area} sector {}", self.number),
        }
    }
}

impl Buffers {
    /// Both images, BOOT's confirmed; SWAP holds nothing of interest.
    fn new(geometry: Geometry, boot: &[u8], update: &[u8]) -> Buffers {
        let mut buffers = Buffers {
            geometry,
            boot: partition(geometry, boot),
            update: partition(geometry, update),
            swap: vec![TORN; geometry.size()],
        };
        let last = geometry.partition() - 1;
        buffers.boot[last] = Status::Success.byte();
        buffers
    }

    fn flash(&mut self) -> Result<Flash<'_>, Stop> {
        Flash::new(self.geometry, &mut self.boot, &mut self.update, &mut self.swap).map_err(|r| Stop::new(r.to_string()))
    }

    fn trailers(&self) -> (&[u8], &[u8]) {
        let at = self.geometry.firmware_sectors() * self.geometry.size();
        (&self.boot[at..], &self.update[at..])
    }

    /// The sector that a loss of power after so many operations may leave with any bytes, if the next operation is an erase of a
    /// sector or a copy to one. These are the operations that leave both trailers as they are, and their sector is the one that the
    /// first flag which is not 0 shows.
    fn may_tear(&self, after: &Buffers, budget: u64) -> Result<Option<Sector>, Stop> {
        let mut one_more = self.clone();
        one_more.flash()?.power_up_within(budget.saturating_add(1));
        if one_more.trailers() != after.trailers() {
            return Ok(None);
        }
        let flags = after.clone().flash()?.flags();
        let first = flags.iter().enumerate().find(|(_, flag)| **flag != Flag::Exchanged);
        Ok(first.map(|(number, flag)| match flag {
            Flag::Saved => Sector { area: "UPDATE", number },
            Flag::Moved => Sector { area: "BOOT", number },
            _ => Sector { area: "SWAP", number: 0 },
        }))
    }

    fn tear(&mut self, sector: &Sector) {
        let at = sector.number * self.geometry.size();
        let bytes = match sector.area {
            "BOOT" => &mut self.boot,
            "UPDATE" => &mut self.update,
            _ => &mut self.swap,
        };
        bytes[at..][..self.geometry.size()].fill(TORN);
    }

    /// The firmware sectors of BOOT and of UPDATE that are not as they were before.
    fn changed_since(&self, before: &Buffers) -> Vec<Sector> {
        let (size, count) = (self.geometry.size(), self.geometry.firmware_sectors());
        let mut changed = vec![];
        for (area, was, is) in [("BOOT", &before.boot, &self.boot), ("UPDATE", &before.update, &self.update)] {
            let sectors = was.chunks(size).zip(is.chunks(size)).take(count).enumerate();
            changed.extend(sectors.filter(|(_, (was, is))| was != is).map(|(number, _)| Sector { area, number }));
        }
        changed
    }
}

/// The service sheet: how often each sector was erased, those of BOOT first, then those of UPDATE, then SWAP; and all together.
struct Counts {
    geometry: Geometry,
    row: Vec<u32>,
    total: u64,
}

impl Counts {
    /// Those of a new flash.
    fn new(geometry: Geometry) -> Counts {
        Counts { geometry, row: vec![0; geometry.row_length()], total: 0 }
    }

    /// Behind a loss of power, which leaves no answer: what the completed erases come to.
    fn add_up(&mut self) {
        self.total = self.row.iter().copied().map(u64::from).sum();
    }

    /// The counts of BOOT, of UPDATE and of SWAP.
    fn areas(&self) -> [(&'static str, &[u32]); 3] {
        let (boot, others) = self.row.split_at(self.geometry.sectors());
        let (update, swap) = others.split_at(self.geometry.sectors());
        [("BOOT", boot), ("UPDATE", update), ("SWAP", swap)]
    }

    fn lines(&self) -> String {
        let mut text = String::new();
        for (area, counts) in self.areas() {
            text.extend(counts.iter().enumerate().map(|(number, erases)| format!("{area} {number} {erases}\n")));
        }
        format!("{text}total {}\n", self.total)
    }

    fn json(&self) -> Json {
        let list = |counts: &[u32]| Json::List(counts.iter().map(|erases| Json::Number((*erases).into())).collect());
        let [(_, boot), (_, update), (_, swap)] = self.areas();
        let fields = [("boot", list(boot)), ("update", list(update)), ("swap", list(swap)), ("total", Json::Number(self.total))];
        Json::object(fields)
    }
}

/// What was done to the flash, and what it shows then.
struct Step {
    what: String,
    /// Of a power-up, what it came to.
    came_to: Option<Outcome>,
    outcome: String,
    operations: u64,
    torn: Option<Sector>,
    turned_down: Option<Refusal>,
    refused: Option<Refusal>,
    flags: String,
    boot: Status,
    update: Status,
}

fn picture(flags: &[Flag]) -> String {
    let one = |flag: &Flag| match flag {
        Flag::Untouched => '.',
        Flag::Saved => 's',
        Flag::Moved => 'm',
        Flag::Exchanged => 'x',
        Flag::Other(_) => '?',
    };
    flags.iter().map(one).collect()
}

impl Step {
    fn new(buffers: &mut Buffers, what: String, outcome: &str, operations: u64) -> Result<Step, Stop> {
        let flash = buffers.flash()?;
        Ok(Step {
            what,
            came_to: None,
            outcome: outcome.to_string(),
            operations,
            torn: None,
            turned_down: None,
            refused: None,
            flags: picture(&flash.flags()),
            boot: flash.boot_status(),
            update: flash.update_status(),
        })
    }

    /// Arm or confirm.
    fn command(buffers: &mut Buffers, what: &str, answer: Result<u64, Refusal>) -> Result<Step, Stop> {
        let mut step = Step::new(buffers, what.to_string(), "done", answer.unwrap_or(0))?;
        if let Err(refusal) = answer {
            step.refused = Some(refusal);
            step.outcome = refusal.to_string();
        }
        Ok(step)
    }

    fn power_up(buffers: &mut Buffers, number: usize, answer: &PowerUp) -> Result<Step, Stop> {
        let (outcome, refused) = match answer.outcome {
            Outcome::Refused(refusal) => (refusal.to_string(), Some(refusal)),
            Outcome::Cut => ("cut".to_string(), None),
            Outcome::Run => ("run".to_string(), None),
            Outcome::RunOnTest => ("run on test".to_string(), None),
            Outcome::RunFallenBack => ("run, fallen back".to_string(), None),
        };
        let mut step = Step::new(buffers, format!("power-up {number}"), &outcome, answer.operations)?;
        step.came_to = Some(answer.outcome);
        step.refused = refused;
        step.turned_down = answer.turned_down;
        Ok(step)
    }

    fn line(&self) -> String {
        let Step { what, outcome, operations, flags, boot, update, .. } = self;
        let torn = self.torn.as_ref().map_or(String::new(), |sector| format!("; {sector} torn"));
        let reason = self.turned_down.map_or(String::new(), |r| format!("; turned down with {} at {}", r.number, r.place));
        format!("{what}: {outcome}; operations {operations}; flags {flags}; BOOT {boot}; UPDATE {update}{torn}{reason}\n")
    }

    fn json(&self) -> Json {
        Json::object([
            ("what", Json::text(&self.what)),
            ("outcome", Json::text(&self.outcome)),
            ("operations", Json::Number(self.operations)),
            ("flags", Json::text(&self.flags)),
            ("boot", Json::text(self.boot.to_string())),
            ("update", Json::text(self.update.to_string())),
            ("torn", self.torn.as_ref().map_or(Json::Null, Sector::json)),
            ("turned_down", self.turned_down.as_ref().map_or(Json::Null, Json::refusal)),
            ("refused", self.refused.as_ref().map_or(Json::Null, Json::refusal)),
        ])
    }
}

/// There and back: what an update that was not confirmed leaves behind its fallback.
struct Back {
    /// Whether a power-up has fallen back. It has not if the update was turned down or refused, and then there is nothing else to say.
    fallen_back: bool,
    /// The firmware sectors that are not as they were before the update.
    changed: Vec<Sector>,
    firmware_sectors: u64,
    /// The operations of all power-ups, and how many of these lost power.
    operations: u64,
    early_ends: u64,
}

impl Back {
    fn new(before: &Buffers, after: &Buffers, steps: &[Step]) -> Back {
        let came_to = |outcome| steps.iter().filter(move |step| step.came_to == Some(outcome)).count() as u64;
        Back {
            fallen_back: came_to(Outcome::RunFallenBack) > 0,
            changed: after.changed_since(before),
            firmware_sectors: after.geometry.firmware_sectors() as u64,
            operations: steps.iter().filter(|step| step.came_to.is_some()).map(|step| step.operations).sum(),
            early_ends: came_to(Outcome::Cut),
        }
    }

    /// The most operations that an update and its fallback have together.
    fn most(&self) -> u64 {
        18 * self.firmware_sectors + 4 + 2 * self.early_ends
    }

    /// Whether all was given back, with no more operations than there may be.
    fn good(&self) -> bool {
        self.fallen_back && self.changed.is_empty() && self.operations <= self.most()
    }

    fn lines(&self) -> String {
        if !self.fallen_back {
            return "there and back: no, the update did not fall back\n".to_string();
        }
        let sectors = if self.changed.is_empty() {
            "every firmware sector of BOOT and of UPDATE is as it was before the update".to_string()
        } else {
            let names: Vec<String> = self.changed.iter().map(Sector::to_string).collect();
            format!("NOT as before the update: {}", names.join(", "))
        };
        let Back { firmware_sectors, operations, early_ends, .. } = self;
        let most = format!("{} operations (18 x {firmware_sectors} + 4 + 2 x {early_ends})", self.most());
        format!("there and back: {sectors}\nall power-ups: operations {operations}; early ends {early_ends}; at most {most}\n")
    }

    fn json(&self) -> Json {
        if !self.fallen_back {
            return Json::Null;
        }
        Json::object([
            ("as_before", Json::Bool(self.changed.is_empty())),
            ("changed", Json::List(self.changed.iter().map(Sector::json).collect())),
            ("operations", Json::Number(self.operations)),
            ("early_ends", Json::Number(self.early_ends)),
            ("at_most", Json::Number(self.most())),
        ])
    }
}

/// What is to be simulated.
struct Plan {
    cuts: Vec<u64>,
    torn: bool,
    confirm: bool,
    fall_back: bool,
    /// It falls back too, and it is said what was given back.
    back: bool,
}

/// What it is played on: the flash, and the service sheet if one is asked for.
struct Printer {
    buffers: Buffers,
    counts: Option<Counts>,
}

impl Printer {
    fn arm(&mut self) -> Result<Result<u64, Refusal>, Stop> {
        let mut flash = self.buffers.flash()?;
        Ok(match &mut self.counts {
            None => flash.arm(),
            Some(counts) => flash.arm_counted(&mut counts.row, &mut counts.total),
        })
    }

    fn power_up(&mut self, budget: u64) -> Result<PowerUp, Stop> {
        let mut flash = self.buffers.flash()?;
        let counts = match &mut self.counts {
            None => return Ok(flash.power_up_within(budget)),
            Some(counts) => counts,
        };
        let answer = flash.power_up_counted_within(budget, &mut counts.row, &mut counts.total);
        if answer.outcome == Outcome::Cut {
            counts.add_up();
        }
        Ok(answer)
    }
}

impl Plan {
    fn of(given: &Parsed) -> Result<Plan, Stop> {
        let cuts: Result<Vec<u64>, Stop> = given.every("--cut").map(|text| given.number("--cut", text)).collect();
        let [torn, confirm, fall_back, back] = ["--torn", "--confirm", "--fall-back", "--back"].map(|switch| given.has(switch));
        let plan = Plan { cuts: cuts?, torn, confirm, fall_back, back };
        if plan.confirm && (plan.fall_back || plan.back) {
            let other = if plan.fall_back { "--fall-back" } else { "--back" };
            return Err(given.wrong(format!("an update that is confirmed does not fall back: give --confirm or {other}")));
        }
        if plan.fall_back && plan.back {
            return Err(given.wrong("--back falls back too, and then says what was given back: give --fall-back or --back"));
        }
        if plan.torn && plan.cuts.is_empty() {
            return Err(given.wrong("--torn needs a --cut"));
        }
        Ok(plan)
    }

    /// A power-up, and where it ran on test the confirming that was asked for. Whether one more is needed: it was cut.
    fn power_up(&self, printer: &mut Printer, budget: u64, steps: &mut Vec<Step>) -> Result<Outcome, Stop> {
        let before = printer.buffers.clone();
        let answer = printer.power_up(budget)?;
        let buffers = &mut printer.buffers;
        let number = steps.iter().filter(|step| step.came_to.is_some()).count() + 1;
        let mut torn = None;
        if answer.outcome == Outcome::Cut && self.torn {
            torn = before.may_tear(buffers, budget)?;
            torn.iter().for_each(|sector| buffers.tear(sector));
        }
        let mut step = Step::power_up(buffers, number, &answer)?;
        step.torn = torn;
        steps.push(step);
        if answer.outcome == Outcome::RunOnTest && self.confirm {
            let answer = buffers.flash()?.confirm();
            steps.push(Step::command(buffers, "confirm", answer)?);
        }
        Ok(answer.outcome)
    }

    /// Everything that happens, from arming on.
    fn play(&self, printer: &mut Printer) -> Result<Vec<Step>, Stop> {
        let answer = printer.arm()?;
        let mut steps = vec![Step::command(&mut printer.buffers, "arm", answer)?];
        let mut last = Outcome::Cut;
        for cut in &self.cuts {
            last = self.power_up(printer, *cut, &mut steps)?;
        }
        if last == Outcome::Cut {
            last = self.power_up(printer, u64::MAX, &mut steps)?;
        }
        if last == Outcome::RunOnTest && (self.fall_back || self.back) {
            self.power_up(printer, u64::MAX, &mut steps)?;
        }
        Ok(steps)
    }
}

/// An image's bytes; a file without any is none that can be read.
fn image(path: &OsStr) -> Result<Vec<u8>, Stop> {
    let bytes = files::image(path)?;
    if bytes.is_empty() {
        return Err(Stop::new(format!("{}: the file is empty", files::name(path))));
    }
    Ok(bytes)
}

pub fn run(given: &Parsed) -> Result<Said, Stop> {
    let (boot, update) = (given.needed("--boot")?, given.needed("--update")?);
    let (plan, geometry) = (Plan::of(given)?, geometry(given)?);
    let geometry = match geometry.ok_or_else(|| given.wrong("--sectors and --size are missing"))? {
        Err(refusal) => return Ok(Said::refused(given.json(), "--sectors and --size", &refusal)),
        Ok(geometry) => geometry,
    };
    let (boot, update) = (image(boot)?, image(update)?);
    let counts = given.has("--counts").then(|| Counts::new(geometry));
    let mut printer = Printer { buffers: Buffers::new(geometry, &boot, &update), counts };
    let before = plan.back.then(|| printer.buffers.clone());
    let steps = plan.play(&mut printer)?;
    let back = before.map(|before| Back::new(&before, &printer.buffers, &steps));
    let mut notes = vec![];
    for step in &steps {
        notes.extend(step.turned_down.iter().map(|r| in_words(&format!("{}: the update is turned down", step.what), r)));
        notes.extend(step.refused.iter().map(|r| in_words(&step.what, r)));
    }
    if notes.is_empty() && back.as_ref().map_or(false, |back| !back.good()) {
        notes.push("the way there and back did not end as it has to".to_string());
    }
    let status = if notes.is_empty() { GOOD } else { REFUSED };
    let held = Image::check_partition(geometry, &printer.buffers.boot);
    let out = if given.json() {
        let held = match &held {
            Ok(image) => Json::object([("good", Json::Bool(true)), ("version", Json::Number(image.header().version.into()))]),
            Err(refusal) => Json::object([("good", Json::Bool(false)), ("why", Json::refusal(refusal))]),
        };
        let counts = printer.counts.as_ref().map_or(Json::Null, Counts::json);
        let steps = Json::List(steps.iter().map(Step::json).collect());
        let mut fields = vec![("steps", steps), ("boot_holds", held), ("counts", counts)];
        fields.extend(back.iter().map(|back| ("back", back.json())));
        line(Json::Object(fields))
    } else {
        let held = match &held {
            Ok(image) => format!("version {}, good", image.header().version),
            Err(refusal) => format!("no good image, {refusal}"),
        };
        let counts = printer.counts.as_ref().map_or(String::new(), Counts::lines);
        let back = back.as_ref().map_or(String::new(), Back::lines);
        format!("{}BOOT holds {held}\n{back}{counts}", steps.iter().map(Step::line).collect::<String>())
    };
    Ok(Said { out, notes, status })
}
