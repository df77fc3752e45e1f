//! How often each call gave each answer, and what has to be met in a run.
use crate::call::{Call, LentFlash};
use crate::critical::{kinds, Class};
use crate::inputs::{other_covers, TYPES};
use crate::reference::{next_tag, sum, Geometry, HEADER, NAMES, NEW, SUCCESS, TESTING, UPDATING};
use crate::sealed::{note_of, places_of_21, refused_21, Way, MISSING_HINT, PAIRS};
use std::collections::{BTreeMap, BTreeSet};

#[derive(Default)]
pub struct Tally {
    /// By call and answer.
    answers: BTreeMap<String, u64>,
    /// By call and buffer, then by what is wrong with its length.
    lengths: BTreeMap<String, BTreeMap<&'static str, u64>>,
    /// By the situation of a tag that the reader does not know with what was answered, and by its type: the places at which it stood.
    types: BTreeMap<(String, u16), BTreeSet<usize>>,
    /// By what was answered at places: these.
    places: BTreeMap<String, BTreeSet<usize>>,
}

impl Tally {
    /// Counts a call: as it was asked, its answer, and as it was left.
    pub fn add(&mut self, asked: &Call, number: u32, after: &Call) {
        for what in answers(asked, number, after) {
            *self.answers.entry(format!("{}: {what}", asked.name())).or_insert(0) += 1;
        }
        for (buffer, length, right) in asked.lengths() {
            if length != right {
                let wrong = self.lengths.entry(format!("{}: {buffer}", asked.name())).or_default();
                *wrong.entry(wrong_length(length, right)).or_insert(0) += 1;
            }
        }
    }

    /// Counts something that a call alone does not show.
    pub fn note(&mut self, what: &str) {
        *self.answers.entry(what.to_string()).or_insert(0) += 1;
    }

    /// Counts what was answered to a tag of this type at this place; 0 if the place has no say.
    pub fn note_type(&mut self, what: &str, kind: u16, place: usize) {
        self.note(&format!("type {}, {what}", Class::of(kind).name()));
        self.types.entry((what.to_string(), kind)).or_default().insert(place);
    }

    /// Counts what was answered at this place.
    pub fn note_place(&mut self, what: &str, place: usize) {
        self.note(what);
        self.places.entry(what.to_string()).or_default().insert(place);
    }

    pub fn print(&self) {
        for (what, times) in &self.answers {
            let places = self.places.get(what).map_or(String::new(), |all| format!(", {} places", all.len()));
            println!("{times:9} {what}{places}");
        }
        println!("  wrong lengths (refused 1):");
        for (buffer, wrong) in &self.lengths {
            let all: Vec<String> = wrong.iter().map(|(what, times)| format!("{times} {what}")).collect();
            println!("    {buffer}: {}", all.join(", "));
        }
    }

    /// What was never met of what the damaged images have to meet.
    pub fn missing_of_covers(&self) -> Vec<String> {
        let mut all: Vec<String> = covers_to_meet().into_iter().filter(|what| !self.answers.contains_key(what)).collect();
        for (side, numbers) in [("before", 2..=9), ("behind", 4..=8)] {
            for what in numbers.chain([18]).map(|n| format!("refused {n}")) {
                let met = |key: &String| key.starts_with(&format!("damaged {side} the digest, in ")) && key.ends_with(&what);
                if !self.answers.keys().any(met) {
                    all.push(format!("damaged {side} the digest: {what}"));
                }
            }
        }
        all
    }

    /// What was never met of what each type that the reader does not know has to meet.
    pub fn missing_of_critical(&self) -> Vec<String> {
        let mut all = Vec::new();
        for (kind, situation, due) in critical_to_meet() {
            let what = format!("{situation}: {due}");
            match self.types.get(&(what.clone(), kind)) {
                None => all.push(format!("type {kind:04X}, {what}")),
                Some(places) if situation == EVERY_PLACE => {
                    let missing = places_of(kind).filter(|place| !places.contains(place));
                    all.extend(missing.map(|place| format!("type {kind:04X}, {what}, at {place}")));
                }
                Some(_) => {}
            }
        }
        all
    }

    /// What was never met of what mending has to meet.
    pub fn missing_of_mends(&self) -> Vec<String> {
        MENDS.iter().filter(|what| !self.answers.contains_key(**what)).map(|what| what.to_string()).collect()
    }

    /// What was never met of what the erase counts have to meet.
    pub fn missing_of_counts(&self) -> Vec<String> {
        let all =
            ["power_up_counted", "arm_counted"].iter().flat_map(|call| COUNTS.iter().map(move |what| format!("{call}: {what}")));
        let power_ups = COUNTED_POWER_UPS.iter().map(|what| format!("power_up_counted: {what}"));
        all.chain(power_ups).filter(|what| !self.answers.contains_key(what)).collect()
    }

    /// What was never met of what the lists there and back have to meet, with the plain power-up and with the counted one.
    pub fn missing_of_back(&self) -> Vec<String> {
        let all =
            ["", " with counts"].iter().flat_map(|counts| BACK.iter().map(move |what| format!("there and back{counts}: {what}")));
        all.filter(|what| !self.answers.contains_key(what)).collect()
    }

    /// What was never met of what the sealed profile has to meet: the answers to each header that is made for one, and each place of 21.
    pub fn missing_of_sealed(&self) -> Vec<String> {
        let mut all: Vec<String> = sealed_to_meet().into_iter().filter(|what| !self.answers.contains_key(what)).collect();
        for has_hint in [true, false] {
            let what = refused_21(has_hint);
            let met = |place: &usize| self.places.get(what).map_or(false, |places| places.contains(place));
            all.extend(places_of_21(has_hint).into_iter().filter(|place| !met(place)).map(|place| format!("{what}, at {place}")));
        }
        all
    }

    /// What was never met of the answers that can be met, and of the wrong lengths.
    pub fn missing(&self) -> Vec<String> {
        let answers = answers_to_meet().into_iter().filter(|what| !self.answers.contains_key(what));
        let met = |buffer: &str, wrong: &str| self.lengths.get(buffer).map_or(false, |all| all.contains_key(wrong));
        let lengths = lengths_to_meet().into_iter().filter(|(buffer, wrong)| !met(buffer, wrong));
        answers.chain(lengths.map(|(buffer, wrong)| format!("{buffer} {wrong}"))).collect()
    }
}

// ---- what is counted

fn answered(number: u32) -> String {
    match number {
        0 => "done".to_string(),
        n => format!("refused {n:2}"),
    }
}

fn wrong_length(length: usize, right: usize) -> &'static str {
    if length == 0 {
        "empty"
    } else if length + 1 == right {
        "one too short"
    } else if length == right + 1 {
        "one too long"
    } else if length < right {
        "too short"
    } else {
        "too long"
    }
}

/// What is special in a header that was read.
fn of_header(input: &[u8]) -> Vec<String> {
    let mut all = Vec::new();
    let (mut p, mut widest, mut kinds) = (8, 0, Vec::new());
    while let Ok(Some((at, kind, length))) = next_tag(input, p) {
        widest = widest.max(at - p);
        kinds.push(kind);
        p = at + 4 + length;
    }
    if widest > 3 {
        all.push("done, padding of more than 3 before a tag".to_string());
    }
    if input[p..HEADER - 2].iter().all(|b| *b == 0xFF) {
        all.push("done, end at 254".to_string());
    }
    if kinds.iter().any(|kind| !TYPES.contains(kind)) {
        all.push("done, with other tags".to_string());
    }
    if kinds.contains(&0x1000) {
        all.push("done, with a hint".to_string());
    }
    all
}

/// Whether a header that the reader takes and that is not sealed has a hint, and where it is refused without one.
fn of_not_sealed(input: &[u8], place: u64) -> &'static str {
    let (mut p, mut has_hint) = (8, false);
    while let Ok(Some((at, kind, length))) = next_tag(input, p) {
        has_hint |= kind == 0x1000;
        p = at + 4 + length;
    }
    match place {
        _ if has_hint => "refused 21 with a hint",
        138 => "refused 21 without a hint, at 138",
        _ => "refused 21 without a hint, before 138",
    }
}

/// A tag by its type, or the end.
fn of_tag(row: &[u64]) -> String {
    match row[3] as u16 {
        _ if row[1] == 0 => "end",
        kind if TYPES.contains(&kind) => "tag of the table",
        0..=0x7FFF => "tag that is skipped",
        _ => "tag that must be understood",
    }
    .to_string()
}

fn of_power_up(number: u32, row: &[u64]) -> Vec<String> {
    let outcome = ["refused", "cut", "run", "run on test", "run, fallen back"][row[0] as usize];
    let mut all = match number {
        0 => vec![outcome.to_string()],
        12 | 13 => vec![format!("refused {number} for {}", row[2])],
        n => vec![answered(n)],
    };
    if number == 12 && row[1] > 0 {
        all.push("refused 12 after operations".to_string());
    }
    if row[4] > 0 {
        let beside = if number == 12 { "refused 12" } else { outcome };
        all.push(format!("turned down for {:2}", row[4]));
        all.push(format!("turned down, {beside}"));
    }
    all
}

fn status(partition: &[u8]) -> Option<&'static str> {
    match *partition.last()? {
        NEW => Some("NEW"),
        UPDATING => Some("UPDATING"),
        TESTING => Some("TESTING"),
        SUCCESS => Some("SUCCESS"),
        _ => None,
    }
}

/// What mending found, or which statuses it was refused for.
fn of_mend(flash: &LentFlash, number: u32, row: &[u64]) -> Vec<String> {
    let mut all = vec![answered(number)];
    let (boot, update) = (status(&flash.boot), status(&flash.update));
    match number {
        0 => {
            all.push(match row[1] {
                0 => "done, mark all 0".to_string(),
                flag => format!("done, mark {flag:X}"),
            });
            all.push(if row[2] == 0 { "done, no byte changed" } else { "done, bytes changed" }.to_string());
        }
        10 => {
            let wrong = if boot.map_or(true, |b| b == "UPDATING") { "BOOT" } else { "UPDATE" };
            all.push(format!("refused 10 for {wrong}"));
        }
        14 => all.push(format!("refused 14 for {} and {}", boot.unwrap_or("?"), update.unwrap_or("?"))),
        _ => {}
    }
    all
}

/// The part of the flash that a place of the row is for.
fn area_of_place(g: Geometry, place: usize) -> &'static str {
    if place == g.n - 1 {
        "BOOT's trailer"
    } else if place < g.n {
        "BOOT"
    } else if place == 2 * g.n - 1 {
        "UPDATE's trailer"
    } else if place < 2 * g.n {
        "UPDATE"
    } else {
        "SWAP"
    }
}

/// What a counted call did to the row, or why its counts were refused. The row has the right length.
fn of_counts(g: Geometry, number: u32, row: &[u32], total: u64, after: &[u32]) -> Vec<String> {
    let most = u32::MAX - g.m() as u32;
    let (before, left) = (sum(row), sum(after));
    let highest = row.iter().max().copied().unwrap_or(0);
    let mut all = Vec::new();
    if number == 19 {
        all.push(if total == before.wrapping_sub(1) {
            "refused 19, one too low"
        } else if total == before + 1 {
            "refused 19, one too high"
        } else if total == before & 0xFFFF_FFFF {
            "refused 19, the low half of the sum"
        } else {
            "refused 19, another total"
        });
        if highest > most {
            all.push("refused 19, a count too high");
        }
    } else if number != 20 {
        all.push(if left > before { "erases counted" } else { "no erase" });
        let others = [
            (highest == most, "a count as high as may be"),
            (left > before && after.contains(&u32::MAX), "a count becomes 4294967295"),
            (total > 0xFFFF_FFFF, "a total above 32 bits"),
            (number == 12 && left > before, "refused 12, erases counted"),
        ];
        all.extend(others.iter().filter(|(is_so, _)| *is_so).map(|(_, what)| *what));
    }
    let mut all: Vec<String> = all.iter().map(|what| what.to_string()).collect();
    if number == 20 {
        let above: Vec<usize> = (0..row.len()).filter(|i| row[*i] > most).collect();
        if let [place] = above[..] {
            all.push(format!("refused 20 for {} alone", area_of_place(g, place)));
        }
        if highest == most + 1 {
            all.push("refused 20, one too high".to_string());
        }
    }
    all
}

/// What is special in a sheet that was read, or which name it was refused for.
fn of_sheet(text: &[u8], number: u32, place: u64) -> Vec<String> {
    match number {
        0 => {
            let mut all = Vec::new();
            if text.last() != Some(&b'\n') {
                all.push("done, without the last line's end".to_string());
            }
            let hint = |line: &[u8]| line.starts_with(b"hint ") && line != b"hint no";
            if text.split(|c| *c == b'\n').any(hint) {
                all.push("done, with a hint".to_string());
            }
            all
        }
        103 | 104 => {
            let line = text.split(|c| *c == b'\n').nth(place as usize - 1).unwrap_or(b"");
            let name = line.split(|c| *c == b' ').next().unwrap_or(b"");
            vec![format!("refused {number} for {}", String::from_utf8_lossy(name))]
        }
        105 => {
            let name = NAMES.iter().find(|(_, kind)| *kind == place).map_or("no name", |(name, _)| name);
            vec![format!("refused 105 for {name}")]
        }
        _ => vec![],
    }
}

/// The ends of a geometry's rules: the most sectors, a trailer that fills its sector, and one that is a byte too long.
fn of_geometry(g: Geometry, number: u32) -> Option<&'static str> {
    match (g.n, g.s, number) {
        (512, 256, 1) => Some("refused 1 for the trailer"),
        (_, _, 1) => None,
        (512, _, _) => Some("of 512 sectors"),
        (511, 256, _) => Some("of 511 sectors, the trailer full"),
        _ => None,
    }
}

fn answers(asked: &Call, number: u32, after: &Call) -> Vec<String> {
    let mut all = match after {
        Call::PowerUp { answer, .. } if answer.len() == 6 => of_power_up(number, answer),
        Call::PowerUpCounted { answer, .. } if answer.len() == 7 => of_power_up(number, &answer[..6]),
        Call::Mend { flash, numbers, .. } if numbers.len() == 3 => of_mend(flash, number, numbers),
        Call::NextTag { tag, .. } if number == 0 => vec![of_tag(tag)],
        _ => vec![answered(number)],
    };
    if let (Call::ReadHeader { input, .. }, 0) = (asked, number) {
        all.extend(of_header(input));
    }
    if let (Call::ReadSealed { input, numbers, .. }, 21) = (after, number) {
        all.push(of_not_sealed(input, numbers[0]).to_string());
    }
    if let (Call::ReadSheet { text, numbers, .. }, true) = (after, number != 1) {
        all.extend(of_sheet(text, number, numbers[0]));
    }
    if let (Call::CheckFirmware { image, numbers, .. }, 0) = (after, number) {
        let behind = if image.len() as u64 > HEADER as u64 + numbers[1] { "bytes" } else { "nothing" };
        all.push(format!("done, {behind} behind the firmware"));
    }
    match (asked, after) {
        (Call::PowerUpCounted { g, row, total, .. }, Call::PowerUpCounted { row: left, .. })
        | (Call::ArmCounted { g, row, total, .. }, Call::ArmCounted { row: left, .. })
            if number != 1 =>
        {
            all.extend(of_counts(*g, number, row, *total, left));
        }
        _ => {}
    }
    if let Some(what) = asked.geometry().and_then(|g| of_geometry(g, number)) {
        all.push(what.to_string());
    }
    if asked.is_long() && number != 1 {
        all.push("on long buffers".to_string());
    }
    all
}

// ---- what has to be met

/// Of both calls that count erases.
const COUNTS: [&str; 21] = [
    "refused  1",
    "refused 10",
    "refused 19",
    "refused 20",
    "refused 19, one too low",
    "refused 19, one too high",
    "refused 19, the low half of the sum",
    "refused 19, another total",
    "refused 19, a count too high",
    "refused 20, one too high",
    "refused 20 for BOOT alone",
    "refused 20 for BOOT's trailer alone",
    "refused 20 for UPDATE alone",
    "refused 20 for UPDATE's trailer alone",
    "refused 20 for SWAP alone",
    "erases counted",
    "no erase",
    "a count as high as may be",
    "a total above 32 bits",
    "of 512 sectors",
    "of 511 sectors, the trailer full",
];

/// Of the power-ups alone.
const COUNTED_POWER_UPS: [&str; 10] = [
    "cut",
    "run",
    "run on test",
    "run, fallen back",
    "refused 11",
    "refused 12, erases counted",
    "refused 13 for 9",
    "turned down, cut",
    "turned down, run",
    "a count becomes 4294967295",
];

/// Of the updates that fall back: the bound of both halves together is met, power is lost at the very end of each, and behind them
/// nothing changes.
const BACK: [&str; 11] = [
    "as many operations as the bound, no early end",
    "as many operations as the bound, early ends in the update",
    "as many operations as the bound, early ends in the fallback",
    "as many operations as the bound, early ends in both halves",
    "one operation less than the bound, from BOOT NEW",
    "power lost with the update's last bytes standing",
    "power lost with the fallback's last bytes standing",
    "run at rest",
    "refused 1 at rest",
    "power lost at rest",
    "armed again at rest",
];

/// Of the mends that follow an exchange, beside the random ones.
const MENDS: [&str; 33] = [
    "mend: done, mark F",
    "mend: done, mark 7",
    "mend: done, mark 3",
    "mend: done, mark all 0",
    "mend: done, no byte changed",
    "mend: done, bytes changed",
    "mend: refused  1",
    "mend: refused 10 for BOOT",
    "mend: refused 10 for UPDATE",
    "mend: refused 14 for NEW and NEW",
    "mend: refused 14 for SUCCESS and NEW",
    "mend: refused 14 for TESTING and NEW",
    "mend: refused 14 for TESTING and UPDATING",
    "mend: refused 17",
    "mend: of 512 sectors",
    "mend: of 511 sectors, the trailer full",
    "mend: refused 1 for the trailer",
    "mended: where the exchange had come to",
    "mended: all 0, at the end of an exchange",
    "mended: one move back",
    "mended: in an earlier sector, images that end before it",
    "mended: flags that were well formed, but of another mark",
    "mended: beside an unused half byte that is not F",
    "mended: an image with its digest's tag at the front of a block",
    "mended: an image with its digest's tag within a block",
    "mended: an image whose last block lies in one sector",
    "mended: an image whose last block lies in two sectors",
    "mended: an image whose last block lies in the header and behind it, in one sector",
    "mended: an image whose last block lies in the header and behind it, in two sectors",
    "mended: an image that fills its last block",
    "mended: an image whose last block has room for its length",
    "mended: an image whose last block has no room for its length",
    "mended: an image that ends with its sector",
];

/// Of the sealed profile: how a header is made, and what is answered to it with a hint. Without one, 21 is answered in the place of 0.
const SEALED: [(&str, &[u32]); 29] = [
    ("another byte in the magic", &[2]),
    ("another byte in the size", &[0, 3]),
    ("another byte in a required type", &[4, 5, 8, 18]),
    ("another byte in a length", &[4, 5]),
    ("another byte in a value", &[0]),
    ("another byte in the end", &[4]),
    ("another byte behind the end", &[21]),
    ("the table's order", &[0]),
    ("the table's order, and padding", &[21]),
    ("another order, and padding", &[21]),
    ("padding in a gap", &[21]),
    ("padding in a gap, no room for the end", &[4, 7]),
    ("a skipped tag in a gap", &[21]),
    ("a skipped tag in a gap, no room for the end", &[4, 7]),
    ("a skipped tag in a gap, its low byte as written", &[21]),
    ("a skipped tag in a gap, its low byte as written, no room for the end", &[4, 7]),
    ("a type from 8000 up in a gap", &[18]),
    ("a type from 8000 up in a gap, no room for the end", &[18]),
    ("a tag behind the end", &[21]),
    ("256 bytes, as written", &[0]),
    ("256 bytes, with padding", &[21]),
    ("256 bytes, with another magic", &[2]),
    ("more bytes, as written", &[0]),
    ("more bytes, with padding", &[21]),
    ("more bytes, with another magic", &[2]),
    ("fewer bytes, as written", &[16]),
    ("fewer bytes, with padding", &[16]),
    ("fewer bytes, with another magic", &[16]),
    ("to write", &[0, 3, 16]),
];

fn sealed_to_meet() -> Vec<String> {
    let mut all: Vec<String> = MISSING_HINT.iter().chain(&PAIRS).map(|what| what.to_string()).collect();
    all.extend([18, 21].iter().map(|n| note_of(true, "another byte in the hint's type", *n)));
    all.push(note_of(true, "one of a pair", 0));
    for has_hint in [true, false] {
        let mut meet = |what: &str, n: u32| all.push(note_of(has_hint, what, if n == 0 && !has_hint { 21 } else { n }));
        for (what, numbers) in SEALED {
            numbers.iter().for_each(|n| meet(what, *n));
        }
        for way in Way::ALL {
            meet(way.name(), if way == Way::Not { 0 } else { 21 });
            way.refusals().iter().for_each(|n| meet(way.name(), *n));
        }
    }
    all
}

/// Of the images of which a byte is damaged, or whose digest covers something else.
fn covers_to_meet() -> Vec<String> {
    let (power_ups, mending) = ("refused in power-ups", "no mark fits");
    let damaged: [(&str, &[&str]); 14] = [
        ("before the digest, in the magic", &["refused 2", power_ups, mending]),
        ("before the digest, in the size", &["refused 3", "refused 9", power_ups, mending]),
        ("before the digest, in padding", &["refused 4", "refused 8", "refused 9", "refused 18", power_ups, mending]),
        (
            "before the digest, in a skipped tag",
            &["refused 4", "refused 6", "refused 8", "refused 9", "refused 18", power_ups, mending],
        ),
        (
            "before the digest, in a tag of the table",
            &["refused 4", "refused 5", "refused 8", "refused 9", "refused 18", power_ups, mending],
        ),
        ("in the digest's type or length", &["refused 4", "refused 5", "refused 8", "refused 18", power_ups, mending]),
        ("in the digest", &["refused 9", power_ups, mending]),
        ("behind the digest, in padding", &["good", "mended", "refused 4", "refused 18", power_ups, mending]),
        ("behind the digest, in a skipped tag", &["good", "mended", "refused 4", "refused 6", "refused 18", power_ups, mending]),
        (
            "behind the digest, in a tag of the table",
            &["good", "mended", "refused 5", "refused 8", "refused 18", power_ups, mending],
        ),
        ("behind the digest, in the end", &["good", "mended", "refused 4", "refused 18", power_ups, mending]),
        ("behind the digest, in what follows the end", &["good", "mended"]),
        ("in the firmware", &["refused 9", power_ups]),
        ("behind the firmware", &["good"]),
    ];
    let mut all: Vec<String> = (0..6).map(|rank| format!("good, {rank} tags of the table before the digest")).collect();
    all.push("a header that was made: good".to_string());
    for (part, answers) in damaged {
        all.extend(answers.iter().map(|what| format!("damaged {part}: {what}")));
    }
    all.extend(other_covers(&[0; 2 * HEADER], 8, 2 * HEADER).iter().map(|(what, _)| format!("a digest over {what}: refused 9")));
    all
}

/// To be met at every place where the tag can stand beside all the others.
const EVERY_PLACE: &str = "at a place";

/// Where a tag with the shortest value can stand with the end behind it: that value is a byte long if the type's low byte is FF.
fn places_of(kind: u16) -> std::ops::RangeInclusive<usize> {
    8..=HEADER - 6 - usize::from(Class::of(kind) == Class::Padding)
}

/// Of the types that the reader does not know: where the tag stands, what is answered if it is skipped, and if it must be understood.
const CRITICAL: [(&str, &str, &str); 48] = [
    ("alone, before the digest", "good", "refused 18"),
    ("alone, behind the digest", "good", "refused 18"),
    ("behind padding", "good", "refused 18"),
    ("repeated", "good", "refused 18"),
    ("between skipped tags", "good", "refused 18"),
    ("before another type from 8000 up", "refused 18", "refused 18"),
    ("behind another type from 8000 up", "refused 18", "refused 18"),
    ("behind the end", "good", "good"),
    ("in the value of a skipped tag", "good", "good"),
    ("in the signature", "good", "good"),
    (EVERY_PLACE, "good", "refused 18"),
    ("up to a last byte", "refused 4", "refused 18"),
    ("up to a byte of padding", "refused 7", "refused 18"),
    ("up to the header's end", "refused 7", "refused 18"),
    ("three bytes left", "refused 4", "refused 4"),
    ("two bytes left", "refused 4", "refused 4"),
    ("one byte left", "refused 4", "refused 4"),
    ("with a value that is too long", "refused 4", "refused 4"),
    ("before a tag that does not fit", "refused 4", "refused 18"),
    ("behind a tag that does not fit", "refused 4", "refused 4"),
    ("before a wrong length", "refused 5", "refused 18"),
    ("behind a wrong length", "refused 5", "refused 5"),
    ("before a tag and its repetition", "refused 6", "refused 18"),
    ("between a tag and its repetition", "refused 6", "refused 18"),
    ("behind a tag and its repetition", "refused 6", "refused 6"),
    ("without an end", "refused 7", "refused 18"),
    ("with a tag missing", "refused 8", "refused 18"),
    ("behind the end, with a tag missing", "refused 8", "refused 8"),
    ("with a wrong digest", "refused 9", "refused 18"),
    ("behind the end, with a wrong digest", "refused 9", "refused 9"),
    ("with a size too large", "refused 3", "refused 18"),
    ("behind the end, with a size too large", "refused 3", "refused 3"),
    ("with size 0", "refused 3", "refused 3"),
    ("with a wrong magic", "refused 2", "refused 2"),
    ("in too few bytes", "refused 16", "refused 16"),
    ("in a partition of another length", "refused 1", "refused 1"),
    ("as BOOT, at rest", "run", "refused 12 for 18"),
    ("as UPDATE, armed", "run on test", "turned down for 18, run"),
    ("as UPDATE, armed, without a budget", "cut", "turned down for 18, cut"),
    ("as UPDATE, to fall back to", "run, fallen back", "refused 13 for 18"),
    ("as BOOT, with an update armed", "run on test", "refused 12 for 18"),
    ("as BOOT and as UPDATE, armed", "turned down for 15, run", "turned down for 18, refused 12 for 18"),
    ("as UPDATE, in an update that goes on", "run on test", "refused 12 for 18 after operations"),
    ("as BOOT, in an update that goes on", "run on test", "run on test"),
    ("as UPDATE, in a fallback that goes on", "run, fallen back", "refused 12 for 18 after operations"),
    ("to mend, the header in BOOT", "mended", "no mark fits"),
    ("to mend, the header in UPDATE", "mended", "no mark fits"),
    ("to mend, the header in SWAP", "mended", "no mark fits"),
];

/// Each type that the reader does not know, where its tag stands, and what has to be answered.
fn critical_to_meet() -> Vec<(u16, &'static str, &'static str)> {
    let mut all = Vec::new();
    for kind in kinds() {
        for (situation, skipped, understood) in CRITICAL {
            let due = match Class::of(kind) {
                Class::Critical => understood,
                // Padding is all that is left of it.
                Class::Padding if situation == "one byte left" => "refused 7",
                _ => skipped,
            };
            all.push((kind, situation, due));
        }
        if Class::of(kind) == Class::Padding {
            all.push((kind, "in the walk", "not given"));
            all.push((kind, "with a length below 80", "good"));
            all.push((kind, "with a length from 80 up", "refused 18"));
        } else {
            all.push((kind, "in the walk", "given"));
        }
    }
    all
}

fn answers_to_meet() -> Vec<String> {
    let numbers: [(&str, &[u32]); 16] = [
        ("sha256", &[0, 1]),
        ("read_header", &[0, 1, 2, 3, 4, 5, 6, 7, 8, 16, 18]),
        ("write_header", &[0, 1, 3, 16]),
        ("read_sealed", &[0, 1, 2, 3, 4, 5, 6, 7, 8, 16, 18, 21]),
        ("write_sealed", &[0, 1, 3, 16, 21]),
        ("make_header", &[0, 1, 3, 16]),
        ("next_tag", &[1, 4, 7, 16]),
        ("read_sheet", &[0, 1, 101, 102, 103, 104]),
        ("check_image", &[0, 1, 2, 3, 4, 5, 6, 7, 8, 9, 18]),
        ("check_firmware", &[0, 1, 2, 3, 4, 5, 6, 7, 8, 9, 16, 18]),
        ("power_up", &[1, 10, 11]),
        ("arm", &[0, 1, 10, 14]),
        ("confirm", &[0, 1, 10, 11, 14]),
        ("mend", &[0, 1, 10, 14, 17]),
        ("power_up_counted", &[1, 10, 11, 19, 20]),
        ("arm_counted", &[0, 1, 10, 14, 19, 20]),
    ];
    let others = [
        "next_tag: tag of the table",
        "next_tag: tag that is skipped",
        "next_tag: tag that must be understood",
        "next_tag: end",
        "read_header: done, padding of more than 3 before a tag",
        "read_header: done, end at 254",
        "read_header: done, with other tags",
        "read_header: done, with a hint",
        "read_sealed: refused 21 with a hint",
        "read_sealed: refused 21 without a hint, at 138",
        "read_sealed: refused 21 without a hint, before 138",
        "read_sheet: done, with a hint",
        "read_sheet: done, without the last line's end",
        "check_firmware: done, nothing behind the firmware",
        "check_firmware: done, bytes behind the firmware",
    ];
    let power_ups = [
        "cut",
        "run",
        "run on test",
        "run, fallen back",
        "refused 12 after operations",
        "turned down for 15",
        "turned down, cut",
        "turned down, run",
        "turned down, refused 12",
    ];
    let mut all: Vec<String> = others.iter().map(|what| what.to_string()).collect();
    for call in ["power_up", "power_up_counted"] {
        all.extend(power_ups.iter().map(|what| format!("{call}: {what}")));
    }
    for (call, answers) in numbers {
        all.push(format!("{call}: on long buffers"));
        all.extend(answers.iter().map(|n| format!("{call}: {}", answered(*n))));
    }
    for call in ["check_image", "power_up", "arm", "confirm", "mend", "power_up_counted", "arm_counted"] {
        for what in ["of 512 sectors", "of 511 sectors, the trailer full", "refused 1 for the trailer"] {
            all.push(format!("{call}: {what}"));
        }
    }
    for (name, _) in NAMES {
        all.push(format!("read_sheet: refused 105 for {name}"));
        all.push(format!("read_sheet: refused 103 for {name}"));
        all.push(format!("read_sheet: refused 104 for {name}"));
    }
    for inner in (2..=9).chain([18]) {
        for call in ["power_up", "power_up_counted"] {
            all.push(format!("{call}: refused 12 for {inner}"));
            all.push(format!("{call}: refused 13 for {inner}"));
            all.push(format!("{call}: turned down for {inner:2}"));
        }
    }
    all
}

fn lengths_to_meet() -> Vec<(String, &'static str)> {
    let buffers: [(&str, &[&str]); 16] = [
        ("sha256", &["digest"]),
        ("read_header", &["numbers", "bytes"]),
        ("write_header", &["bytes", "place"]),
        ("read_sealed", &["numbers", "bytes"]),
        ("write_sealed", &["bytes", "place"]),
        ("make_header", &["bytes", "place"]),
        ("next_tag", &["tag"]),
        ("read_sheet", &["numbers", "bytes"]),
        ("check_image", &["partition", "numbers", "bytes"]),
        ("check_firmware", &["numbers", "bytes"]),
        ("power_up", &["boot", "update", "swap", "answer"]),
        ("arm", &["boot", "update", "swap", "count"]),
        ("confirm", &["boot", "update", "swap", "count"]),
        ("mend", &["boot", "update", "swap", "numbers"]),
        ("power_up_counted", &["boot", "update", "swap", "row", "answer"]),
        ("arm_counted", &["boot", "update", "swap", "row", "answer"]),
    ];
    let mut all = Vec::new();
    for (call, names) in buffers {
        for name in names {
            // A row of one number that is one too short is empty.
            let single = *name == "place" || *name == "count";
            let wrong = ["empty", "one too long", "too long", "one too short"];
            all.extend(wrong[..if single { 3 } else { 4 }].iter().map(|w| (format!("{call}: {name}"), *w)));
        }
    }
    all
}
