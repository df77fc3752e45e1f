//! Tags of types that the reader does not know, around 8000 and the last one: alone, at every place, and with every other fault that a
//! header or an image can have. Each header is read, walked over, checked, powered up and mended. What has to be answered follows from
//! how the header was put together, and the answers are held against that too.
use crate::call::{Call, Lent, LentFlash};
use crate::calls::walk;
use crate::covers::answered;
use crate::inputs::*;
use crate::random::Random;
use crate::reference::*;
use crate::report::Compare;

/// Sectors of which the first is the header alone, and one that holds all of an image. The largest firmware is as long in both.
const GEOMETRIES: [Geometry; 2] = [Geometry { n: 3, s: 256 }, Geometry { n: 2, s: 512 }];
const LARGEST: usize = 256;

/// The version of the images with the tag. There are an older and a newer one beside each.
const VERSION: u32 = 0x0203_0405;

/// What a type comes to.
#[derive(Clone, Copy, PartialEq, Eq)]
pub enum Class {
    Skipped,
    Critical,
    /// No tag has it: its low byte FF is padding, and its high byte the low one of another type.
    Padding,
}

impl Class {
    pub fn of(kind: u16) -> Self {
        match kind {
            0x7FF0..=0x7FFE => Class::Skipped,
            0x8000..=0x800F | 0xFFFE => Class::Critical,
            0x7FFF | 0x80FF => Class::Padding,
            _ => panic!("type {kind:04X} is not tried"),
        }
    }

    pub fn name(&self) -> &'static str {
        match self {
            Class::Skipped => "below 8000",
            Class::Critical => "from 8000 up",
            Class::Padding => "of low byte FF",
        }
    }
}

/// The types that are tried. A reader that takes FF for a low byte would skip 7FFF and refuse 80FF.
pub fn kinds() -> Vec<u16> {
    (0x7FF0..=0x800F).chain([0x80FF, 0xFFFE]).collect()
}

/// A number and its place, or zeros.
type Answered = (u32, u64);

const GOOD: Answered = (0, 0);

// ---- a header

/// A tag as the walk gives it: its place, type and length.
type Given = (usize, u16, usize);

/// A header that is put together from its front, and its firmware.
#[derive(Clone)]
struct Layout {
    b: Vec<u8>,
    firmware: Vec<u8>,
    digest: Option<usize>,
    /// What a walk gives, and how it ends, as soon as that is known.
    tags: Vec<Given>,
    ends: Option<Answered>,
}

fn length_of(tags: &[Tag]) -> usize {
    tags.iter().map(|(_, value)| 4 + value.len()).sum()
}

impl Layout {
    fn new(size: u32, firmware: Vec<u8>) -> Self {
        Layout { b: [&MAGIC[..], &size.to_le_bytes()].concat(), firmware, digest: None, tags: Vec::new(), ends: None }
    }

    fn pad(&mut self, n: usize) {
        self.b.resize(self.b.len() + n, 0xFF);
    }

    /// Puts a tag, and says where it begins. One whose low byte is FF has a first byte of value that is 0, and others FF: it is padding
    /// around another tag, which is empty.
    fn put(&mut self, (kind, value): &Tag) -> usize {
        let at = self.b.len();
        put_tag(&mut self.b, *kind, value.len() as u16, value);
        if self.ends.is_none() {
            self.tags.push(match kind & 0xFF {
                0xFF => (at + 1, kind >> 8 | (value.len() as u16) << 8, 0),
                _ => (at, *kind, value.len()),
            });
        }
        if *kind == 0x0003 && value.len() == 32 {
            self.digest = Some(at);
        }
        at
    }

    fn put_all(&mut self, tags: &[Tag]) {
        for tag in tags {
            self.put(tag);
        }
    }

    /// Puts as much as there is room for of a tag that does not fit, and says where it begins.
    fn put_too_long(&mut self, kind: u16, length: u16) -> usize {
        let at = self.b.len();
        put_tag(&mut self.b, kind, length, &[]);
        self.b.truncate(HEADER);
        let padding = usize::from(kind & 0xFF == 0xFF);
        let left = at + padding < HEADER;
        self.ends = self.ends.or(Some(if left { (4, (at + padding) as u64) } else { (7, 256) }));
        at
    }

    fn end(&mut self) {
        self.b.extend_from_slice(&[0, 0]);
        self.ends = self.ends.or(Some(GOOD));
    }

    /// How a walk ends: without an end, at the end of the padding that fills the header.
    fn walk_ends(&self) -> Answered {
        self.ends.unwrap_or((7, 256))
    }

    /// The image, with this byte up to the firmware and a right digest.
    fn image(&self, rest: u8) -> Vec<u8> {
        assert!(self.b.len() <= HEADER, "a header of {} bytes", self.b.len());
        let mut image = self.b.clone();
        image.resize(HEADER, if self.ends.is_none() { 0xFF } else { rest });
        image.extend_from_slice(&self.firmware);
        if let Some(at) = self.digest {
            let end = image.len();
            sign(&mut image, at, end);
        }
        image
    }
}

/// As many of these tags as there is room for before a place, and the others.
fn split(tags: Vec<Tag>, mut room: usize) -> (Vec<Tag>, Vec<Tag>) {
    tags.into_iter().partition(|(_, value)| {
        let fits = 4 + value.len() <= room;
        if fits {
            room -= 4 + value.len();
        }
        fits
    })
}

// ---- what is asked

/// A file to try, and what has to be answered: in the walk, by the reader, and by the image check.
struct Made<'a> {
    situation: &'a str,
    image: Vec<u8>,
    tags: Vec<Given>,
    walk_ends: Answered,
    read: Answered,
    check: Answered,
    /// The tag is read, and nothing else is wrong.
    by_the_tag: bool,
}

/// Partitions with the image, and with good ones that are older and newer.
struct Partitions {
    g: Geometry,
    image: Vec<u8>,
    older: Vec<u8>,
    newer: Vec<u8>,
}

/// What a power-up answers, and its row.
type Row = (u32, [u64; 6]);

const CUT: u64 = 1;
const RUN: u64 = 2;
const ON_TEST: u64 = 3;
const FALLEN_BACK: u64 = 4;

const ARMED: (u8, u8) = (SUCCESS, UPDATING);
const AT_REST: (u8, u8) = (SUCCESS, NEW);
const UNCONFIRMED: (u8, u8) = (TESTING, NEW);

fn done(outcome: u64, count: u64) -> Row {
    (0, [outcome, count, 0, 0, 0, 0])
}

/// A power-up on BOOT and UPDATE with these statuses, after so many legs of an exchange, and what has to be answered if the image with the
/// tag is good, and if it is bad.
struct PowerUp<'a> {
    role: &'static str,
    images: (&'a [u8], &'a [u8]),
    statuses: (u8, u8),
    legs: usize,
    budget: u64,
    good: Row,
    bad: Row,
}

impl<'a> PowerUp<'a> {
    fn new(role: &'static str, images: (&'a [u8], &'a [u8]), statuses: (u8, u8), good: Row, bad: Row) -> Self {
        PowerUp { role, images, statuses, legs: 0, budget: u64::MAX, good, bad }
    }
}

/// The answer of a power-up in words.
fn in_words((number, row): Row) -> String {
    let mut text = ["refused", "cut", "run", "run on test", "run, fallen back"][row[0] as usize].to_string();
    if number != 0 {
        text = format!("refused {number} for {}", row[2]);
    }
    match row[4] {
        0 if number != 0 && row[1] > 0 => format!("{text} after operations"),
        0 => text,
        reason => format!("turned down for {reason}, {text}"),
    }
}

/// A type that is tried.
struct Trial<'a> {
    c: &'a mut Compare,
    r: &'a mut Random,
    kind: u16,
    headers: u64,
}

impl Trial<'_> {
    fn note(&mut self, situation: &str, answer: &str, place: usize) {
        self.c.tally.note_type(&format!("{situation}: {answer}"), self.kind, place);
    }

    fn expect<T: PartialEq + std::fmt::Debug>(&self, situation: &str, answer: T, due: T, call: &Call) {
        if answer != due {
            self.c.fail(&format!("type {:04X}, {situation}: {answer:?}, and not {due:?}", self.kind), &[call]);
        }
    }

    /// Asks the reader or an image check, which has to answer this number and place.
    fn ask(&mut self, situation: &str, call: Call, due: Answered) {
        let (number, after) = self.c.call(call);
        let place = match &after {
            Call::ReadHeader { numbers, .. } | Call::CheckFirmware { numbers, .. } | Call::CheckImage { numbers, .. } => {
                numbers[0]
            }
            _ => unreachable!(),
        };
        self.expect(situation, (number, place), due, &after);
    }

    fn read(&mut self, made: &Made) {
        let header = &made.image[..made.image.len().min(HEADER)];
        let input = Lent::new(if self.r.one_in(2) { header } else { &made.image });
        let call = Call::ReadHeader { input, numbers: Lent::new(&[7; 6]), bytes: Lent::new(&[7; 128]) };
        self.ask(made.situation, call, made.read);
    }

    /// The walk gives each tag, of whatever type, then its end or refusal, and that once more.
    fn walk(&mut self, made: &Made) {
        let rows = walk(self.c, self.r, &made.image);
        let (tags, ends) = rows.split_at(rows.len() - 2);
        let given: Vec<Given> = tags.iter().map(|(_, row)| (row[2] as usize, row[3] as u16, row[4] as usize)).collect();
        let ends: Vec<Answered> = ends.iter().map(|(number, row)| (*number, row[0])).collect();
        let call = Call::NextTag { input: Lent::new(&made.image), at: 8, tag: Lent::new(&[]) };
        self.expect(made.situation, (&given, ends), (&made.tags, vec![made.walk_ends; 2]), &call);
        if made.by_the_tag {
            let is_given = given.iter().any(|(_, kind, _)| *kind == self.kind);
            self.note("in the walk", if is_given { "given" } else { "not given" }, 0);
        }
    }

    fn check_firmware(&mut self, made: &Made) {
        let image = Lent::new(&made.image);
        let call = Call::CheckFirmware { image, numbers: Lent::new(&[7; 6]), bytes: Lent::new(&[7; 128]) };
        self.ask(made.situation, call, made.check);
    }

    fn check_image(&mut self, situation: &str, g: Geometry, partition: &[u8], due: Answered) {
        let partition = Lent::new(partition);
        let call = Call::CheckImage { g, partition, numbers: Lent::new(&[7; 6]), bytes: Lent::new(&[7; 128]) };
        self.ask(situation, call, due);
    }

    fn power_up(&mut self, made: &Made, g: Geometry, p: &PowerUp) {
        let mut f = Flash { boot: p.images.0.to_vec(), update: p.images.1.to_vec(), swap: self.r.bytes(g.s) };
        set_trailers(g, &mut f, p.statuses.0, p.statuses.1, true);
        do_legs(g, &mut f, p.legs);
        let call = Call::PowerUp { g, flash: LentFlash::new(&f), budget: p.budget, answer: Lent::new(&[7; 6]) };
        let (number, after) = self.c.call(call);
        if let Call::PowerUp { answer, .. } = &after {
            let row: Row = (number, answer[..].try_into().unwrap());
            let due = if made.check == GOOD { p.good } else { p.bad };
            self.expect(&format!("{}, {}", made.situation, p.role), row, due, &after);
            if made.by_the_tag {
                self.note(p.role, &in_words(row), 0);
            }
        }
    }

    /// Power-ups to which the image is the one to run, the update, and the one to fall back to; and another one.
    fn power_ups(&mut self, made: &Made, p: &Partitions) {
        let (image, older, newer) = (&p.image[..], &p.older[..], &p.newer[..]);
        let (n, at) = (made.check.0 as u64, made.check.1);
        let legs = self.r.within(1, 3 * p.g.m());
        let (all, left) = (9 * p.g.m() as u64, 3 * (3 * p.g.m() - legs) as u64);
        let refused = |number, count| (number, [0, count, n, at, 0, 0]);
        let turned_down = |outcome, count| (0, [outcome, count, 0, 0, n, at]);
        let rest = PowerUp::new("as BOOT, at rest", (image, newer), AT_REST, done(RUN, 0), refused(12, 0));
        let update = PowerUp::new("as UPDATE, armed", (older, image), ARMED, done(ON_TEST, all + 3), turned_down(RUN, 1));
        let (role, good) = ("as UPDATE, to fall back to", done(FALLEN_BACK, all + 1));
        let fallback = PowerUp::new(role, (newer, image), UNCONFIRMED, good, refused(13, 0));
        let other = match self.r.below(6) {
            0 => {
                let role = "as UPDATE, armed, without a budget";
                PowerUp { budget: 0, ..PowerUp::new(role, (older, image), ARMED, done(CUT, 0), turned_down(CUT, 0)) }
            }
            1 => {
                let role = "as BOOT, with an update armed";
                PowerUp::new(role, (image, newer), ARMED, done(ON_TEST, all + 3), refused(12, 0))
            }
            2 => {
                let (good, bad) = ((0, [RUN, 1, 0, 0, 15, 0]), (12, [0, 1, n, at, n, at]));
                PowerUp::new("as BOOT and as UPDATE, armed", (image, image), ARMED, good, bad)
            }
            3 => {
                let (good, bad) = (done(ON_TEST, left + 3), refused(12, left + 3));
                PowerUp { legs, ..PowerUp::new("as UPDATE, in an update that goes on", (older, image), ARMED, good, bad) }
            }
            4 => {
                let both = done(ON_TEST, left + 3);
                PowerUp { legs, ..PowerUp::new("as BOOT, in an update that goes on", (image, newer), ARMED, both, both) }
            }
            _ => {
                let (good, bad) = (done(FALLEN_BACK, left + 1), refused(12, left + 1));
                PowerUp { legs, ..PowerUp::new("as UPDATE, in a fallback that goes on", (newer, image), UNCONFIRMED, good, bad) }
            }
        };
        for one in [rest, update, fallback, other] {
            self.power_up(made, p.g, &one);
        }
    }

    /// An exchange with the older image or with the newer one, that lost power between any two legs, and its flags.
    fn mend(&mut self, made: &Made, p: &Partitions) {
        let is_boot = self.r.one_in(2);
        let (boot, update) = if is_boot { (&p.image, &p.newer) } else { (&p.older, &p.image) };
        let mut f = Flash { boot: boot.clone(), update: update.clone(), swap: self.r.bytes(p.g.s) };
        let status = self.r.pick(&[NEW, SUCCESS]);
        set_trailers(p.g, &mut f, status, UPDATING, true);
        do_legs(p.g, &mut f, self.r.within(0, 3 * p.g.m()));
        let (old_boot, old_update) = old_places(f.flag(p.g, 0));
        let role = match if is_boot { old_boot } else { old_update } {
            Area::Boot => "to mend, the header in BOOT",
            Area::Update => "to mend, the header in UPDATE",
            Area::Swap => "to mend, the header in SWAP",
        };
        spoil_flags(self.r, p.g, &mut f);
        let (number, after) = self.c.call(Call::Mend { g: p.g, flash: LentFlash::new(&f), numbers: Lent::new(&[7; 3]) });
        self.expect(&format!("{}, {role}", made.situation), number, if made.check == GOOD { 0 } else { 17 }, &after);
        if made.by_the_tag {
            self.note(role, if number == 0 { "mended" } else { "no mark fits" }, 0);
        }
    }

    /// Asks all of it.
    fn try_made(&mut self, made: &Made) {
        self.headers += 1;
        self.read(made);
        self.walk(made);
        self.check_firmware(made);
        if made.image.len() >= HEADER {
            let g = self.r.pick(&GEOMETRIES);
            let image = [&made.image[..], &self.r.bytes(g.n * g.s - made.image.len())].concat();
            self.check_image(made.situation, g, &image, made.check);
            let (older, newer) = (partition(self.r, g, VERSION - 1, 0), partition(self.r, g, VERSION + 1, 0));
            let partitions = Partitions { g, image, older, newer };
            self.power_ups(made, &partitions);
            self.mend(made, &partitions);
        }
    }

    /// Tries an image with a tag of this type. A reader that comes to the tag, at `at`, before any fault refuses it there if it must be
    /// understood; else the reader and the image check answer as stated.
    fn try_image(&mut self, situation: &str, l: &Layout, image: Vec<u8>, at: Option<usize>, read: Answered, check: Answered) {
        let by_the_tag = at.is_some() && check == GOOD;
        let (read, check) = match at {
            Some(at) if Class::of(self.kind) == Class::Critical => ((18, at as u64), (18, at as u64)),
            _ => (read, check),
        };
        self.try_made(&Made { situation, image, tags: l.tags.clone(), walk_ends: l.walk_ends(), read, check, by_the_tag });
        self.note(situation, &answered(check.0), at.unwrap_or(0));
    }

    /// The same of a header with any bytes behind its end, where reader and image check answer alike.
    fn try_header(&mut self, situation: &str, l: &Layout, at: Option<usize>, otherwise: Answered) {
        let any = self.r.next() as u8;
        let image = l.image(self.r.pick(&[0xFF, 0xFF, 0, any]));
        self.try_image(situation, l, image, at, otherwise, otherwise);
    }

    // ---- headers

    /// A tag of this type, with a value that is as long as asked for. If its low byte is FF, the value is one byte at least.
    fn tag(&mut self, length: usize) -> Tag {
        let value = match Class::of(self.kind) {
            Class::Padding => [vec![0], vec![0xFF; length.saturating_sub(1)]].concat(),
            _ => self.r.bytes(length),
        };
        (self.kind, value)
    }

    /// The front of a header, and the tags of the table in any order.
    fn begin(&mut self, hint: bool) -> (Layout, Vec<Tag>) {
        let size = self.r.within(1, LARGEST);
        let mut v = header(self.r, size as u32, VERSION);
        v.hint = hint.then(|| self.r.bytes(32).try_into().unwrap());
        let mut tags = table_tags(&v);
        shuffle(self.r, &mut tags);
        (Layout::new(size as u32, self.r.bytes(size)), tags)
    }

    /// Puts these in their order among the other tags, with a little padding before some. Where each of them begins.
    fn put_among(&mut self, l: &mut Layout, others: &[Tag], these: &[&Tag]) -> Vec<usize> {
        let mut before: Vec<usize> = these.iter().map(|_| self.r.within(0, others.len())).collect();
        before.sort_unstable();
        let (mut places, mut put) = (Vec::new(), 0);
        for (tag, before) in these.iter().zip(before) {
            l.put_all(&others[put..before]);
            put = before;
            l.pad(self.r.pick(&[0, 0, 1, 2]));
            places.push(l.put(tag));
        }
        l.put_all(&others[put..]);
        places
    }

    /// The tag among the others, or behind the end, and where it is read if it is.
    fn put_read_or_not(&mut self, l: &mut Layout, tags: &[Tag], is_read: bool) -> Option<usize> {
        let tag = self.tag(4);
        if is_read {
            let at = self.put_among(l, tags, &[&tag])[0];
            l.end();
            Some(at)
        } else {
            l.put_all(tags);
            l.end();
            l.put(&tag);
            None
        }
    }

    // ---- no other fault

    /// Before and behind each of the other tags, with values up to the longest that there is room for.
    fn alone(&mut self) {
        for hint in [false, true] {
            for before in 0..=5 + usize::from(hint) {
                for length in [0, 1, 4, 32, 64, HEADER] {
                    let (mut l, tags) = self.begin(hint);
                    l.put_all(&tags[..before]);
                    let room = HEADER - 8 - length_of(&tags) - 4 - 2;
                    let tag = self.tag(length.min(room));
                    let at = l.put(&tag);
                    let side = if l.digest.is_some() { "behind" } else { "before" };
                    l.put_all(&tags[before..]);
                    l.end();
                    self.try_header(&format!("alone, {side} the digest"), &l, Some(at), GOOD);
                }
            }
        }
    }

    fn behind_padding(&mut self) {
        for padding in [1, 2, 3, 4, 64, 111] {
            let (mut l, tags) = self.begin(false);
            let before = self.r.within(0, tags.len());
            l.put_all(&tags[..before]);
            l.pad(padding);
            let tag = self.tag(0);
            let at = l.put(&tag);
            l.put_all(&tags[before..]);
            l.end();
            self.try_header("behind padding", &l, Some(at), GOOD);
        }
    }

    /// Twice and three times, with the same value or with others.
    fn repeated(&mut self) {
        for lengths in [&[0, 0][..], &[4, 4], &[4, 9], &[1, 1, 1]] {
            for same in [false, true] {
                let (mut l, tags) = self.begin(true);
                let mut these: Vec<Tag> = lengths.iter().map(|length| self.tag(*length)).collect();
                if same {
                    let first = these[0].clone();
                    these.fill(first);
                }
                let these: Vec<&Tag> = these.iter().collect();
                let places = self.put_among(&mut l, &tags, &these);
                l.end();
                self.try_header("repeated", &l, Some(places[0]), GOOD);
            }
        }
    }

    /// Beside a tag of another type that is skipped, or that must be understood.
    fn beside_others(&mut self) {
        for _ in 0..4 {
            let mut critical = self.kind;
            while critical == self.kind {
                critical = critical_type(self.r);
            }
            let critical = (critical, self.r.bytes(3));
            let skipped = (skipped_type(self.r), self.r.bytes(3));
            let tag = self.tag(5);
            let (mut l, tags) = self.begin(true);
            let places = self.put_among(&mut l, &tags, &[&tag, &critical]);
            l.end();
            self.try_header("before another type from 8000 up", &l, Some(places[0]), (18, places[1] as u64));
            let (mut l, tags) = self.begin(true);
            let places = self.put_among(&mut l, &tags, &[&critical, &tag]);
            l.end();
            self.try_header("behind another type from 8000 up", &l, None, (18, places[0] as u64));
            let (mut l, tags) = self.begin(true);
            let places = self.put_among(&mut l, &tags, &[&skipped, &tag, &skipped]);
            l.end();
            self.try_header("between skipped tags", &l, Some(places[1]), GOOD);
        }
    }

    /// Where no tag is read: behind the end, and in the value of another tag.
    fn not_read(&mut self) {
        for length in [0, 1, 20, 100] {
            let (mut l, tags) = self.begin(false);
            l.put_all(&tags);
            l.end();
            l.pad(self.r.pick(&[0, 1]));
            let tag = self.tag(length);
            l.put(&tag);
            self.try_header("behind the end", &l, None, GOOD);

            let mut hidden = self.r.pick(&[&[][..], &[0xFF], &[0; 2]]).to_vec();
            put_tag(&mut hidden, self.kind, length as u16, &tag.1[..tag.1.len().min(20)]);
            let (mut l, tags) = self.begin(false);
            let skipped = (skipped_type(self.r), hidden.clone());
            self.put_among(&mut l, &tags, &[&skipped]);
            l.end();
            self.try_header("in the value of a skipped tag", &l, None, GOOD);

            let (mut l, mut tags) = self.begin(false);
            for (kind, value) in &mut tags {
                if *kind == 0x0020 {
                    value[..hidden.len()].copy_from_slice(&hidden);
                }
            }
            l.put_all(&tags);
            l.end();
            self.try_header("in the signature", &l, None, GOOD);
        }
    }

    /// What a low byte FF leaves: the high byte and the length's low one are a type, which must be understood if the length is from 80 up.
    fn low_byte_ff(&mut self) {
        for length in [0x7F, 0x80, 0xFE, 0xFF] {
            let (mut l, tags) = self.begin(true);
            let before = self.r.within(0, tags.len());
            l.put_all(&tags[..before]);
            let at = l.b.len() + 1;
            let high = (self.kind >> 8) as u8;
            l.b.extend_from_slice(&[0xFF, high, length, 0, 0]);
            l.tags.push((at, u16::from_le_bytes([high, length]), 0));
            l.put_all(&tags[before..]);
            l.end();
            if length < 0x80 {
                self.try_header("with a length below 80", &l, None, GOOD);
            } else {
                self.try_header("with a length from 80 up", &l, None, (18, at as u64));
            }
        }
    }

    // ---- every place

    /// The front of a header up to this place, with as many tags of the table as there is room for, and the other tags.
    fn up_to(&mut self, place: usize) -> (Layout, Vec<Tag>) {
        let hint = self.r.one_in(2);
        let (mut l, tags) = self.begin(hint);
        let (before, behind) = split(tags, place - 8);
        let gap = place - 8 - length_of(&before);
        if self.r.one_in(2) {
            l.pad(gap);
            l.put_all(&before);
        } else {
            l.put_all(&before);
            l.pad(gap);
        }
        (l, behind)
    }

    fn every_place(&mut self) {
        for place in 8..HEADER {
            let (mut l, behind) = self.up_to(place);
            let room = HEADER.saturating_sub(place + 4 + length_of(&behind) + 2);
            let any = self.r.within(0, room.min(100));
            let length = self.r.pick(&[0, any]);
            let tag = self.tag(length);
            let fits = place + 4 + tag.1.len() <= HEADER;
            let at = if fits { l.put(&tag) } else { l.put_too_long(self.kind, tag.1.len() as u16) };
            match HEADER - l.b.len() {
                _ if !fits => {
                    let left = ["one byte left", "two bytes left", "three bytes left"].get(HEADER - 1 - place);
                    self.try_header(left.unwrap_or(&"with a value that is too long"), &l, None, l.walk_ends());
                }
                0 => self.try_header("up to the header's end", &l, Some(at), (7, 256)),
                1 => {
                    self.try_header("up to a byte of padding", &l, Some(at), (7, 256));
                    for last in [0, 1, 0x80] {
                        let mut l = l.clone();
                        l.b.push(last);
                        l.ends = Some((4, 255));
                        self.try_header("up to a last byte", &l, Some(at), (4, 255));
                    }
                }
                _ => {
                    l.put_all(&behind);
                    l.end();
                    self.try_header("at a place", &l, Some(at), GOOD);
                }
            }
        }
    }

    /// With a value that goes beyond the header, at every place. What follows is no 0: behind a low byte FF that is a length too.
    fn too_long(&mut self) {
        for place in 8..=HEADER - 4 {
            let (mut l, _) = self.up_to(place);
            let fitting = HEADER - 4 - place;
            let any = self.r.within(fitting + 1, 0xFFFF);
            let length = self.r.pick(&[fitting + 1, fitting + 1, any, 0xFFFF]);
            l.put_too_long(self.kind, length as u16);
            let image = l.image(self.r.pick(&[0xFF, 1, 0x80]));
            self.try_image("with a value that is too long", &l, image, None, l.walk_ends(), l.walk_ends());
        }
    }

    // ---- with another fault in the header

    /// A tag that does not fit, of the table, skipped, or to be understood.
    fn with_4(&mut self) {
        for _ in 0..3 {
            let kinds = [self.r.pick(&TYPES), skipped_type(self.r), critical_type(self.r)];
            for kind in kinds {
                for (left, length) in [(0, 0xFFFF), (0, 256), (1, 0), (2, 0), (3, 0)] {
                    let (mut l, tags) = self.begin(false);
                    let tag = self.tag(4);
                    let at = self.put_among(&mut l, &tags, &[&tag])[0];
                    if left > 0 {
                        l.pad(HEADER - left - l.b.len());
                    }
                    let other = l.put_too_long(kind, length);
                    self.try_header("before a tag that does not fit", &l, Some(at), (4, other as u64));
                }
                let (mut l, tags) = self.begin(false);
                let before = self.r.within(0, tags.len());
                l.put_all(&tags[..before]);
                let other = l.put_too_long(kind, 256);
                let tag = self.tag(4);
                l.put(&tag);
                l.put_all(&tags[before..]);
                self.try_header("behind a tag that does not fit", &l, None, (4, other as u64));
            }
        }
    }

    /// Each tag of the table, with another length.
    fn with_5(&mut self) {
        for (kind, right) in TYPES.iter().zip(LENGTHS) {
            for length in [0, right - 1, right + 1] {
                for is_first in [false, true] {
                    let (mut l, mut tags) = self.begin(true);
                    tags.retain(|(k, _)| k != kind);
                    let (wrong, tag) = ((*kind, self.r.bytes(length)), self.tag(4));
                    let these = if is_first { [&tag, &wrong] } else { [&wrong, &tag] };
                    let places = self.put_among(&mut l, &tags, &these);
                    l.end();
                    if is_first {
                        self.try_header("before a wrong length", &l, Some(places[0]), (5, places[1] as u64));
                    } else {
                        self.try_header("behind a wrong length", &l, None, (5, places[0] as u64));
                    }
                }
            }
        }
    }

    /// Each tag of the table once more.
    fn with_6(&mut self) {
        for (kind, length) in TYPES.iter().zip(LENGTHS) {
            for rank in 0..3 {
                let (mut l, mut tags) = self.begin(*kind == 0x1000);
                tags.retain(|(k, _)| k != kind);
                let first = (*kind, self.r.bytes(length));
                let again = if self.r.one_in(2) { first.clone() } else { (*kind, self.r.bytes(length)) };
                let tag = self.tag(4);
                let mut these = vec![&first, &again];
                these.insert(rank, &tag);
                let places = self.put_among(&mut l, &tags, &these);
                l.end();
                match rank {
                    0 => self.try_header("before a tag and its repetition", &l, Some(places[0]), (6, places[2] as u64)),
                    1 => self.try_header("between a tag and its repetition", &l, Some(places[1]), (6, places[2] as u64)),
                    _ => self.try_header("behind a tag and its repetition", &l, None, (6, places[1] as u64)),
                }
            }
        }
    }

    /// No end: padding behind the last tag, or a last tag that ends with the header.
    fn with_7(&mut self) {
        for hint in [false, true] {
            let (mut l, tags) = self.begin(hint);
            let tag = self.tag(4);
            let at = self.put_among(&mut l, &tags, &[&tag])[0];
            self.try_header("without an end", &l, Some(at), (7, 256));
            let (mut l, tags) = self.begin(hint);
            l.put_all(&tags);
            let tag = self.tag(HEADER - 4 - l.b.len());
            let at = l.put(&tag);
            self.try_header("up to the header's end", &l, Some(at), (7, 256));
        }
    }

    /// Each required tag missing, and each two.
    fn with_8(&mut self) {
        for (first, second) in (0..5).flat_map(|i| (i..5).map(move |j| (TYPES[i], TYPES[j]))) {
            for is_read in [false, true] {
                let (mut l, mut tags) = self.begin(is_read);
                tags.retain(|(kind, _)| *kind != first && *kind != second);
                let at = self.put_read_or_not(&mut l, &tags, is_read);
                let situation = if is_read { "with a tag missing" } else { "behind the end, with a tag missing" };
                self.try_header(situation, &l, at, (8, first as u64));
            }
        }
    }

    // ---- with another fault in the image

    /// A byte of the digest or of the firmware is another one.
    fn with_9(&mut self) {
        for (is_read, in_digest) in [(false, false), (false, true), (true, false), (true, true)] {
            // A sector with a byte or two of firmware could be the same as another area's, which mending would then take for it.
            let (mut l, tags) = loop {
                let begun = self.begin(true);
                if !(1..8).contains(&(begun.0.firmware.len() % 256)) {
                    break begun;
                }
            };
            let at = self.put_read_or_not(&mut l, &tags, is_read);
            let mut image = l.image(0xFF);
            let wrong = if in_digest { l.digest.unwrap() + 4 + self.r.below(32) } else { self.r.within(HEADER, image.len() - 1) };
            image[wrong] ^= 1 << self.r.below(8);
            let situation = if is_read { "with a wrong digest" } else { "behind the end, with a wrong digest" };
            self.try_image(situation, &l, image, at, GOOD, (9, 256));
        }
    }

    /// A size that is too large for the partition and for the file.
    fn with_size_too_large(&mut self) {
        for (is_read, size) in [(false, LARGEST as u32 + 1), (false, u32::MAX), (true, LARGEST as u32 + 1), (true, u32::MAX)] {
            let (_, tags) = self.begin(true);
            let mut l = Layout::new(size, self.r.bytes(LARGEST));
            let at = self.put_read_or_not(&mut l, &tags, is_read);
            let situation = if is_read { "with a size too large" } else { "behind the end, with a size too large" };
            self.try_image(situation, &l, l.image(0xFF), at, GOOD, (3, 4));
        }
    }

    /// What is looked at before any tag: lengths, the magic, a size of 0.
    fn with_earlier_faults(&mut self) {
        for byte in 0..4 {
            let (mut l, tags) = self.begin(true);
            self.put_read_or_not(&mut l, &tags, true);
            l.b[byte] ^= 1 << self.r.below(8);
            self.try_header("with a wrong magic", &l, None, (2, 0));
        }
        let (mut l, tags) = self.begin(true);
        let at = self.put_read_or_not(&mut l, &tags, true).unwrap();
        l.b[4..8].fill(0);
        self.try_header("with size 0", &l, None, (3, 4));

        let (mut short, image) = (l.clone(), l.image(0xFF));
        (short.tags, short.ends) = (Vec::new(), Some((16, 0)));
        for length in [0, 1, 8, at, at + 1, at + 4, 254, 255] {
            self.try_image("in too few bytes", &short, image[..length].to_vec(), None, (16, 0), (16, 0));
        }
        for g in GEOMETRIES {
            for length in [g.n * g.s - 1, g.n * g.s + 1] {
                let mut partition = image.clone();
                partition.resize(length, 0xFF);
                self.check_image("in a partition of another length", g, &partition, (1, 0));
            }
            self.note("in a partition of another length", &answered(1), 0);
        }
    }
}

/// What was tried.
#[derive(Default)]
pub struct Critical {
    types: usize,
    headers: u64,
}

impl Critical {
    pub fn print(&self) {
        println!("{} headers with {} types that the reader does not know", self.headers, self.types);
    }
}

/// Everything above, with each type.
pub fn try_critical(c: &mut Compare, r: &mut Random) -> Critical {
    let mut tried = Critical::default();
    for kind in kinds() {
        let mut trial = Trial { c, r, kind, headers: 0 };
        trial.alone();
        trial.behind_padding();
        trial.repeated();
        trial.beside_others();
        trial.not_read();
        if Class::of(kind) == Class::Padding {
            trial.low_byte_ff();
        }
        trial.every_place();
        trial.too_long();
        trial.with_4();
        trial.with_5();
        trial.with_6();
        trial.with_7();
        trial.with_8();
        trial.with_9();
        trial.with_size_too_large();
        trial.with_earlier_faults();
        tried.types += 1;
        tried.headers += trial.headers;
    }
    println!("types around 8000: {} headers, no difference", tried.headers);
    tried
}
