//! The sealed profile: every byte of a header with every other value, every order of the tags, padding and other tags in every gap, bytes
//! behind the end, buffers of other lengths, each refusal of the reader in a header that is not sealed either; all of it with a hint and
//! without. Each header is read by both readers. What has to be answered follows from how it was put together, and the answers are held
//! against that too, and against what the writers make of the values that were read. Then pairs of sealed headers.
use crate::call::{Call, Lent, Values};
use crate::covers::permutations;
use crate::inputs::*;
use crate::random::Random;
use crate::reference::{Header, HEADER, MAGIC};
use crate::report::Compare;
use std::ops::Range;

/// Where the tags of the table begin in a sealed header, and then its end. Without a hint the end stands where the hint would.
const PLACES: [usize; 7] = [8, 16, 28, 64, 132, 138, 174];
const HINT_PLACE: usize = PLACES[5];

/// A number and its place, or zeros.
type Answered = (u32, u64);

const SEALED: Answered = (0, 0);

/// What is answered to the written form.
fn of_written(has_hint: bool) -> Answered {
    if has_hint {
        SEALED
    } else {
        (21, HINT_PLACE as u64)
    }
}

/// What is answered to a header that the reader takes, and that differs from the written form first at this place.
fn differs_at(has_hint: bool, at: usize) -> Answered {
    (21, if has_hint { at } else { at.min(HINT_PLACE) } as u64)
}

fn tags_of(has_hint: bool) -> usize {
    5 + usize::from(has_hint)
}

/// The first byte behind the end of the written form.
fn behind(has_hint: bool) -> usize {
    PLACES[tags_of(has_hint)] + 2
}

/// The places at which 21 can be given: the types of the tags, and, with a hint, the end and what follows it. The reader has to take all
/// that stands before: a length is right, and a value is what is written of it.
pub fn places_of_21(has_hint: bool) -> Vec<usize> {
    let types = PLACES[..if has_hint { 7 } else { 5 }].iter().flat_map(|at| [*at, at + 1]);
    if has_hint {
        types.chain(behind(true)..HEADER).collect()
    } else {
        types.chain([HINT_PLACE]).collect()
    }
}

/// How 21 is noted, with its places.
pub fn refused_21(has_hint: bool) -> &'static str {
    if has_hint {
        "sealed profile: 21 with a hint"
    } else {
        "sealed profile: 21 without a hint"
    }
}

/// How 21 without a hint is noted, by the first byte that differs from what is written of the values: none, one before 138, that one, or
/// one behind it.
pub const MISSING_HINT: [&str; 4] = [
    "sealed profile: 21 for the missing hint, all else as written",
    "sealed profile: 21 before the missing hint",
    "sealed profile: 21 for the missing hint, byte 138 differs",
    "sealed profile: 21 for the missing hint, a byte behind 138 differs",
];

/// How an answer to a header is noted.
pub fn note_of(has_hint: bool, situation: &str, number: u32) -> String {
    let hint = if has_hint { "" } else { ", without a hint" };
    match number {
        0 => format!("sealed profile: {situation}{hint}: sealed"),
        n => format!("sealed profile: {situation}{hint}: refused {n}"),
    }
}

// ---- headers

/// A tag, padding, or the end.
type Piece = Vec<u8>;

fn tag(kind: u16, value: &[u8]) -> Piece {
    let mut piece = Vec::new();
    put_tag(&mut piece, kind, value.len() as u16, value);
    piece
}

/// The written form behind the size: the tags in the table's order, and the end.
fn pieces(v: &Header) -> Vec<Piece> {
    table_tags(v).iter().map(|(kind, value)| tag(*kind, value)).chain([vec![0, 0]]).collect()
}

fn lay_out(size: u32, pieces: &[Piece]) -> Vec<u8> {
    let mut b = [&MAGIC[..], &size.to_le_bytes(), &pieces.concat()].concat();
    b.resize(HEADER, 0xFF);
    b
}

fn written(v: &Header) -> Vec<u8> {
    lay_out(v.size, &pieces(v))
}

/// The tags in this order, and how many of them stand where they have to before another does.
fn in_order(v: &Header, order: &[u16]) -> (Vec<Piece>, usize) {
    let table = pieces(v);
    let all = order.iter().map(|kind| table[find(&table, *kind)].clone()).chain([vec![0, 0]]).collect();
    (all, (0..order.len()).find(|i| order[*i] != TYPES[*i]).unwrap_or(order.len()))
}

/// Where a piece begins.
fn place_of(pieces: &[Piece], i: usize) -> usize {
    8 + pieces[..i].iter().map(Vec::len).sum::<usize>()
}

/// The bytes that the pieces leave.
fn room(pieces: &[Piece]) -> usize {
    HEADER - place_of(pieces, pieces.len())
}

/// Where the tag of this type is among the pieces.
fn find(pieces: &[Piece], kind: u16) -> usize {
    pieces.iter().position(|piece| piece.starts_with(&kind.to_le_bytes())).unwrap()
}

/// What a byte of the written form belongs to.
#[derive(Clone, Copy, PartialEq, Eq)]
enum Part {
    Magic,
    Size,
    Type,
    HintType,
    Length,
    Value,
    End,
    Rest,
}

impl Part {
    fn of(at: usize, has_hint: bool) -> Self {
        let end = behind(has_hint) - 2;
        if at < 8 {
            return if at < 4 { Part::Magic } else { Part::Size };
        }
        if at >= end {
            return if at < end + 2 { Part::End } else { Part::Rest };
        }
        let tag = PLACES.iter().rev().find(|place| **place <= at).unwrap();
        match at - tag {
            0 | 1 if *tag == HINT_PLACE => Part::HintType,
            0 | 1 => Part::Type,
            2 | 3 => Part::Length,
            _ => Part::Value,
        }
    }

    fn name(&self) -> &'static str {
        match self {
            Part::Magic => "another byte in the magic",
            Part::Size => "another byte in the size",
            Part::Type => "another byte in a required type",
            Part::HintType => "another byte in the hint's type",
            Part::Length => "another byte in a length",
            Part::Value => "another byte in a value",
            Part::End => "another byte in the end",
            Part::Rest => "another byte behind the end",
        }
    }
}

/// How a header differs from the written form, whether the reader takes it or not.
#[derive(Clone, Copy, PartialEq, Eq)]
pub enum Way {
    Not,
    Padding,
    OtherTag,
    Order,
    Rest,
}

impl Way {
    pub const ALL: [Way; 5] = [Way::Not, Way::Padding, Way::OtherTag, Way::Order, Way::Rest];

    pub fn name(&self) -> &'static str {
        match self {
            Way::Not => "as written",
            Way::Padding => "padding first",
            Way::OtherTag => "a skipped tag first",
            Way::Order => "another order",
            Way::Rest => "bytes behind the end",
        }
    }

    /// The refusals of the reader that a header of this kind can have. Nothing stands behind an end that is missing.
    pub fn refusals(&self) -> Vec<u32> {
        [16, 2, 3, 4, 18, 5, 6, 7, 8].into_iter().filter(|n| (*self, *n) != (Way::Rest, 7)).collect()
    }
}

/// The bytes of a sealed header's values, one value behind another.
const VALUES: usize = 146;
const FIELDS: [Range<usize>; 7] = [0..4, 4..8, 8..16, 16..48, 48..112, 112..114, 114..VALUES];

/// How pairs are noted.
pub const PAIRS: [&str; 5] = [
    "sealed profile, pairs: one bit is another",
    "sealed profile, pairs: the same values",
    "sealed profile, pairs: one value is another",
    "sealed profile, pairs: some values are others",
    "sealed profile, pairs: all values are others",
];

fn values_of(b: &[u8]) -> Header {
    Header {
        size: u32::from_le_bytes(b[..4].try_into().unwrap()),
        version: u32::from_le_bytes(b[4..8].try_into().unwrap()),
        timestamp: u64::from_le_bytes(b[8..16].try_into().unwrap()),
        digest: b[16..48].try_into().unwrap(),
        signature: b[48..112].try_into().unwrap(),
        auth_type: u16::from_le_bytes(b[112..114].try_into().unwrap()),
        hint: Some(b[114..].try_into().unwrap()),
    }
}

// ---- the calls

/// What a reader answered.
#[derive(PartialEq, Eq)]
struct Read {
    number: u32,
    numbers: Vec<u64>,
    bytes: Vec<u8>,
}

impl Read {
    fn has_hint(&self) -> bool {
        self.numbers[5] == 1
    }
}

/// What a writer answered and left, and the call.
struct Wrote {
    answer: Answered,
    out: Vec<u8>,
    call: Call,
}

/// The sealed reader's call on this header, to be printed.
fn asked(header: &[u8]) -> Call {
    Call::ReadSealed { input: Lent::new(header), numbers: Lent::new(&[7; 6]), bytes: Lent::new(&[7; 128]) }
}

/// What was tried: headers by what the sealed reader says of them, pairs of sealed headers, and values to write.
#[derive(Default)]
pub struct Sealed {
    sealed: u64,
    not_sealed: u64,
    refused: u64,
    pairs: u64,
    writes: u64,
}

impl Sealed {
    fn headers(&self) -> u64 {
        self.sealed + self.not_sealed + self.refused
    }

    pub fn print(&self) {
        println!(
            "{} headers by the sealed profile: {} sealed, {} refused 21, {} refused by the reader; {} pairs of sealed headers, {} values \
             to write",
            self.headers(),
            self.sealed,
            self.not_sealed,
            self.refused,
            self.pairs,
            self.writes
        );
    }
}

struct Trial<'a> {
    c: &'a mut Compare,
    r: &'a mut Random,
    tried: Sealed,
}

impl Trial<'_> {
    fn read(&mut self, input: &[u8], sealed: bool) -> (Read, Call) {
        let (input, numbers, bytes) = (Lent::new(input), Lent::new(&[7; 6]), Lent::new(&[7; 128]));
        let (number, after) = self.c.call(if sealed {
            Call::ReadSealed { input, numbers, bytes }
        } else {
            Call::ReadHeader { input, numbers, bytes }
        });
        match &after {
            Call::ReadHeader { numbers, bytes, .. } | Call::ReadSealed { numbers, bytes, .. } => {
                (Read { number, numbers: numbers.to_vec(), bytes: bytes.to_vec() }, after)
            }
            _ => unreachable!(),
        }
    }

    fn write(&mut self, size: u32, values: Values, bytes: &[u8], out: &[u8], sealed: bool) -> Wrote {
        let (out, bytes, place) = (Lent::new(out), Lent::new(bytes), Lent::new(&[7]));
        let (number, call) = self.c.call(if sealed {
            Call::WriteSealed { out, size, values, bytes, place }
        } else {
            Call::WriteHeader { out, size, values, bytes, place }
        });
        match &call {
            Call::WriteHeader { out, place, .. } | Call::WriteSealed { out, place, .. } => {
                Wrote { answer: (number, place[0]), out: out.to_vec(), call }
            }
            _ => unreachable!(),
        }
    }

    /// Writes the values that were read, over other bytes.
    fn write_again(&mut self, read: &Read, sealed: bool) -> Wrote {
        let n = &read.numbers;
        let values = Values { version: n[2] as u32, timestamp: n[3], auth_type: n[4] as u16, has_hint: n[5] == 1 };
        let out = vec![self.r.next() as u8; HEADER];
        self.write(n[1] as u32, values, &read.bytes, &out, sealed)
    }

    fn wrong(&self, what: &str, calls: &[&Call]) -> ! {
        self.c.fail(&format!("sealed profile: {what}"), calls)
    }

    /// It is sealed: the reader gives the same, and the values are written to the same bytes.
    fn is_sealed(&mut self, input: &[u8], taken: &Read, sealed: &Read, call: &Call) {
        if sealed != taken || !sealed.has_hint() {
            self.wrong("sealed, and the reader answers something else, or there is no hint", &[call]);
        }
        let again = self.write_again(taken, true);
        if again.answer != SEALED || again.out != input[..HEADER] {
            self.wrong("sealed, and its values are written to other bytes", &[call, &again.call]);
        }
    }

    /// It is refused 21: the reader takes it, and what is written of its values differs there first.
    fn is_not_sealed(&mut self, input: &[u8], taken: &Read, sealed: &Read, call: &Call) {
        let (has_hint, place) = (taken.has_hint(), sealed.numbers[0]);
        let again = self.write_again(taken, has_hint);
        let difference = (0..HEADER).find(|i| input[*i] != again.out[*i]);
        let due = difference.map_or(of_written(has_hint), |at| differs_at(has_hint, at));
        if taken.number != 0 || again.answer != SEALED || due != (21, place) {
            self.wrong(&format!("21 at {place}, and its values as written differ at {difference:?}"), &[call, &again.call]);
        }
        if !places_of_21(has_hint).contains(&(place as usize)) {
            self.wrong(&format!("21 at {place}, where no header can differ first"), &[call]);
        }
        self.c.tally.note_place(refused_21(has_hint), place as usize);
        if !has_hint {
            let no_hint = self.write_again(taken, true);
            if no_hint.answer != of_written(false) {
                self.wrong("a header without a hint is taken by the sealed writer", &[&no_hint.call]);
            }
            self.c.tally.note(match difference {
                None => MISSING_HINT[0],
                Some(at) if at < HINT_PLACE => MISSING_HINT[1],
                Some(HINT_PLACE) => MISSING_HINT[2],
                Some(_) => MISSING_HINT[3],
            });
        }
    }

    /// Reads a header by both readers, and holds one against the other; the sealed one has to answer what is due, if that is known. Whether
    /// the header was put together with a hint is for the note.
    fn try_header(&mut self, has_hint: bool, situation: &str, input: &[u8], due: Option<Answered>) -> Read {
        let (taken, _) = self.read(input, false);
        let (sealed, call) = self.read(input, true);
        let answer = (sealed.number, sealed.numbers[0]);
        if due.map_or(false, |due| answer != due) {
            self.wrong(&format!("{situation}: {answer:?}, and not {due:?}"), &[&call]);
        }
        match sealed.number {
            0 => {
                self.tried.sealed += 1;
                self.is_sealed(input, &taken, &sealed, &call);
            }
            21 => {
                self.tried.not_sealed += 1;
                self.is_not_sealed(input, &taken, &sealed, &call);
            }
            _ => {
                self.tried.refused += 1;
                if sealed != taken {
                    self.wrong("refused otherwise than by the reader", &[&call]);
                }
            }
        }
        self.c.tally.note(&note_of(has_hint, situation, sealed.number));
        sealed
    }

    fn values(&mut self, has_hint: bool) -> Header {
        let any = self.r.next() as u32 | 1;
        let (size, version) = (self.r.pick(&[1, 256, u32::MAX, any]), any_version(self.r));
        let mut v = header(self.r, size, version);
        v.hint = has_hint.then(|| self.r.bytes(32).try_into().unwrap());
        v
    }

    // ---- every byte

    /// Every byte of the written form with every other value.
    fn every_byte(&mut self, has_hint: bool) {
        for at in 0..HEADER {
            let mut v = self.values(has_hint);
            let part = Part::of(at, has_hint);
            if part == Part::Size {
                // So that another byte can make it 0.
                v.size = 1 << (8 * (at - 4));
            }
            let whole = written(&v);
            let first = self.try_header(has_hint, Way::Not.name(), &whole, Some(of_written(has_hint)));
            for value in (0..=0xFF).filter(|value| *value != whole[at]) {
                let mut b = whole.clone();
                b[at] = value;
                let due = match part {
                    Part::Magic => Some((2, 0)),
                    Part::Size if value == 0 => Some((3, 4)),
                    Part::Size | Part::Value => Some(of_written(has_hint)),
                    Part::Rest => Some(differs_at(has_hint, at)),
                    Part::Type | Part::HintType | Part::Length | Part::End => None,
                };
                let read = self.try_header(has_hint, part.name(), &b, due);
                if read.number == 0 {
                    self.tried.pairs += 1;
                    if due.is_none() || read == first {
                        self.wrong(&format!("byte {at} was {:02x}, and all is as before", whole[at]), &[&asked(&b)]);
                    }
                }
            }
        }
    }

    // ---- orders, padding and other tags

    /// Every order of the tags, then with padding in each gap.
    fn every_order(&mut self, has_hint: bool) {
        let tags = tags_of(has_hint);
        for order in permutations(&TYPES[..tags]) {
            let v = self.values(has_hint);
            let (all, right) = in_order(&v, &order.0);
            let (situation, due) = if right == tags {
                ("the table's order", of_written(has_hint))
            } else {
                (Way::Order.name(), differs_at(has_hint, PLACES[right]))
            };
            self.try_header(has_hint, situation, &lay_out(v.size, &all), Some(due));
            for gap in 0..=tags {
                let mut padded = all.clone();
                padded.insert(gap, vec![0xFF; self.r.within(1, room(&all))]);
                let due = differs_at(has_hint, PLACES[right.min(gap)]);
                self.try_header(has_hint, &format!("{situation}, and padding"), &lay_out(v.size, &padded), Some(due));
            }
        }
    }

    /// Puts a piece into a gap of the written form. That has to be answered so if the piece fits; if it leaves one byte for the end or
    /// none, 4 or 7, unless it is a tag that must be understood, which comes first.
    fn in_gap(&mut self, has_hint: bool, situation: &str, gap: usize, piece: Piece, fits: Answered) {
        let v = self.values(has_hint);
        let mut all = pieces(&v);
        let more = piece.len().saturating_sub(room(&all));
        all.insert(gap, piece);
        let situation = if more == 0 { situation.to_string() } else { format!("{situation}, no room for the end") };
        let due = match (more, fits.0) {
            (0, _) | (_, 18) => fits,
            (1, _) => (4, HEADER as u64 - 1),
            _ => (7, HEADER as u64),
        };
        self.try_header(has_hint, &situation, &lay_out(v.size, &all), Some(due));
    }

    /// Padding, skipped tags and tags that must be understood in every gap, of every length that there is room for, and of one and two
    /// bytes more.
    fn every_gap(&mut self, has_hint: bool) {
        let room = HEADER - behind(has_hint);
        for gap in 0..=tags_of(has_hint) {
            let place = PLACES[gap];
            let next = if gap < tags_of(has_hint) { TYPES[gap] } else { 0 };
            for amount in 1..=room + 2 {
                self.in_gap(has_hint, "padding in a gap", gap, vec![0xFF; amount], differs_at(has_hint, place));
            }
            for length in 0..=room - 4 + 2 {
                let value = self.r.bytes(length);
                for kind in [0x7FFE, 0x0004, next | 0x4200, skipped_type(self.r)] {
                    let (situation, at) = if kind & 0xFF == next & 0xFF {
                        ("a skipped tag in a gap, its low byte as written", place + 1)
                    } else {
                        ("a skipped tag in a gap", place)
                    };
                    self.in_gap(has_hint, situation, gap, tag(kind, &value), differs_at(has_hint, at));
                }
                for kind in [0x8000, 0xFFFE, next | 0x8000] {
                    self.in_gap(has_hint, "a type from 8000 up in a gap", gap, tag(kind, &value), (18, place as u64));
                }
            }
        }
    }

    // ---- behind the end, and other lengths

    /// Any bytes from every place behind the end on, and tags there, which are not read.
    fn behind_the_end(&mut self, has_hint: bool) {
        let first = behind(has_hint);
        for from in first..HEADER {
            for _ in 0..4 {
                let v = self.values(has_hint);
                let mut b = written(&v);
                b.truncate(from);
                b.push(self.r.below(0xFF) as u8);
                b.extend_from_slice(&self.r.bytes(HEADER - from - 1));
                self.try_header(has_hint, Way::Rest.name(), &b, Some(differs_at(has_hint, from)));
            }
        }
        let any = self.r.bytes(32);
        let others = [tag(0x0001, &any[..4]), tag(0x1000, &any), tag(0x0042, &[]), tag(0x8000, &any[..8]), vec![0, 0]];
        for piece in others {
            let v = self.values(has_hint);
            let b = lay_out(v.size, &[pieces(&v), vec![piece]].concat());
            self.try_header(has_hint, "a tag behind the end", &b, Some(differs_at(has_hint, first)));
        }
    }

    /// Every shorter length; and longer buffers, whose other bytes have no say.
    fn other_lengths(&mut self, has_hint: bool) {
        for length in (0..=HEADER + 100).chain([1000, 5000]) {
            let v = self.values(has_hint);
            let (mut padded, mut other_magic) = (pieces(&v), written(&v));
            padded.insert(2, vec![0xFF]);
            other_magic[0] ^= 1;
            let headers = [
                (Way::Not.name(), written(&v), of_written(has_hint)),
                ("with padding", lay_out(v.size, &padded), differs_at(has_hint, PLACES[2])),
                ("with another magic", other_magic, (2, 0)),
            ];
            for (what, mut b, due) in headers {
                b.extend_from_slice(&self.r.bytes(length.saturating_sub(HEADER)));
                b.truncate(length);
                let (bytes, due) = match length {
                    HEADER => ("256 bytes", due),
                    _ if length < HEADER => ("fewer bytes", (16, 0)),
                    _ => ("more bytes", due),
                };
                self.try_header(has_hint, &format!("{bytes}, {what}"), &b, Some(due));
            }
        }
    }

    // ---- the reader's refusals first

    /// A header that differs so from the written form: the pieces, and what has to be answered.
    fn differing(&mut self, way: Way, v: &Header) -> (Vec<Piece>, Answered) {
        let mut all = pieces(v);
        let has_hint = v.hint.is_some();
        match way {
            Way::Not => return (all, of_written(has_hint)),
            Way::Padding => all.insert(0, vec![0xFF; self.r.within(1, 3)]),
            Way::OtherTag => all.insert(0, tag(0x7FFE, &self.r.bytes(3))),
            Way::Order => {
                let first = self.r.within(1, 4);
                all.swap(0, first);
            }
            Way::Rest => {
                let bytes = self.r.bytes(10);
                all.push([&[0x42], &bytes[..]].concat());
                return (all, differs_at(has_hint, behind(has_hint)));
            }
        }
        (all, differs_at(has_hint, PLACES[0]))
    }

    /// Makes the reader refuse a header with this number, and says where.
    fn spoil(&mut self, v: &Header, mut all: Vec<Piece>, number: u32) -> (Vec<u8>, Answered) {
        let end = find(&all, 0);
        let required = self.r.pick(&TYPES[..5]);
        let at = find(&all, required);
        let place = match number {
            4 | 18 => {
                let gap = self.r.within(0, end);
                let kind = if number == 18 { critical_type(self.r) } else { self.r.pick(&[0x0001, 0x0042, 0x8000]) };
                all.insert(gap, tag(kind, &[]));
                if number == 4 {
                    all[gap][2..].fill(0xFE);
                }
                place_of(&all, gap)
            }
            5 => {
                let length = self.r.pick(&[0, all[at].len() - 5, all[at].len() - 3]);
                all[at] = tag(required, &self.r.bytes(length));
                place_of(&all, at)
            }
            6 => {
                // There is not always room for a second signature.
                let kind = self.r.pick(&[0x0001, 0x0002, 0x0003, 0x0030]);
                let again = all[find(&all, kind)].clone();
                all.insert(end, again);
                place_of(&all, end)
            }
            7 => {
                all.truncate(end);
                HEADER
            }
            8 => {
                all.remove(at);
                required as usize
            }
            3 => 4,
            _ => 0,
        };
        let mut b = lay_out(if number == 3 { 0 } else { v.size }, &all);
        if number == 2 {
            b[self.r.below(4)] ^= 1 << self.r.below(8);
        }
        if number == 16 {
            b.truncate(self.r.below(HEADER));
        }
        (b, (number, place as u64))
    }

    /// Each refusal of the reader in headers that differ from the written form in each way, which alone is refused 21.
    fn refused_first(&mut self, has_hint: bool) {
        for way in Way::ALL {
            for number in way.refusals() {
                for _ in 0..40 {
                    let v = self.values(has_hint);
                    let (all, due) = self.differing(way, &v);
                    self.try_header(has_hint, way.name(), &lay_out(v.size, &all), Some(due));
                    let (b, due) = self.spoil(&v, all, number);
                    self.try_header(has_hint, way.name(), &b, Some(due));
                }
            }
        }
    }

    // ---- the writer

    /// Buffers of every length, with and without a hint and a size: the sealed form and the bytes behind it, or no byte changes.
    fn every_room(&mut self) {
        for length in (0..=HEADER + 20).chain([1000, 5000]) {
            for (has_hint, has_size) in [(false, false), (false, true), (true, false), (true, true)] {
                let mut v = self.values(has_hint);
                v.size *= u32::from(has_size);
                let out = self.r.bytes(length);
                let due = match (has_size, has_hint) {
                    _ if length < HEADER => (16, 0),
                    (false, _) => (3, 4),
                    (true, _) => of_written(has_hint),
                };
                let left = if due == SEALED { [&written(&v), &out[HEADER..]].concat() } else { out.clone() };
                let wrote = self.write_values(&v, &out);
                if wrote.answer != due || wrote.out != left {
                    self.wrong(&format!("{:?} from the writer, and not {due:?}, or other bytes", wrote.answer), &[&wrote.call]);
                }
                self.tried.writes += 1;
                self.c.tally.note(&note_of(has_hint, "to write", due.0));
            }
        }
    }

    /// Lends 32 bytes for a hint that is missing too; they are not used.
    fn write_values(&mut self, v: &Header, out: &[u8]) -> Wrote {
        let values = Values { version: v.version, timestamp: v.timestamp, auth_type: v.auth_type, has_hint: v.hint.is_some() };
        let bytes = [&v.digest[..], &v.signature, &v.hint.unwrap_or([0x11; 32])].concat();
        self.write(v.size, values, &bytes, out, true)
    }

    // ---- pairs

    /// The header that the writer makes of these values, and what is read of it.
    fn sealed_of(&mut self, values: &[u8]) -> (Vec<u8>, Read) {
        let out = vec![self.r.next() as u8; HEADER];
        let header = self.write_values(&values_of(values), &out).out;
        let read = self.try_header(true, "one of a pair", &header, Some(SEALED));
        (header, read)
    }

    /// The bytes are equal exactly if the values are, and so is what is read. How many bits of the headers differ.
    fn pair(&mut self, one: &[u8], other: &[u8]) -> u32 {
        let (a, b) = (self.sealed_of(one), self.sealed_of(other));
        if (a.0 == b.0) != (one == other) || (a.1 == b.1) != (one == other) {
            let what = if one == other { "the same values in two headers" } else { "two headers for other values" };
            self.wrong(&format!("{what} that differ, or do not, in bytes or when read"), &[&asked(&a.0), &asked(&b.0)]);
        }
        self.tried.pairs += 1;
        a.0.iter().zip(&b.0).map(|(x, y)| (x ^ y).count_ones()).sum()
    }

    /// Each bit of the values another; and values of which some are the same, or all.
    fn every_pair(&mut self) {
        let (any, more) = (self.r.bytes(VALUES), self.r.bytes(VALUES));
        for mut one in [vec![0; VALUES], vec![0xFF; VALUES], any, more] {
            // So that no bit makes the size 0.
            one[0] |= 3;
            for bit in 0..8 * VALUES {
                let mut other = one.clone();
                other[bit / 8] ^= 1 << (bit % 8);
                let differ = self.pair(&one, &other);
                if differ != 1 {
                    self.wrong(&format!("bit {bit} of the values changes {differ} bits of the header"), &[]);
                }
                self.c.tally.note(PAIRS[0]);
            }
        }
        for _ in 0..4000 {
            let (mut one, mut other) = (self.r.bytes(VALUES), self.r.bytes(VALUES));
            one[0] |= 1;
            other[0] |= 1;
            let rate = self.r.pick(&[1, 2, 4, 100]);
            let mut others = 0;
            for field in FIELDS {
                if self.r.one_in(rate) {
                    others += usize::from(one[field.clone()] != other[field]);
                } else {
                    other[field.clone()].copy_from_slice(&one[field]);
                }
            }
            self.pair(&one, &other);
            self.c.tally.note(match others {
                0 => PAIRS[1],
                1 => PAIRS[2],
                2..=6 => PAIRS[3],
                _ => PAIRS[4],
            });
        }
    }
}

/// Everything above.
pub fn try_sealed(c: &mut Compare, r: &mut Random) -> Sealed {
    let mut trial = Trial { c, r, tried: Sealed::default() };
    for has_hint in [true, false] {
        trial.every_byte(has_hint);
        trial.every_order(has_hint);
        trial.every_gap(has_hint);
        trial.behind_the_end(has_hint);
        trial.other_lengths(has_hint);
        trial.refused_first(has_hint);
    }
    trial.every_room();
    trial.every_pair();
    println!("sealed profile: {} headers, {} pairs, no difference", trial.tried.headers(), trial.tried.pairs);
    trial.tried
}
