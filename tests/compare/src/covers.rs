//! What the digest covers, byte by byte: good images with the digest's tag in every order and at every place, padding and tags that are
//! skipped before it, each byte of them damaged; digests that cover something else; and headers as they are made.
use crate::call::{Call, Lent, LentFlash, Values};
use crate::inputs::*;
use crate::layouts::{Filling, Image, Order, Piece};
use crate::random::Random;
use crate::reference::*;
use crate::report::Compare;

/// Two firmware sectors, the first of which is the header alone.
const G: Geometry = Geometry { n: 3, s: HEADER };

/// The version of the images that are damaged. There are an older and a newer one beside each.
const VERSION: u32 = 0x0203_0405;

/// What was tried: images, digests over something else, and checks of an image with a damaged byte, by where that stands and by what was
/// answered.
#[derive(Default)]
pub struct Covers {
    images: u64,
    other_digests: u64,
    before_9: u64,
    before_otherwise: u64,
    inside: u64,
    behind_good: u64,
    behind_refused: u64,
    firmware: u64,
}

impl Covers {
    fn checks(&self) -> u64 {
        self.before_9 + self.before_otherwise + self.inside + self.behind_good + self.behind_refused + self.firmware
    }

    pub fn print(&self) {
        println!(
            "{} images, {} digests over something else, {} checks of a damaged image:",
            self.images,
            self.other_digests,
            self.checks()
        );
        println!("  before the digest's tag: {} refused 9, {} refused otherwise", self.before_9, self.before_otherwise);
        println!("  in the tag: {} refused", self.inside);
        println!("  behind it in the header: {} good, {} refused, none with 9", self.behind_good, self.behind_refused);
        println!("  in the firmware or behind it: {}", self.firmware);
    }
}

// ---- the calls

/// What the image check answers: on a partition or, where the trailer sector is missing, on a file.
fn check(c: &mut Compare, image: &[u8]) -> u32 {
    let (bytes, numbers, values) = (Lent::new(image), Lent::new(&[7; 6]), Lent::new(&[7; 128]));
    let call = if image.len() == G.n * G.s {
        Call::CheckImage { g: G, partition: bytes, numbers, bytes: values }
    } else {
        Call::CheckFirmware { image: bytes, numbers, bytes: values }
    };
    c.call(call).0
}

/// What a power-up answers, and its row.
fn power_up_of(c: &mut Compare, r: &mut Random, boot: &[u8], update: &[u8], statuses: (u8, u8)) -> (u32, Vec<u64>) {
    let mut f = Flash { boot: boot.to_vec(), update: update.to_vec(), swap: r.bytes(G.s) };
    set_trailers(G, &mut f, statuses.0, statuses.1, true);
    let budget = r.pick(&[0, 1, u64::MAX]);
    match c.call(Call::PowerUp { g: G, flash: LentFlash::new(&f), budget, answer: Lent::new(&[7; 6]) }) {
        (number, Call::PowerUp { answer, .. }) => (number, answer.to_vec()),
        _ => unreachable!(),
    }
}

// ---- an image

/// An image, and good ones that are older and newer.
struct Tried {
    image: Image,
    older: Image,
    newer: Image,
}

/// Where a byte of an image stands.
fn part_of(image: &Image, at: usize) -> String {
    let piece = match image.pieces.get(at) {
        Some(Piece::Magic) => "the magic",
        Some(Piece::Size) => "the size",
        Some(Piece::Padding) => "padding",
        Some(Piece::OtherTag) => "a skipped tag",
        Some(Piece::TableTag) => "a tag of the table",
        Some(Piece::End) => "the end",
        Some(Piece::Rest) => "what follows the end",
        None if at < image.end => return "in the firmware".to_string(),
        None => return "behind the firmware".to_string(),
    };
    if at < image.at {
        format!("before the digest, in {piece}")
    } else if at < image.at + 4 {
        "in the digest's type or length".to_string()
    } else if at < image.at + 36 {
        "in the digest".to_string()
    } else {
        format!("behind the digest, in {piece}")
    }
}

pub fn answered(number: u32) -> String {
    match number {
        0 => "good".to_string(),
        n => format!("refused {n}"),
    }
}

impl Tried {
    fn new(c: &mut Compare, r: &mut Random, order: &Order, at: usize, filling: Filling, tried: &mut Covers) -> Self {
        let size = any_size(r, at);
        let image = Image::new(r, order, at, filling, VERSION, size);
        let mut beside = |version| {
            let (order, size) = (Order(TYPES.to_vec()), r.within(1, HEADER));
            let at = r.within(order.places().0, order.places().1);
            Image::new(r, &order, at, Filling::Both, version, size)
        };
        let one = Tried { older: beside(VERSION - 1), newer: beside(VERSION + 1), image };
        tried.images += 1;
        one.is_good(c, r);
        c.tally.note(&format!("good, {} tags of the table before the digest", order.rank()));
        one
    }

    fn wrong(&self, c: &Compare, what: &str, image: &[u8]) -> ! {
        let asked = Call::CheckFirmware { image: Lent::new(image), numbers: Lent::new(&[]), bytes: Lent::new(&[]) };
        c.fail(&format!("{what}; the digest's tag is at {}, the firmware ends at {}", self.image.at, self.image.end), &[&asked])
    }

    fn is_good(&self, c: &mut Compare, r: &mut Random) {
        let partition = self.image.partition(r, G);
        for bytes in [&partition[..], &self.image.bytes] {
            let number = check(c, bytes);
            if number != 0 {
                self.wrong(c, &format!("a good image is refused {number}"), bytes);
            }
        }
    }

    /// Power-ups to which the image is the update, the one to run, and the one to fall back to: it is refused with this number.
    fn refused_in_power_ups(&self, c: &mut Compare, r: &mut Random, partition: &[u8], number: u32) {
        let (older, newer) = (self.older.partition(r, G), self.newer.partition(r, G));
        let (_, update) = power_up_of(c, r, &older, partition, (SUCCESS, UPDATING));
        let (boot_bad, boot) = power_up_of(c, r, partition, &newer, (SUCCESS, NEW));
        let (no_fallback, fallback) = power_up_of(c, r, &newer, partition, (TESTING, NEW));
        let number = number as u64;
        if (boot_bad, no_fallback) != (12, 13) || [update[4], boot[2], fallback[2]] != [number; 3] {
            let rows = format!("turned down for {}, {boot_bad} for {}, {no_fallback} for {}", update[4], boot[2], fallback[2]);
            self.wrong(c, &format!("an image that is refused {number} is {rows}"), partition);
        }
    }

    /// An exchange with the older image or with the newer one, that lost power anywhere, and its flags. A byte of this image's first sector
    /// is changed where that stands. What mending answers.
    fn mend(&self, c: &mut Compare, r: &mut Random, damage: Option<(usize, u8)>) -> u32 {
        let is_boot = r.one_in(2);
        let (boot, update) = if is_boot { (&self.image, &self.newer) } else { (&self.older, &self.image) };
        let mut f = Flash { boot: boot.partition(r, G), update: update.partition(r, G), swap: r.bytes(G.s) };
        let status = r.pick(&[NEW, SUCCESS]);
        set_trailers(G, &mut f, status, UPDATING, true);
        do_legs(G, &mut f, r.below(3 * G.m() + 1));
        if let Some((at, byte)) = damage {
            let (old_boot, old_update) = old_places(f.flag(G, 0));
            let area = if is_boot { old_boot } else { old_update };
            let mut sector = f.sector(G, area, 0).to_vec();
            sector[at] = byte;
            f.set_sector(G, area, 0, &sector);
        }
        spoil_flags(r, G, &mut f);
        c.call(Call::Mend { g: G, flash: LentFlash::new(&f), numbers: Lent::new(&[7; 3]) }).0
    }

    // ---- damaged

    /// Whether an image with this byte damaged may be answered so, whatever its header then says: it is never good if the digest covers
    /// that byte or has it, and never refused 9 if not.
    fn may_be_answered(&self, at: usize, number: u32) -> bool {
        let image = &self.image;
        if at < image.at {
            number != 0
        } else if at < image.at + 4 {
            number != 0 && number != 9
        } else if at < image.at + 36 {
            number == 9
        } else if at < HEADER {
            number != 9
        } else if at < image.end {
            number == 9
        } else {
            number == 0
        }
    }

    fn count(&self, at: usize, number: u32, tried: &mut Covers) {
        let place = match (at, number) {
            _ if at >= HEADER => &mut tried.firmware,
            (_, 9) if at < self.image.at => &mut tried.before_9,
            _ if at < self.image.at => &mut tried.before_otherwise,
            _ if at < self.image.at + 36 => &mut tried.inside,
            (_, 0) => &mut tried.behind_good,
            _ => &mut tried.behind_refused,
        };
        *place += 1;
    }

    /// Damages this byte of the image, as it lies in a partition and in a file; at times also for power-ups and for mending.
    fn damage(&self, c: &mut Compare, r: &mut Random, at: usize, tried: &mut Covers) {
        let mut partition = self.image.partition(r, G);
        let (before, any, bit) = (partition[at], r.next() as u8, 1 << r.below(8));
        let after = r.pick(&[before ^ bit, before ^ bit, before.wrapping_add(1), before.wrapping_sub(1), 0, 0xFF, any]);
        partition[at] = if after == before { !before } else { after };
        let part = part_of(&self.image, at);
        let file = r.pick(&[self.image.end.max(at + 1), G.m() * G.s]);
        for bytes in [&partition[..], &partition[..file]] {
            let number = check(c, bytes);
            if !self.may_be_answered(at, number) {
                self.wrong(c, &format!("byte {at} was {before:02x}, and the image is {}", answered(number)), bytes);
            }
            c.tally.note(&format!("damaged {part}: {}", answered(number)));
            self.count(at, number, tried);
            if number != 0 && bytes.len() == partition.len() && r.one_in(12) {
                self.refused_in_power_ups(c, r, bytes, number);
                c.tally.note(&format!("damaged {part}: refused in power-ups"));
            }
        }
        if at < HEADER && r.one_in(12) {
            let number = self.mend(c, r, Some((at, partition[at])));
            c.tally.note(&format!("damaged {part}: {}", if number == 0 { "mended" } else { "no mark fits" }));
        }
    }

    /// Every byte of the header, and the firmware's first, last and another; and the one behind it.
    fn damage_all(&self, c: &mut Compare, r: &mut Random, tried: &mut Covers) {
        let end = self.image.end;
        let behind = if end < G.m() * G.s { end } else { end - 1 };
        for at in (0..HEADER).chain([HEADER, r.within(HEADER, end - 1), end - 1, behind]) {
            self.damage(c, r, at, tried);
        }
    }

    /// The bytes around the tag's first and last one, the firmware's last, and any before and behind the tag.
    fn damage_some(&self, c: &mut Compare, r: &mut Random, tried: &mut Covers) {
        let (at, end) = (self.image.at, self.image.end);
        let any = [r.below(at), r.below(at), r.within(at + 36, HEADER - 1)];
        for at in [at - 1, at, at + 4, at + 35, at + 36, end - 1].iter().chain(&any) {
            self.damage(c, r, *at, tried);
        }
    }

    // ---- with another digest

    /// Digests that cover something else. There are zeros where such a one covers its own place.
    fn cover_otherwise(&self, c: &mut Compare, r: &mut Random, tried: &mut Covers) {
        let (at, end) = (self.image.at, self.image.end);
        let mut partition = self.image.partition(r, G);
        put_digest(&mut partition, at, &[0; 32]);
        let right = [&partition[..at], &partition[HEADER..end]].concat();
        for (what, message) in other_covers(&partition, at, end) {
            if message == right {
                continue;
            }
            put_digest(&mut partition, at, &sha256(&message));
            tried.other_digests += 1;
            for bytes in [&partition[..], &partition[..end]] {
                let number = check(c, bytes);
                if number != 9 {
                    self.wrong(c, &format!("with a digest over {what} the image is {}", answered(number)), bytes);
                }
            }
            self.refused_in_power_ups(c, r, &partition, 9);
            let mut image = self.image.clone();
            image.bytes.copy_from_slice(&partition[..end]);
            let other = Tried { image, older: self.older.clone(), newer: self.newer.clone() };
            let number = other.mend(c, r, None);
            if number != 17 {
                self.wrong(c, &format!("with a digest over {what} mending is answered {number}"), &partition);
            }
            c.tally.note(&format!("a digest over {what}: refused 9"));
        }
    }
}

// ---- the images

pub fn permutations(kinds: &[u16]) -> Vec<Order> {
    if kinds.is_empty() {
        return vec![Order(vec![])];
    }
    let first = |i: usize| {
        let rest = permutations(&[&kinds[..i], &kinds[i + 1..]].concat());
        rest.into_iter().map(move |order| Order([&[kinds[i]], &order.0[..]].concat()))
    };
    (0..kinds.len()).flat_map(first).collect()
}

/// Every set of tags before the digest's, without a hint and with one, in some order.
fn sets(r: &mut Random) -> Vec<Order> {
    let mut all = Vec::new();
    for tags in [5, 6] {
        let others: Vec<u16> = TYPES[..tags].iter().copied().filter(|kind| *kind != 0x0003).collect();
        for set in 0..1 << others.len() {
            let mut order = vec![0x0003];
            for (i, kind) in others.iter().enumerate() {
                let digest = order.iter().position(|k| *k == 0x0003).unwrap();
                let at = if set >> i & 1 == 1 { r.within(0, digest) } else { r.within(digest + 1, order.len()) };
                order.insert(at, *kind);
            }
            all.push(Order(order));
        }
    }
    all
}

/// A firmware's size, mostly so that what is covered ends where a block does, or the room for its length.
fn any_size(r: &mut Random, at: usize) -> usize {
    let end = 64 * r.within(1, 2) + r.pick(&[0, 1, 54, 55, 56, 63]) - at % 64;
    let (few, any) = (r.within(1, 70), r.within(1, HEADER));
    r.pick(&[end, end, few, any])
}

fn any_filling(r: &mut Random) -> Filling {
    r.pick(&[Filling::Padding, Filling::OtherTags, Filling::Both, Filling::Both])
}

/// Every order of the tags, without a hint and with one.
fn every_order(c: &mut Compare, r: &mut Random, tried: &mut Covers) {
    for order in [permutations(&TYPES[..5]), permutations(&TYPES)].concat() {
        let (first, last) = order.places();
        let (any, filling) = (r.within(first, last), any_filling(r));
        let at = r.pick(&[first, any, any]);
        let one = Tried::new(c, r, &order, at, filling, tried);
        one.damage_all(c, r, tried);
        one.cover_otherwise(c, r, tried);
    }
    println!("every order of the tags: {} images, {} checks of a damaged one, no difference", tried.images, tried.checks());
}

/// Every place of the digest's tag, and at each every set of tags before it.
fn every_place(c: &mut Compare, r: &mut Random, tried: &mut Covers) {
    for at in 8..=HEADER - 38 {
        let fits = |order: &Order| order.places().0 <= at && at <= order.places().1;
        let fitting: Vec<Order> = sets(r).into_iter().filter(fits).collect();
        for filling in [Filling::Padding, Filling::OtherTags, Filling::Both] {
            let order = &fitting[r.below(fitting.len())];
            Tried::new(c, r, order, at, filling, tried).damage_all(c, r, tried);
        }
        for order in &fitting {
            let filling = any_filling(r);
            Tried::new(c, r, order, at, filling, tried).damage_some(c, r, tried);
        }
    }
    println!(
        "every place of the digest's tag: {} images, {} checks of a damaged one, no difference",
        tried.images,
        tried.checks()
    );
}

/// The last two places at which the digest's tag fits have no room for the end behind it: 4 for the byte that is left, and 7.
fn no_room_for_the_end(c: &mut Compare, r: &mut Random, tried: &mut Covers) {
    let order = Order(vec![0x0030, 0x0020, 0x0002, 0x0001, 0x0003]);
    let one = Tried::new(c, r, &order, HEADER - 38, Filling::Padding, tried);
    for (more, number) in [(1, 4), (2, 7)] {
        let (at, end) = (one.image.at + more, one.image.end);
        let mut image = [&one.image.bytes[..8], &vec![0xFF; more], &one.image.bytes[8..HEADER - more]].concat();
        image.extend_from_slice(&one.image.bytes[HEADER..]);
        sign(&mut image, at, end);
        let answer = check(c, &image);
        if answer != number {
            one.wrong(c, &format!("a digest's tag at {at} is answered {answer}"), &image);
        }
    }
}

/// Headers that are made for firmwares of every length up to some blocks: the digest's tag is at 28, and the file of both is good.
fn every_made_header(c: &mut Compare, r: &mut Random) {
    for (length, has_hint) in (1..=200).flat_map(|length| [(length, false), (length, true)]) {
        let firmware = r.bytes(length);
        let values = Values { version: r.next() as u32, timestamp: r.next(), auth_type: r.next() as u16, has_hint };
        let (_, made) = c.call(Call::MakeHeader {
            out: Lent::new(&r.bytes(HEADER)),
            firmware: Lent::new(&firmware),
            values,
            bytes: Lent::new(&r.bytes(96)),
            place: Lent::new(&[7]),
        });
        let file = match &made {
            Call::MakeHeader { out, .. } => [&out[..], &firmware].concat(),
            _ => unreachable!(),
        };
        if file[28..32] != [3, 0, 32, 0] || file[32..64] != sha256(&[&file[..28], &firmware].concat()) || check(c, &file) != 0 {
            c.fail("a header that was made has another digest, or its file is not good", &[&made]);
        }
        c.tally.note("a header that was made: good");
    }
}

/// Everything above.
pub fn try_covers(c: &mut Compare, r: &mut Random) -> Covers {
    let mut tried = Covers::default();
    every_order(c, r, &mut tried);
    every_place(c, r, &mut tried);
    no_room_for_the_end(c, r, &mut tried);
    every_made_header(c, r);
    tried
}
