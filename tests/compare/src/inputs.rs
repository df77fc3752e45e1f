//! Headers, images and flashes to try: good ones, and ones that are made for a refusal.
use crate::random::Random;
use crate::reference::*;

pub type Tag = (u16, Vec<u8>);

/// The types of the table, in its order, and their lengths.
pub const TYPES: [u16; 6] = [0x0001, 0x0002, 0x0003, 0x0020, 0x0030, 0x1000];
pub const LENGTHS: [usize; 6] = [4, 8, 32, 64, 2, 32];

// ---- headers

/// A header's values, and any digest.
pub fn header(r: &mut Random, size: u32, version: u32) -> Header {
    Header {
        size,
        version,
        timestamp: any_timestamp(r),
        digest: r.bytes(32).try_into().unwrap(),
        signature: r.bytes(64).try_into().unwrap(),
        auth_type: r.next() as u16,
        hint: r.one_in(2).then(|| r.bytes(32).try_into().unwrap()),
    }
}

pub fn any_version(r: &mut Random) -> u32 {
    let any = r.next() as u32;
    r.pick(&[0, 1, 2, 3, 3, 0x7FFF_FFFF, 0x8000_0000, u32::MAX, any])
}

pub fn any_timestamp(r: &mut Random) -> u64 {
    let any = r.next();
    r.pick(&[0, 1_700_000_000, u64::MAX, any, any, any])
}

pub fn table_tags(v: &Header) -> Vec<Tag> {
    let mut tags = vec![
        (0x0001, v.version.to_le_bytes().to_vec()),
        (0x0002, v.timestamp.to_le_bytes().to_vec()),
        (0x0003, v.digest.to_vec()),
        (0x0020, v.signature.to_vec()),
        (0x0030, v.auth_type.to_le_bytes().to_vec()),
    ];
    if let Some(hint) = v.hint {
        tags.push((0x1000, hint.to_vec()));
    }
    tags
}

/// The bytes that are left for padding and other tags, with room for the end.
fn room(tags: &[Tag]) -> usize {
    let used: usize = tags.iter().map(|(_, value)| 4 + value.len()).sum();
    HEADER.saturating_sub(8 + used + 2)
}

fn lengthen_or_shorten(r: &mut Random, tags: &mut [Tag]) {
    let i = r.below(tags.len());
    let right = tags[i].1.len();
    let any = r.below(right + 8);
    let length = r.pick(&[0, right - 1, right + 1, any]);
    tags[i].1.resize(length, 0x11);
}

/// A tag once more, with the same or another value.
fn repeat(r: &mut Random, tags: &mut Vec<Tag>) {
    let fitting: Vec<Tag> = tags.iter().filter(|(_, value)| 4 + value.len() <= room(tags)).cloned().collect();
    let (kind, mut value) = fitting[r.below(fitting.len())].clone();
    if r.one_in(2) {
        value = r.bytes(value.len());
    }
    tags.push((kind, value));
}

fn leave_out(r: &mut Random, tags: &mut Vec<Tag>) {
    let required = r.below(5);
    tags.remove(required);
    while r.one_in(3) && !tags.is_empty() {
        let i = r.below(tags.len());
        tags.remove(i);
    }
}

/// A type that is skipped, often one that is close to the table or to 8000. Its low byte is not FF, which would be padding.
pub fn skipped_type(r: &mut Random) -> u16 {
    loop {
        let any = r.next() as u16 & 0x7FFF;
        let kind = r.pick(&[0x0004, 0x0010, 0x0021, 0x0031, 0x0100, 0x0200, 0x0300, 0x1001, 0x2000, 0x3000, 0x7F00, 0x7FFE, any]);
        if kind != 0 && kind & 0xFF != 0xFF && !TYPES.contains(&kind) {
            return kind;
        }
    }
}

/// A type that must be understood, often the first, the last, or one that is a bit away from the table. Its low byte is not FF either.
pub fn critical_type(r: &mut Random) -> u16 {
    loop {
        let (any, near) = (r.next() as u16, r.pick(&TYPES));
        let kind = r.pick(&[0x8000, 0x8000, 0xFF00, 0xFFFE, near, near, any, any]) | 0x8000;
        if kind & 0xFF != 0xFF {
            return kind;
        }
    }
}

/// A type that is not in the table.
fn other_type(r: &mut Random) -> u16 {
    if r.one_in(2) {
        skipped_type(r)
    } else {
        critical_type(r)
    }
}

/// Adds a tag of this type, if there is room for one.
fn add_tag(r: &mut Random, tags: &mut Vec<Tag>, kind: u16) {
    if room(tags) >= 4 {
        let most = room(tags) - 4;
        let any = r.below(most + 1);
        let length = r.pick(&[0, most.min(1), most.min(6), any, most]);
        tags.push((kind, r.bytes(length)));
    }
}

fn add_skipped_tags(r: &mut Random, tags: &mut Vec<Tag>) {
    while r.one_in(2) {
        let kind = skipped_type(r);
        add_tag(r, tags, kind);
    }
}

/// Adds one tag that must be understood, at times more, of the same type or of others.
fn add_critical_tags(r: &mut Random, tags: &mut Vec<Tag>) {
    let mut kind = critical_type(r);
    add_tag(r, tags, kind);
    while r.one_in(4) {
        if r.one_in(2) {
            kind = critical_type(r);
        }
        add_tag(r, tags, kind);
    }
}

pub fn shuffle(r: &mut Random, tags: &mut [Tag]) {
    for i in (1..tags.len()).rev() {
        let j = r.below(i + 1);
        tags.swap(i, j);
    }
}

/// How much padding stands in each gap: none, a little, any amount, or all that there is room for, so that the end stands at 254.
fn padding(r: &mut Random, gaps: usize, room: usize) -> Vec<usize> {
    let any = r.within(0, room);
    let mut left = r.pick(&[0, room.min(5), any, room]);
    let mut all = vec![0; gaps];
    while left > 0 {
        let part = if r.one_in(2) { left } else { r.within(1, left) };
        all[r.below(gaps)] += part;
        left -= part;
    }
    all
}

pub fn put_tag(b: &mut Vec<u8>, kind: u16, length: u16, value: &[u8]) {
    b.extend_from_slice(&kind.to_le_bytes());
    b.extend_from_slice(&length.to_le_bytes());
    b.extend_from_slice(value);
}

/// A last tag that goes beyond 256: of one to three bytes, or with a length that is too large.
fn put_tag_that_does_not_fit(r: &mut Random, b: &mut Vec<u8>) {
    let kind = if r.one_in(2) { other_type(r) } else { r.pick(&TYPES) };
    let bytes_left = r.within(0, 3);
    if bytes_left > 0 {
        b.resize(HEADER - bytes_left, 0xFF);
        let low = if bytes_left == 1 && r.one_in(2) { 0 } else { kind as u8 };
        b.extend_from_slice(&[low, (kind >> 8) as u8, 0]);
    } else {
        let fitting = HEADER.saturating_sub(b.len() + 4) as u16;
        let any = r.within(fitting as usize + 1, 0xFFFF) as u16;
        let length = r.pick(&[fitting + 1, fitting + 1, 0xFFFF, any]);
        put_tag(b, kind, length, &[]);
    }
}

/// A tag whose last byte is the header's last, if there is room for one.
fn fill_with_tag(r: &mut Random, b: &mut Vec<u8>) {
    if b.len() + 4 <= HEADER {
        let length = HEADER - b.len() - 4;
        let value = r.bytes(length);
        put_tag(b, other_type(r), length as u16, &value);
    }
}

/// A header's bytes: the tags in any order, with padding and skipped tags. Made for the refusal `wrong` (2 to 8, or 18), or for none
/// (0). One that is made for another refusal than 18 at times has a tag for that too.
pub fn header_bytes(r: &mut Random, v: &Header, wrong: u64) -> Vec<u8> {
    lay_out(r, v, wrong).0
}

/// The same, and where the tag of a digest stands that is as long as a digest.
fn lay_out(r: &mut Random, v: &Header, wrong: u64) -> (Vec<u8>, Option<usize>) {
    let mut tags = table_tags(v);
    match wrong {
        5 => lengthen_or_shorten(r, &mut tags),
        6 => repeat(r, &mut tags),
        8 => leave_out(r, &mut tags),
        _ => {}
    }
    if wrong == 5 && r.one_in(4) {
        repeat(r, &mut tags);
    }
    if wrong == 18 || wrong != 0 && r.one_in(6) {
        add_critical_tags(r, &mut tags);
    }
    add_skipped_tags(r, &mut tags);
    if !r.one_in(4) {
        shuffle(r, &mut tags);
    }
    let gaps = padding(r, tags.len() + 1, room(&tags));
    let mut b = MAGIC.to_vec();
    if wrong == 2 {
        b[r.below(4)] ^= 1 << r.below(8);
    }
    b.extend_from_slice(&v.size.to_le_bytes());
    let mut digest = None;
    for ((kind, value), gap) in tags.iter().zip(&gaps) {
        b.resize(b.len() + gap, 0xFF);
        if *kind == 0x0003 && value.len() == 32 {
            digest = digest.or(Some(b.len()));
        }
        put_tag(&mut b, *kind, value.len() as u16, value);
    }
    b.resize(b.len() + gaps[tags.len()], 0xFF);
    match wrong {
        4 => put_tag_that_does_not_fit(r, &mut b),
        7 if r.one_in(2) => fill_with_tag(r, &mut b),
        7 => {}
        _ => b.extend_from_slice(&[0, 0]),
    }
    let any = r.next() as u8;
    let rest = r.pick(&[0xFF, 0xFF, 0x00, any]);
    b.resize(HEADER, if wrong == 7 { 0xFF } else { rest });
    (b, digest)
}

/// Changes one to three of the first `within` bytes.
pub fn damage(r: &mut Random, b: &mut [u8], within: usize) {
    for _ in 0..r.within(1, 3) {
        let at = r.below(within);
        let any = r.next() as u8;
        let near = [b[at].wrapping_add(1), b[at].wrapping_sub(1), b[at] ^ 0x80];
        b[at] = r.pick(&[0, 1, 2, 3, 4, 8, 0x10, 0x20, 0x30, 0x40, 0xFF, any, any, near[0], near[1], near[2]]);
    }
}

/// The refusal that a header or image is made for: mostly none, else one up to `most`, or 18.
pub fn any_wrong(r: &mut Random, most: u64) -> u64 {
    if r.one_in(3) {
        let numbers: Vec<u64> = (2..=most).chain([18]).collect();
        r.pick(&numbers)
    } else {
        0
    }
}

// ---- images

/// The largest firmware, one byte of it, or any size between; too large or 0 if that is to be wrong.
fn firmware_size(r: &mut Random, most: usize, wrong: u64) -> u32 {
    if wrong == 3 {
        let above = most as u32 + 1;
        let more = above + r.below(1000) as u32;
        return r.pick(&[0, 0, above, above, more, u32::MAX]);
    }
    let any = r.within(1, most.max(1));
    r.pick(&[most.max(1), 1, any, any]) as u32
}

/// Puts a digest into its tag, which begins at `at`.
pub fn put_digest(image: &mut [u8], at: usize, digest: &[u8; 32]) {
    image[at + 4..at + 36].copy_from_slice(digest);
}

/// Puts the digest of an image into its tag, which begins at `at`. The firmware ends at `end`.
pub fn sign(image: &mut [u8], at: usize, end: usize) {
    let digest = sha256(&[&image[..at], &image[HEADER..end]].concat());
    put_digest(image, at, &digest);
}

/// What a digest could cover instead of what it has to: by name.
pub fn other_covers(image: &[u8], at: usize, end: usize) -> Vec<(&'static str, Vec<u8>)> {
    let (header, code) = (&image[..HEADER], &image[HEADER..end]);
    vec![
        ("the firmware alone", code.to_vec()),
        ("the header's part alone", header[..at].to_vec()),
        ("a byte of the header less", [&header[..at - 1], code].concat()),
        ("a byte of the header more", [&header[..at + 1], code].concat()),
        ("the digest's type too", [&header[..at + 2], code].concat()),
        ("the digest's type and length too", [&header[..at + 4], code].concat()),
        ("the digest's tag too", [&header[..at + 36], code].concat()),
        ("the whole header", [header, code].concat()),
        ("the header but for the digest's tag", [&header[..at], &header[at + 36..], code].concat()),
        ("the header but for its magic", [&header[4..at], code].concat()),
        ("the header but for magic and size", [&header[8..at], code].concat()),
        ("the firmware first", [code, &header[..at]].concat()),
        ("a byte of the firmware less", [&header[..at], &code[..code.len() - 1]].concat()),
        ("a byte behind the firmware too", [&header[..at], &image[HEADER..image.len().min(end + 1)]].concat()),
    ]
}

/// Makes an image's digest wrong: it covers something else, or is another, or the firmware is.
fn spoil_digest(r: &mut Random, image: &mut [u8], at: usize, end: usize) {
    match r.below(4) {
        0 => image[at + 4 + r.below(32)] ^= 1 << r.below(8),
        1 | 2 => {
            let wrong_byte = r.pick(&[HEADER, end - 1]);
            image[wrong_byte] ^= 1 << r.below(8);
        }
        _ => {
            let others = other_covers(image, at, end);
            let other = sha256(&others[r.below(others.len())].1);
            put_digest(image, at, &other);
        }
    }
}

/// Puts a header before the firmware that ends at `end`, made for the refusal `wrong` (2 to 9, or 18), or for none (0).
fn put_header(r: &mut Random, image: &mut [u8], v: &Header, end: usize, wrong: u64) {
    let (h, digest) = lay_out(r, v, wrong);
    image[..HEADER].copy_from_slice(&h);
    if let Some(at) = digest {
        sign(image, at, end);
        if wrong == 9 {
            spoil_digest(r, image, at, end);
        }
    }
}

/// A partition with an image, made for the refusal `wrong` (2 to 9, or 18), or for none (0). Its trailer holds any bytes.
pub fn partition(r: &mut Random, g: Geometry, version: u32, wrong: u64) -> Vec<u8> {
    let size = firmware_size(r, g.m() * g.s - HEADER, wrong);
    partition_of(r, g, version, size, wrong)
}

/// The same with a firmware of this size.
pub fn partition_of(r: &mut Random, g: Geometry, version: u32, size: u32, wrong: u64) -> Vec<u8> {
    let mut p = r.bytes(g.n * g.s);
    let end = (HEADER + size as usize).min(p.len());
    let v = header(r, size, version);
    put_header(r, &mut p, &v, end, wrong);
    p
}

/// A file with an image: mostly good, else made for a refusal, or cut short. Often something stands behind the firmware.
pub fn file(r: &mut Random) -> Vec<u8> {
    let wrong = any_wrong(r, 9);
    let (few, some) = (r.within(1, 300), r.length(14) + 1);
    let length = r.pick(&[1, few, few, few, some]);
    let mut b = r.bytes(HEADER + length);
    let version = any_version(r);
    let mut v = header(r, length as u32, version);
    if wrong == 3 {
        v.size = r.pick(&[0, v.size + 1, v.size + 1, u32::MAX]);
    }
    put_header(r, &mut b, &v, HEADER + length, wrong);
    if wrong != 3 && r.one_in(2) {
        let behind = r.length(9);
        b.extend_from_slice(&r.bytes(behind));
    }
    if r.one_in(10) {
        damage(r, &mut b, HEADER);
    }
    if r.one_in(10) {
        let any = r.below(b.len());
        b.truncate(r.pick(&[0, HEADER - 1, HEADER, any, HEADER + length - 1]));
    }
    b
}

// ---- flashes

/// Mostly a few small sectors; at times many, large, or, seldom, both.
pub fn geometry(r: &mut Random) -> Geometry {
    if r.one_in(20_000) {
        let any = r.within(2, 512);
        Geometry { n: r.pick(&[any, 511, 512]), s: 256 * r.within(2, 512) }
    } else if r.one_in(2000) {
        Geometry { n: r.within(2, 64), s: 256 * r.within(1, 512) }
    } else if r.one_in(250) {
        Geometry { n: r.within(2, 4), s: 256 * r.within(1, 512) }
    } else if r.one_in(500) {
        let (any, s) = (r.within(2, 511), 256 * r.within(1, 2));
        r.pick(&[Geometry { n: any, s }, Geometry { n: 511, s }, Geometry { n: 512, s: 512 }])
    } else if r.one_in(25) {
        Geometry { n: r.within(2, 64), s: 256 * r.within(1, 2) }
    } else {
        Geometry { n: r.within(2, 6), s: 256 * r.within(1, 3) }
    }
}

/// Gives both trailers these statuses, UPDATE's flags F; every other byte of them is FF or stays.
pub fn set_trailers(g: Geometry, f: &mut Flash, boot: u8, update: u8, erased: bool) {
    if erased {
        f.perform(g, Operation::EraseTrailer(Area::Boot));
        f.perform(g, Operation::EraseTrailer(Area::Update));
    }
    for i in 0..g.m() {
        f.perform(g, Operation::Flag(i, 0xF));
    }
    f.perform(g, Operation::Status(Area::Boot, boot));
    f.perform(g, Operation::Status(Area::Update, update));
}

/// Does the first legs of an exchange, so many, without a power-up: the images need not be good.
pub fn do_legs(g: Geometry, f: &mut Flash, legs: usize) {
    for k in 0..legs {
        let table = [(Area::Update, Area::Swap, 7), (Area::Boot, Area::Update, 3), (Area::Swap, Area::Boot, 0)];
        let (from, to, flag) = table[k % 3];
        f.perform(g, Operation::Copy(from, to, k / 3));
        f.perform(g, Operation::Flag(k / 3, flag));
    }
}

fn any_status(r: &mut Random, likely: &[u8]) -> u8 {
    let any = r.next() as u8;
    if r.one_in(20) {
        r.pick(&[NEW, UPDATING, TESTING, SUCCESS, any])
    } else {
        r.pick(likely)
    }
}

/// Flags as they stand after some moves, without the moves.
fn set_flags(r: &mut Random, g: Geometry, f: &mut Flash) {
    let any = r.within(0, 3 * g.m());
    let moves = r.pick(&[any, 3 * g.m()]);
    for i in 0..g.m() {
        f.perform(g, Operation::Flag(i, [0xF, 7, 3, 0][moves.saturating_sub(3 * i).min(3)]));
    }
}

/// Does something to the bytes that hold flags, the unused half of the last one included; at times nothing.
pub fn spoil_flags(r: &mut Random, g: Geometry, f: &mut Flash) {
    let last = g.n * g.s - 1;
    let bytes = last - (g.m() + 1) / 2..last;
    match r.below(8) {
        0 => {}
        1 => {
            let (at, bit) = (r.within(bytes.start, last - 1), r.below(8));
            f.update[at] ^= 1 << bit;
        }
        2 => f.update[bytes].fill(0),
        3 => f.update[bytes].fill(0xFF),
        4 => set_flags(r, g, f),
        5 => {
            for i in 0..g.m() {
                let flag = r.pick(&[0xF, 7, 3, 0]);
                f.perform(g, Operation::Flag(i, flag));
            }
        }
        _ => {
            let any = r.bytes(bytes.len());
            f.update[bytes].copy_from_slice(&any);
        }
    }
}

/// A flash in any state, mostly a sensible one: at rest, armed, on test, or as a power-up left it that was cut.
pub fn flash(r: &mut Random, g: Geometry) -> Flash {
    let (old, new) = (any_version(r), any_version(r));
    let (bad_boot, bad_update) = (any_wrong(r, 9), any_wrong(r, 9));
    let mut f = Flash { boot: partition(r, g, old, bad_boot), update: partition(r, g, new, bad_update), swap: r.bytes(g.s) };
    if r.one_in(20) {
        return f;
    }
    let boot = any_status(r, &[NEW, SUCCESS, SUCCESS, TESTING]);
    let update = any_status(r, &[NEW, UPDATING, UPDATING]);
    let erased = r.one_in(2);
    set_trailers(g, &mut f, boot, update, erased);
    match r.below(8) {
        0 | 1 => {
            let budget = r.below(9 * g.m() + 4) as u64;
            power_up(g, &mut f, budget);
        }
        2 => set_flags(r, g, &mut f),
        3 => {
            let i = r.below(g.m());
            let flag = r.below(16) as u8;
            f.perform(g, Operation::Flag(i, flag));
        }
        _ => {}
    }
    for p in [&mut f.boot, &mut f.update] {
        if r.one_in(10) {
            let within = r.pick(&[HEADER, p.len()]);
            damage(r, p, within);
        }
    }
    f
}

/// A row of so many counts for m firmware sectors: of a new flash, of a used one, or with counts as high as may be and beyond.
pub fn any_row(r: &mut Random, length: usize, m: usize) -> Vec<u32> {
    let most = u32::MAX - m as u32;
    let used = r.pick(&[1, 10, 1000, 1 << 20]);
    let mut row: Vec<u32> = match r.below(6) {
        0 => vec![0; length],
        1 => (0..length).map(|_| r.next() as u32).collect(),
        2 => vec![most; length],
        _ => (0..length).map(|_| r.below(used) as u32).collect(),
    };
    if length > 0 && r.one_in(3) {
        for _ in 0..r.within(1, 3) {
            let (at, below) = (r.below(length), r.below(3) as u32);
            row[at] = r.pick(&[most, most, most - below]);
        }
    }
    if length > 0 && r.one_in(6) {
        let above = r.within(1, m) as u32;
        let at = r.below(length);
        // BOOT's trailer, UPDATE's, SWAP, or any.
        row[r.pick(&[at, at, m.min(length - 1), length - 1, length.saturating_sub(2)])] =
            r.pick(&[most + 1, most + above, u32::MAX]);
    }
    row
}

/// Mostly the sum of the row; at times one more, one less, what 32 bits hold of it, or something else.
pub fn any_total(r: &mut Random, row: &[u32]) -> u64 {
    let right = sum(row);
    if r.one_in(12) {
        let (any, low) = (r.next(), right as u32 as u64);
        r.pick(&[right + 1, right.wrapping_sub(1), low, right + (1 << 32), 0, u64::MAX, any])
    } else {
        right
    }
}

/// Sizes outside the rules, and buffers that fit them.
pub fn flash_outside_rules(r: &mut Random) -> (Geometry, Flash) {
    let small = [(0, 256), (1, 256), (2, 0), (3, 128), (3, 255), (3, 257), (3, 384), (2, 300)];
    let large = [(2, 131_328), (512, 256), (513, 256), (513, 512), (512, 384), (1000, 256)];
    let (n, s) = if r.one_in(50) { r.pick(&large) } else { r.pick(&small) };
    let mut f = Flash { boot: r.bytes(n * s), update: r.bytes(n * s), swap: r.bytes(s) };
    if n * s > 0 {
        f.boot[n * s - 1] = SUCCESS;
        f.update[n * s - 1] = r.pick(&[NEW, UPDATING]);
    }
    (Geometry { n, s }, f)
}

/// Another geometry than the buffers have: some have the same product, some overflow.
pub fn other_geometry(r: &mut Random, g: Geometry) -> Geometry {
    let (n, s) = (g.n, g.s);
    let others = [
        (n + 1, s),
        (n - 1, s),
        (n, s + 256),
        (n, s + 1),
        (n, s - 256),
        (2 * n, s / 2),
        (n * s / 256, 256),
        (s, n),
        (2, n * s / 2),
        (0, 0),
        (0, s),
        (n, 0),
        (1, n * s),
        (usize::MAX, s),
        (n, usize::MAX),
        (2, 1 << 63),
        (1 << 56, 256),
        ((1 << 32) + n, s),
        (n, (1 << 32) + s),
    ];
    let (n, s) = r.pick(&others);
    Geometry { n, s }
}
