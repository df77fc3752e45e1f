//! Document 01 and the requests of document 02 that have landed once more, in plain Rust: written from the papers, with no code or
//! definition of the library.

pub const HEADER: usize = 256;
pub const MAGIC: [u8; 4] = [0x43, 0x45, 0x52, 0x54];

pub const NEW: u8 = 0xFF;
pub const UPDATING: u8 = 0x70;
pub const TESTING: u8 = 0x10;
pub const SUCCESS: u8 = 0x00;

/// A number of the table of refusals, with its place.
#[derive(Clone, Copy, Debug, PartialEq, Eq)]
pub struct Refusal {
    pub number: u64,
    pub place: u64,
}

fn refuse<T>(number: u64, place: u64) -> Result<T, Refusal> {
    Err(Refusal { number, place })
}

// ---- SHA-256

const K: [u32; 64] = [
    0x428a2f98, 0x71374491, 0xb5c0fbcf, 0xe9b5dba5, 0x3956c25b, 0x59f111f1, 0x923f82a4, 0xab1c5ed5, 0xd807aa98, 0x12835b01,
    0x243185be, 0x550c7dc3, 0x72be5d74, 0x80deb1fe, 0x9bdc06a7, 0xc19bf174, 0xe49b69c1, 0xefbe4786, 0x0fc19dc6, 0x240ca1cc,
    0x2de92c6f, 0x4a7484aa, 0x5cb0a9dc, 0x76f988da, 0x983e5152, 0xa831c66d, 0xb00327c8, 0xbf597fc7, 0xc6e00bf3, 0xd5a79147,
    0x06ca6351, 0x14292967, 0x27b70a85, 0x2e1b2138, 0x4d2c6dfc, 0x53380d13, 0x650a7354, 0x766a0abb, 0x81c2c92e, 0x92722c85,
    0xa2bfe8a1, 0xa81a664b, 0xc24b8b70, 0xc76c51a3, 0xd192e819, 0xd6990624, 0xf40e3585, 0x106aa070, 0x19a4c116, 0x1e376c08,
    0x2748774c, 0x34b0bcb5, 0x391c0cb3, 0x4ed8aa4a, 0x5b9cca4f, 0x682e6ff3, 0x748f82ee, 0x78a5636f, 0x84c87814, 0x8cc70208,
    0x90befffa, 0xa4506ceb, 0xbef9a3f7, 0xc67178f2,
];

pub fn sha256(message: &[u8]) -> [u8; 32] {
    let mut h: [u32; 8] = [0x6a09e667, 0xbb67ae85, 0x3c6ef372, 0xa54ff53a, 0x510e527f, 0x9b05688c, 0x1f83d9ab, 0x5be0cd19];
    let mut padded = message.to_vec();
    padded.push(0x80);
    while padded.len() % 64 != 56 {
        padded.push(0);
    }
    padded.extend_from_slice(&(message.len() as u64 * 8).to_be_bytes());
    for block in padded.chunks(64) {
        let mut w = [0u32; 64];
        for t in 0..16 {
            w[t] = u32::from_be_bytes([block[4 * t], block[4 * t + 1], block[4 * t + 2], block[4 * t + 3]]);
        }
        for t in 16..64 {
            let s0 = w[t - 15].rotate_right(7) ^ w[t - 15].rotate_right(18) ^ (w[t - 15] >> 3);
            let s1 = w[t - 2].rotate_right(17) ^ w[t - 2].rotate_right(19) ^ (w[t - 2] >> 10);
            w[t] = w[t - 16].wrapping_add(s0).wrapping_add(w[t - 7]).wrapping_add(s1);
        }
        let mut v = h;
        for t in 0..64 {
            let s1 = v[4].rotate_right(6) ^ v[4].rotate_right(11) ^ v[4].rotate_right(25);
            let ch = (v[4] & v[5]) ^ (!v[4] & v[6]);
            let t1 = v[7].wrapping_add(s1).wrapping_add(ch).wrapping_add(K[t]).wrapping_add(w[t]);
            let s0 = v[0].rotate_right(2) ^ v[0].rotate_right(13) ^ v[0].rotate_right(22);
            let maj = (v[0] & v[1]) ^ (v[0] & v[2]) ^ (v[1] & v[2]);
            v = [t1.wrapping_add(s0).wrapping_add(maj), v[0], v[1], v[2], v[3].wrapping_add(t1), v[4], v[5], v[6]];
        }
        for i in 0..8 {
            h[i] = h[i].wrapping_add(v[i]);
        }
    }
    let mut out = [0u8; 32];
    for i in 0..8 {
        out[4 * i..4 * i + 4].copy_from_slice(&h[i].to_be_bytes());
    }
    out
}

// ---- the header

#[derive(Clone, Debug, PartialEq, Eq)]
pub struct Header {
    pub size: u32,
    pub version: u32,
    pub timestamp: u64,
    pub digest: [u8; 32],
    pub signature: [u8; 64],
    pub auth_type: u16,
    pub hint: Option<[u8; 32]>,
}

fn required_length(kind: u16) -> Option<usize> {
    match kind {
        0x0001 => Some(4),
        0x0002 => Some(8),
        0x0003 => Some(32),
        0x0020 => Some(64),
        0x0030 => Some(2),
        0x1000 => Some(32),
        _ => None,
    }
}

/// From this type up a tag must be understood: the reader refuses one that is not in the table.
const FIRST_CRITICAL: u16 = 0x8000;

/// What stands at or after a place: a tag's place, type and length; or None for the end. All types are given alike.
pub fn next_tag(h: &[u8], mut p: usize) -> Result<Option<(usize, u16, usize)>, Refusal> {
    if h.len() < HEADER {
        return refuse(16, 0);
    }
    while p < HEADER && h[p] == 0xFF {
        p += 1;
    }
    if p >= HEADER {
        return refuse(7, HEADER as u64);
    }
    if p + 1 == HEADER {
        return refuse(4, p as u64);
    }
    let kind = u16::from_le_bytes([h[p], h[p + 1]]);
    if kind == 0 {
        return Ok(None);
    }
    if p + 4 > HEADER {
        return refuse(4, p as u64);
    }
    let length = u16::from_le_bytes([h[p + 2], h[p + 3]]) as usize;
    if p + 4 + length > HEADER {
        return refuse(4, p as u64);
    }
    Ok(Some((p, kind, length)))
}

pub fn read_header(s: &[u8]) -> Result<Header, Refusal> {
    if s.len() < HEADER {
        return refuse(16, 0);
    }
    let h = &s[..HEADER];
    if h[..4] != MAGIC {
        return refuse(2, 0);
    }
    let size = u32::from_le_bytes(h[4..8].try_into().unwrap());
    if size == 0 {
        return refuse(3, 4);
    }
    let mut found: Vec<(u16, &[u8])> = Vec::new();
    let mut p = 8;
    while let Some((at, kind, length)) = next_tag(h, p)? {
        match required_length(kind) {
            None if kind >= FIRST_CRITICAL => return refuse(18, at as u64),
            None => {}
            Some(right) if length != right => return refuse(5, at as u64),
            Some(_) if found.iter().any(|(k, _)| *k == kind) => return refuse(6, at as u64),
            Some(_) => found.push((kind, &h[at + 4..at + 4 + length])),
        }
        p = at + 4 + length;
    }
    let value = |kind: u16| found.iter().find(|(k, _)| *k == kind).map(|(_, v)| *v);
    for kind in [0x0001, 0x0002, 0x0003, 0x0020, 0x0030] {
        if value(kind).is_none() {
            return refuse(8, kind as u64);
        }
    }
    Ok(Header {
        size,
        version: u32::from_le_bytes(value(0x0001).unwrap().try_into().unwrap()),
        timestamp: u64::from_le_bytes(value(0x0002).unwrap().try_into().unwrap()),
        digest: value(0x0003).unwrap().try_into().unwrap(),
        signature: value(0x0020).unwrap().try_into().unwrap(),
        auth_type: u16::from_le_bytes(value(0x0030).unwrap().try_into().unwrap()),
        hint: value(0x1000).map(|v| v.try_into().unwrap()),
    })
}

pub fn write_header(out: &mut [u8], v: &Header) -> Result<(), Refusal> {
    if out.len() < HEADER {
        return refuse(16, 0);
    }
    if v.size == 0 {
        return refuse(3, 4);
    }
    let mut b = MAGIC.to_vec();
    b.extend_from_slice(&v.size.to_le_bytes());
    let mut tag = |kind: u16, value: &[u8]| {
        b.extend_from_slice(&kind.to_le_bytes());
        b.extend_from_slice(&(value.len() as u16).to_le_bytes());
        b.extend_from_slice(value);
    };
    tag(0x0001, &v.version.to_le_bytes());
    tag(0x0002, &v.timestamp.to_le_bytes());
    tag(0x0003, &v.digest);
    tag(0x0020, &v.signature);
    tag(0x0030, &v.auth_type.to_le_bytes());
    if let Some(hint) = &v.hint {
        tag(0x1000, hint);
    }
    b.extend_from_slice(&[0, 0]);
    b.resize(HEADER, 0xFF);
    out[..HEADER].copy_from_slice(&b);
    Ok(())
}

// ---- the sealed profile

/// Where the hint's tag stands in a sealed header.
const HINT_PLACE: usize = 138;

pub fn read_sealed(s: &[u8]) -> Result<Header, Refusal> {
    let v = read_header(s)?;
    let mut form = [0; HEADER];
    write_header(&mut form, &v)?;
    let difference = (0..HEADER).find(|i| s[*i] != form[*i]);
    match (difference, v.hint) {
        (None, Some(_)) => Ok(v),
        (Some(at), Some(_)) => refuse(21, at as u64),
        (Some(at), None) if at < HINT_PLACE => refuse(21, at as u64),
        (_, None) => refuse(21, HINT_PLACE as u64),
    }
}

pub fn write_sealed(out: &mut [u8], v: &Header) -> Result<(), Refusal> {
    if out.len() < HEADER {
        return refuse(16, 0);
    }
    if v.size == 0 {
        return refuse(3, 4);
    }
    if v.hint.is_none() {
        return refuse(21, HINT_PLACE as u64);
    }
    write_header(out, v)
}

// ---- the release sheet

#[derive(Clone, Debug, PartialEq, Eq)]
pub struct Sheet {
    pub version: u32,
    pub timestamp: u64,
    pub auth_type: u16,
    pub signature: [u8; 64],
    pub hint: Option<[u8; 32]>,
}

/// The names of a sheet's lines, in the order of the types that they are for.
pub const NAMES: [(&str, u64); 5] =
    [("version", 0x0001), ("timestamp", 0x0002), ("signature", 0x0020), ("auth", 0x0030), ("hint", 0x1000)];

/// Decimal digits and nothing else, of a number below 2^bits. Leading zeros are taken.
fn decimal(value: &[u8], bits: u32) -> Option<u64> {
    if value.is_empty() {
        return None;
    }
    let mut sum = 0u128;
    for c in value {
        let digit = (*c as char).to_digit(10)?;
        sum = (sum * 10 + digit as u128).min(1 << 64);
    }
    (sum < 1 << bits).then_some(sum as u64)
}

/// Two hex digits for each of N bytes, the high one first, and nothing else.
fn hex_digits<const N: usize>(value: &[u8]) -> Option<[u8; N]> {
    let digits: Option<Vec<u8>> = value.iter().map(|c| (*c as char).to_digit(16).map(|d| d as u8)).collect();
    let digits = digits.filter(|all| all.len() == 2 * N)?;
    Some(std::array::from_fn(|i| 16 * digits[2 * i] + digits[2 * i + 1]))
}

pub fn read_sheet(text: &[u8]) -> Result<Sheet, Refusal> {
    let (mut version, mut timestamp, mut auth_type, mut signature, mut hint) = (None, None, None, None, None);
    for (i, line) in text.split(|c| *c == b'\n').enumerate() {
        if line.is_empty() || line[0] == b'#' {
            continue;
        }
        let number = i as u64 + 1;
        let space = match line.iter().position(|c| *c == b' ') {
            None => return refuse(101, number),
            Some(at) => at,
        };
        let (name, value) = (&line[..space], &line[space + 1..]);
        let (known, repeated) = match name {
            b"version" => (decimal(value, 32).is_some(), version.is_some()),
            b"timestamp" => (decimal(value, 64).is_some(), timestamp.is_some()),
            b"auth" => (decimal(value, 16).is_some(), auth_type.is_some()),
            b"signature" => (hex_digits::<64>(value).is_some(), signature.is_some()),
            b"hint" => (value == b"no" || hex_digits::<32>(value).is_some(), hint.is_some()),
            _ => return refuse(102, number),
        };
        if !known {
            return refuse(103, number);
        }
        if repeated {
            return refuse(104, number);
        }
        match name {
            b"version" => version = decimal(value, 32),
            b"timestamp" => timestamp = decimal(value, 64),
            b"auth" => auth_type = decimal(value, 16),
            b"signature" => signature = hex_digits(value),
            _ => hint = Some(hex_digits(value)),
        }
    }
    let stated = [version.is_some(), timestamp.is_some(), signature.is_some(), auth_type.is_some(), hint.is_some()];
    if let Some(missing) = stated.iter().position(|s| !s) {
        return refuse(105, NAMES[missing].1);
    }
    Ok(Sheet {
        version: version.unwrap() as u32,
        timestamp: timestamp.unwrap(),
        auth_type: auth_type.unwrap() as u16,
        signature: signature.unwrap(),
        hint: hint.unwrap(),
    })
}

/// The header of a firmware: its size is the firmware's, its digest covers what the header has before it and the firmware, all else is
/// the sheet's. The digest has no say in what stands before its tag, so it is found in a header that has none yet.
pub fn make_header(out: &mut [u8], firmware: &[u8], sheet: &Sheet) -> Result<(), Refusal> {
    if out.len() < HEADER {
        return refuse(16, 0);
    }
    if firmware.is_empty() || firmware.len() >= 1 << 32 {
        return refuse(3, 4);
    }
    let mut header = Header {
        size: firmware.len() as u32,
        version: sheet.version,
        timestamp: sheet.timestamp,
        digest: [0; 32],
        signature: sheet.signature,
        auth_type: sheet.auth_type,
        hint: sheet.hint,
    };
    let mut image = vec![0; HEADER];
    write_header(&mut image, &header)?;
    image.extend_from_slice(firmware);
    header.digest = sha256(&covered(&image, header.size));
    write_header(out, &header)
}

// ---- the flash

#[derive(Clone, Copy, Debug, PartialEq, Eq)]
pub struct Geometry {
    pub n: usize,
    pub s: usize,
}

impl Geometry {
    pub fn within_rules(&self) -> bool {
        let counts = self.n >= 2 && self.n <= 512 && self.s >= 256 && self.s <= 131_072 && self.s % 256 == 0;
        counts && self.trailer() <= self.s
    }

    pub fn m(&self) -> usize {
        self.n - 1
    }

    /// The status byte, and the bytes of the flags, the last of which may be half used.
    fn trailer(&self) -> usize {
        let (bytes, over) = (self.m() / 2, self.m() % 2);
        1 + bytes + over
    }
}

#[derive(Clone, Debug, PartialEq, Eq)]
pub struct Flash {
    pub boot: Vec<u8>,
    pub update: Vec<u8>,
    pub swap: Vec<u8>,
}

impl Flash {
    pub fn fits(&self, g: Geometry) -> bool {
        g.within_rules() && self.boot.len() == g.n * g.s && self.update.len() == g.n * g.s && self.swap.len() == g.s
    }

    pub fn flag(&self, g: Geometry, i: usize) -> u8 {
        let byte = self.update[g.n * g.s - 2 - i / 2];
        if i % 2 == 0 {
            byte & 0x0F
        } else {
            byte >> 4
        }
    }

    fn set_flag(&mut self, g: Geometry, i: usize, value: u8) {
        let byte = &mut self.update[g.n * g.s - 2 - i / 2];
        if i % 2 == 0 {
            *byte = (*byte & 0xF0) | value;
        } else {
            *byte = (*byte & 0x0F) | (value << 4);
        }
    }

    pub fn flags(&self, g: Geometry) -> Vec<u8> {
        (0..g.m()).map(|i| self.flag(g, i)).collect()
    }
}

pub fn well_formed(flags: &[u8]) -> bool {
    let rest: Vec<u8> = flags.iter().copied().skip_while(|f| *f == 0).collect();
    match rest.first() {
        None => true,
        Some(first) => [0xF, 7, 3].contains(first) && rest[1..].iter().all(|f| *f == 0xF),
    }
}

// ---- the image check

/// Where the digest's tag begins in a header that was read.
fn digest_tag(header: &[u8]) -> usize {
    let mut p = 8;
    loop {
        match next_tag(header, p) {
            Ok(Some((at, 0x0003, _))) => return at,
            Ok(Some((at, _, length))) => p = at + 4 + length,
            _ => panic!("a header that was read has no digest"),
        }
    }
}

/// What the digest of an image covers: the header's bytes before the digest's tag, whatever they are, then the firmware.
fn covered(image: &[u8], size: u32) -> Vec<u8> {
    [&image[..digest_tag(image)], &image[HEADER..HEADER + size as usize]].concat()
}

/// The digest is the one that the header states.
fn check_digest(image: &[u8], h: Header) -> Result<Header, Refusal> {
    if sha256(&covered(image, h.size)) != h.digest {
        return refuse(9, HEADER as u64);
    }
    Ok(h)
}

pub fn check_image(g: Geometry, partition: &[u8]) -> Result<Header, Refusal> {
    if !g.within_rules() || partition.len() != g.n * g.s {
        return refuse(1, 0);
    }
    let h = read_header(partition)?;
    if h.size as usize > g.m() * g.s - HEADER {
        return refuse(3, 4);
    }
    check_digest(partition, h)
}

/// The same of a file: its bytes stand for the firmware sectors.
pub fn check_firmware(image: &[u8]) -> Result<Header, Refusal> {
    let h = read_header(image)?;
    if h.size as usize > image.len() - HEADER {
        return refuse(3, 4);
    }
    check_digest(image, h)
}

// ---- operations

#[derive(Clone, Copy, Debug, PartialEq, Eq)]
pub enum Area {
    Boot,
    Update,
    Swap,
}

#[derive(Clone, Copy, Debug, PartialEq, Eq)]
pub enum Operation {
    Erase(Area, usize),
    /// From, to, sector.
    Copy(Area, Area, usize),
    Flag(usize, u8),
    EraseTrailer(Area),
    Status(Area, u8),
}

impl Operation {
    /// The sector that a loss of power may leave with any bytes.
    pub fn may_tear(&self) -> Option<(Area, usize)> {
        match *self {
            Operation::Erase(a, i) => Some((a, i)),
            Operation::Copy(_, a, i) => Some((a, i)),
            _ => None,
        }
    }
}

impl Flash {
    pub fn sector(&self, g: Geometry, a: Area, i: usize) -> &[u8] {
        match a {
            Area::Boot => &self.boot[i * g.s..(i + 1) * g.s],
            Area::Update => &self.update[i * g.s..(i + 1) * g.s],
            Area::Swap => &self.swap,
        }
    }

    pub fn set_sector(&mut self, g: Geometry, a: Area, i: usize, bytes: &[u8]) {
        match a {
            Area::Boot => self.boot[i * g.s..(i + 1) * g.s].copy_from_slice(bytes),
            Area::Update => self.update[i * g.s..(i + 1) * g.s].copy_from_slice(bytes),
            Area::Swap => self.swap.copy_from_slice(bytes),
        }
    }

    pub fn perform(&mut self, g: Geometry, op: Operation) {
        match op {
            Operation::Erase(a, i) => self.set_sector(g, a, i, &vec![0xFF; g.s]),
            Operation::Copy(from, to, i) => {
                let bytes = self.sector(g, from, i).to_vec();
                self.set_sector(g, to, i, &bytes);
            }
            Operation::Flag(i, value) => self.set_flag(g, i, value),
            Operation::EraseTrailer(a) => self.set_sector(g, a, g.m(), &vec![0xFF; g.s]),
            Operation::Status(Area::Boot, value) => *self.boot.last_mut().unwrap() = value,
            Operation::Status(_, value) => *self.update.last_mut().unwrap() = value,
        }
    }
}

/// The operations of an exchange from here to its last leg, each leg from its top.
fn legs(flags: &[u8]) -> Vec<Operation> {
    let mut all = Vec::new();
    for (i, flag) in flags.iter().enumerate() {
        let from = [0xF, 7, 3, 0].iter().position(|f| f == flag).unwrap();
        let table = [
            [Operation::Erase(Area::Swap, i), Operation::Copy(Area::Update, Area::Swap, i), Operation::Flag(i, 7)],
            [Operation::Erase(Area::Update, i), Operation::Copy(Area::Boot, Area::Update, i), Operation::Flag(i, 3)],
            [Operation::Erase(Area::Boot, i), Operation::Copy(Area::Swap, Area::Boot, i), Operation::Flag(i, 0)],
        ];
        for leg in &table[from..] {
            all.extend_from_slice(leg);
        }
    }
    all
}

// ---- the first checks of every call on the flash

/// BOOT's and UPDATE's status, or refusal 1 or 10.
fn statuses(g: Geometry, f: &Flash) -> Result<(u8, u8), Refusal> {
    if !f.fits(g) {
        return refuse(1, 0);
    }
    let boot = *f.boot.last().unwrap();
    let update = *f.update.last().unwrap();
    if ![NEW, TESTING, SUCCESS].contains(&boot) || ![NEW, UPDATING].contains(&update) {
        return refuse(10, 0);
    }
    Ok((boot, update))
}

// ---- power-up

#[derive(Clone, Copy, Debug, PartialEq, Eq)]
pub enum Outcome {
    /// Number, inner number, inner place.
    Refused(u64, u64, u64),
    Cut,
    Run,
    RunOnTest,
    RunFallenBack,
}

#[derive(Clone, Copy, Debug, PartialEq, Eq)]
pub struct Answer {
    pub outcome: Outcome,
    pub count: u64,
    /// Of a turned-down update: number and place.
    pub reason: Option<(u64, u64)>,
}

/// What a power-up is to do: its operations in order, and the outcome once all are done and BOOT is good.
pub struct Plan {
    pub operations: Vec<Operation>,
    pub outcome: Outcome,
    pub reason: Option<(u64, u64)>,
}

fn planned(operations: Vec<Operation>, outcome: Outcome) -> Result<Plan, Outcome> {
    Ok(Plan { operations, outcome, reason: None })
}

pub fn plan(g: Geometry, f: &Flash) -> Result<Plan, Outcome> {
    let (boot, update) = statuses(g, f).map_err(|r| Outcome::Refused(r.number, 0, 0))?;
    if update == NEW && boot != TESTING {
        return planned(vec![], Outcome::Run);
    }
    let flags = f.flags(g);
    if !well_formed(&flags) {
        return Err(Outcome::Refused(11, 0, 0));
    }
    let all_f = flags.iter().all(|x| *x == 0xF);
    if update == NEW {
        if all_f {
            if let Err(r) = check_image(g, &f.update) {
                return Err(Outcome::Refused(13, r.number, r.place));
            }
        }
        let mut operations = legs(&flags);
        operations.push(Operation::Status(Area::Boot, SUCCESS));
        return planned(operations, Outcome::RunFallenBack);
    }
    if boot == TESTING && flags.iter().any(|x| *x != 0) {
        return Err(Outcome::Refused(11, 0, 0));
    }
    if all_f && boot != TESTING {
        let turn_down = |number, place| {
            Ok(Plan {
                operations: vec![Operation::EraseTrailer(Area::Update)],
                outcome: Outcome::Run,
                reason: Some((number, place)),
            })
        };
        let newer = match check_image(g, &f.update) {
            Err(r) => return turn_down(r.number, r.place),
            Ok(h) => h.version,
        };
        match check_image(g, &f.boot) {
            Err(r) => return Err(Outcome::Refused(12, r.number, r.place)),
            Ok(h) if newer <= h.version => return turn_down(15, 0),
            Ok(_) => {}
        }
    }
    let mut operations = legs(&flags);
    if boot == SUCCESS {
        operations.push(Operation::EraseTrailer(Area::Boot));
    }
    if boot != TESTING {
        operations.push(Operation::Status(Area::Boot, TESTING));
    }
    operations.push(Operation::EraseTrailer(Area::Update));
    planned(operations, Outcome::RunOnTest)
}

pub fn power_up(g: Geometry, f: &mut Flash, budget: u64) -> Answer {
    let plan = match plan(g, f) {
        Err(outcome) => return Answer { outcome, count: 0, reason: None },
        Ok(plan) => plan,
    };
    let done = budget.min(plan.operations.len() as u64);
    for op in &plan.operations[..done as usize] {
        f.perform(g, *op);
    }
    let outcome = if done < plan.operations.len() as u64 {
        Outcome::Cut
    } else {
        match check_image(g, &f.boot) {
            Ok(_) => plan.outcome,
            Err(r) => Outcome::Refused(12, r.number, r.place),
        }
    };
    Answer { outcome, count: done, reason: plan.reason }
}

// ---- arm and confirm

pub fn arm(g: Geometry, f: &mut Flash) -> Result<u64, Refusal> {
    let (boot, update) = statuses(g, f)?;
    if update != NEW || boot == TESTING {
        return refuse(14, 0);
    }
    f.perform(g, Operation::EraseTrailer(Area::Update));
    f.perform(g, Operation::Status(Area::Update, UPDATING));
    Ok(2)
}

pub fn confirm(g: Geometry, f: &mut Flash) -> Result<u64, Refusal> {
    let (boot, update) = statuses(g, f)?;
    if boot != TESTING || update != NEW {
        return refuse(14, 0);
    }
    let flags = f.flags(g);
    if !well_formed(&flags) {
        return refuse(11, 0);
    }
    if flags.iter().any(|x| *x != 0xF) {
        return refuse(14, 0);
    }
    f.perform(g, Operation::Status(Area::Boot, SUCCESS));
    Ok(1)
}

// ---- mending

/// The mark that was found, and how many bytes that hold flags differ from before.
#[derive(Clone, Copy, Debug, PartialEq, Eq)]
pub struct Mended {
    pub sector: usize,
    pub flag: u8,
    pub changed: usize,
}

/// The flags of a mark: 0 before its sector, F behind it.
fn flags_of_mark(m: usize, sector: usize, flag: u8) -> Vec<u8> {
    (0..m)
        .map(|i| match i.cmp(&sector) {
            std::cmp::Ordering::Less => 0,
            std::cmp::Ordering::Equal => flag,
            std::cmp::Ordering::Greater => 0xF,
        })
        .collect()
}

/// The areas that hold a sector of BOOT and of UPDATE as they were before the exchange: the table of places, by the sector's flag.
pub fn old_places(flag: u8) -> (Area, Area) {
    let old_boot = if flag == 0xF || flag == 7 { Area::Boot } else { Area::Update };
    let old_update = match flag {
        0xF => Area::Update,
        0 => Area::Boot,
        _ => Area::Swap,
    };
    (old_boot, old_update)
}

/// Both partitions as they were before the exchange, each with an empty trailer sector.
pub fn old_images(g: Geometry, f: &Flash, flags: &[u8]) -> (Vec<u8>, Vec<u8>) {
    let (mut boot, mut update) = (Vec::new(), Vec::new());
    for (i, flag) in flags.iter().enumerate() {
        let (old_boot, old_update) = old_places(*flag);
        boot.extend_from_slice(f.sector(g, old_boot, i));
        update.extend_from_slice(f.sector(g, old_update, i));
    }
    boot.resize(g.n * g.s, 0xFF);
    update.resize(g.n * g.s, 0xFF);
    (boot, update)
}

/// Whether both old images are good and UPDATE's is the newer one. The headers are read first, since most marks fail by them.
fn mark_fits(g: Geometry, f: &Flash, flags: &[u8]) -> bool {
    let (old_boot, old_update) = old_places(flags[0]);
    let newer = match (read_header(f.sector(g, old_update, 0)), read_header(f.sector(g, old_boot, 0))) {
        (Ok(u), Ok(b)) => u.version > b.version,
        _ => false,
    };
    if !newer {
        return false;
    }
    let (boot, update) = old_images(g, f, flags);
    check_image(g, &update).is_ok() && check_image(g, &boot).is_ok()
}

pub fn mend(g: Geometry, f: &mut Flash) -> Result<Mended, Refusal> {
    let (boot, update) = statuses(g, f)?;
    if (boot, update) != (NEW, UPDATING) && (boot, update) != (SUCCESS, UPDATING) {
        return refuse(14, 0);
    }
    let m = g.m();
    let mut marks: Vec<(usize, u8)> = (0..m).flat_map(|i| [(i, 0xF), (i, 7), (i, 3)]).collect();
    marks.push((m, 0));
    for (sector, flag) in marks {
        let flags = flags_of_mark(m, sector, flag);
        if mark_fits(g, f, &flags) {
            let before = f.update.clone();
            for (i, flag) in flags.iter().enumerate() {
                f.set_flag(g, i, *flag);
            }
            let changed = before.iter().zip(&f.update).filter(|(a, b)| a != b).count();
            return Ok(Mended { sector, flag, changed });
        }
    }
    refuse(17, 0)
}

// ---- erase counts

/// What a counted call leaves of the counts: the row, and the total that goes out.
#[derive(Clone, Debug, PartialEq, Eq)]
pub struct Counts {
    pub row: Vec<u32>,
    pub total: u64,
}

/// The sum of a row.
pub fn sum(row: &[u32]) -> u64 {
    row.iter().fold(0, |all, count| all + *count as u64)
}

/// The sectors that the row counts, one behind the other: all of BOOT, all of UPDATE, SWAP.
fn counted_sectors(g: Geometry) -> impl Iterator<Item = (Area, usize)> {
    let boot = (0..g.n).map(|i| (Area::Boot, i));
    let update = (0..g.n).map(|i| (Area::Update, i));
    boot.chain(update).chain([(Area::Swap, 0)])
}

/// The sector that an operation erases, if it is an erase. SWAP is one sector, whatever sector goes through it.
fn erased_sector(g: Geometry, op: Operation) -> Option<(Area, usize)> {
    match op {
        Operation::Erase(Area::Swap, _) => Some((Area::Swap, 0)),
        Operation::Erase(area, i) => Some((area, i)),
        Operation::EraseTrailer(area) => Some((area, g.n - 1)),
        Operation::Copy(..) | Operation::Flag(..) | Operation::Status(..) => None,
    }
}

/// Refusals 1, 19 and 20, which come before all others.
fn check_counts(g: Geometry, f: &Flash, counts: &Counts) -> Result<(), Refusal> {
    if !f.fits(g) || counts.row.len() != 2 * g.n + 1 {
        return refuse(1, 0);
    }
    if counts.total != sum(&counts.row) {
        return refuse(19, 0);
    }
    let most = 4_294_967_295 - g.m() as u64;
    if counts.row.iter().any(|count| *count as u64 > most) {
        return refuse(20, 0);
    }
    Ok(())
}

impl Counts {
    /// Counts the erases among these operations, which were completed; the total goes out as the sum.
    pub fn count(&mut self, g: Geometry, done: &[Operation]) {
        for (count, sector) in self.row.iter_mut().zip(counted_sectors(g)) {
            *count += done.iter().filter(|op| erased_sector(g, **op) == Some(sector)).count() as u32;
        }
        self.total = sum(&self.row);
    }
}

/// A power-up that counts its erases: those among the operations that it was to do and did, the first so many of its plan.
pub fn power_up_counted(g: Geometry, f: &mut Flash, budget: u64, counts: &mut Counts) -> Answer {
    if let Err(r) = check_counts(g, f, counts) {
        return Answer { outcome: Outcome::Refused(r.number, 0, 0), count: 0, reason: None };
    }
    let operations = plan(g, f).map_or(vec![], |plan| plan.operations);
    let answer = power_up(g, f, budget);
    counts.count(g, &operations[..answer.count as usize]);
    answer
}

/// An arm that counts its erase.
pub fn arm_counted(g: Geometry, f: &mut Flash, counts: &mut Counts) -> Result<u64, Refusal> {
    check_counts(g, f, counts)?;
    let done = arm(g, f)?;
    counts.count(g, &[Operation::EraseTrailer(Area::Update), Operation::Status(Area::Update, UPDATING)]);
    Ok(done)
}
