//! One call of the C interface: before it all that is passed, and after it all that it left.
use crate::reference::{Flash, Geometry, HEADER};
use std::ops::{Deref, DerefMut};

/// So many elements stand before and behind a lent buffer, and show a write outside it. Odd, so that bytes lie at odd addresses.
const GUARD: usize = 257;

#[derive(Clone, PartialEq)]
pub struct Lent<T>(Vec<T>);

impl<T: Copy + From<u8> + PartialEq> Lent<T> {
    pub fn new(content: &[T]) -> Self {
        let guard = [T::from(0xA5); GUARD];
        Lent([&guard[..], content, &guard].concat())
    }

    /// The first place where two buffers differ, and what stands there. A place outside the buffer is negative, or its length or more.
    pub fn difference(&self, other: &Self) -> Option<(isize, T, T)> {
        let at = (0..self.0.len()).find(|i| self.0[*i] != other.0[*i])?;
        Some((at as isize - GUARD as isize, self.0[at], other.0[at]))
    }
}

impl<T> Deref for Lent<T> {
    type Target = [T];

    fn deref(&self) -> &[T] {
        &self.0[GUARD..self.0.len() - GUARD]
    }
}

impl<T> DerefMut for Lent<T> {
    fn deref_mut(&mut self) -> &mut [T] {
        let end = self.0.len() - GUARD;
        &mut self.0[GUARD..end]
    }
}

#[derive(Clone, PartialEq)]
pub struct LentFlash {
    pub boot: Lent<u8>,
    pub update: Lent<u8>,
    pub swap: Lent<u8>,
}

impl LentFlash {
    pub fn new(f: &Flash) -> Self {
        LentFlash { boot: Lent::new(&f.boot), update: Lent::new(&f.update), swap: Lent::new(&f.swap) }
    }

    pub fn flash(&self) -> Flash {
        Flash { boot: self.boot.to_vec(), update: self.update.to_vec(), swap: self.swap.to_vec() }
    }
}

/// The values of a header that are passed as numbers, besides its size.
#[derive(Clone, Copy, PartialEq)]
pub struct Values {
    pub version: u32,
    pub timestamp: u64,
    pub auth_type: u16,
    pub has_hint: bool,
}

#[derive(Clone, PartialEq)]
pub enum Call {
    Sha256 { message: Lent<u8>, digest: Lent<u8> },
    ReadHeader { input: Lent<u8>, numbers: Lent<u64>, bytes: Lent<u8> },
    WriteHeader { out: Lent<u8>, size: u32, values: Values, bytes: Lent<u8>, place: Lent<u64> },
    ReadSealed { input: Lent<u8>, numbers: Lent<u64>, bytes: Lent<u8> },
    WriteSealed { out: Lent<u8>, size: u32, values: Values, bytes: Lent<u8>, place: Lent<u64> },
    MakeHeader { out: Lent<u8>, firmware: Lent<u8>, values: Values, bytes: Lent<u8>, place: Lent<u64> },
    NextTag { input: Lent<u8>, at: usize, tag: Lent<u64> },
    ReadSheet { text: Lent<u8>, numbers: Lent<u64>, bytes: Lent<u8> },
    CheckImage { g: Geometry, partition: Lent<u8>, numbers: Lent<u64>, bytes: Lent<u8> },
    CheckFirmware { image: Lent<u8>, numbers: Lent<u64>, bytes: Lent<u8> },
    PowerUp { g: Geometry, flash: LentFlash, budget: u64, answer: Lent<u64> },
    Arm { g: Geometry, flash: LentFlash, count: Lent<u64> },
    Confirm { g: Geometry, flash: LentFlash, count: Lent<u64> },
    Mend { g: Geometry, flash: LentFlash, numbers: Lent<u64> },
    PowerUpCounted { g: Geometry, flash: LentFlash, budget: u64, row: Lent<u32>, total: u64, answer: Lent<u64> },
    ArmCounted { g: Geometry, flash: LentFlash, row: Lent<u32>, total: u64, answer: Lent<u64> },
}

pub enum Part<'a> {
    Number(u64),
    Bytes(&'a Lent<u8>),
    Row(&'a Lent<u64>),
    Counts(&'a Lent<u32>),
}

fn sizes<'a>(g: &Geometry) -> Vec<(&'static str, Part<'a>)> {
    vec![("sectors", Part::Number(g.n as u64)), ("size", Part::Number(g.s as u64))]
}

fn values<'a>(v: &Values) -> Vec<(&'static str, Part<'a>)> {
    vec![
        ("version", Part::Number(v.version as u64)),
        ("timestamp", Part::Number(v.timestamp)),
        ("auth_type", Part::Number(v.auth_type as u64)),
        ("has_hint", Part::Number(v.has_hint as u64)),
    ]
}

fn buffers(f: &LentFlash) -> Vec<(&'static str, Part<'_>)> {
    vec![("boot", Part::Bytes(&f.boot)), ("update", Part::Bytes(&f.update)), ("swap", Part::Bytes(&f.swap))]
}

/// A buffer's name, its length, and the length that the rules ask for.
type Length = (&'static str, usize, usize);

fn partition_length(name: &'static str, g: &Geometry, p: &[u8]) -> Vec<Length> {
    if g.within_rules() {
        vec![(name, p.len(), g.n * g.s)]
    } else {
        vec![]
    }
}

fn flash_lengths(g: &Geometry, f: &LentFlash) -> Vec<Length> {
    let mut all = partition_length("boot", g, &f.boot);
    all.extend(partition_length("update", g, &f.update));
    if g.within_rules() {
        all.push(("swap", f.swap.len(), g.s));
    }
    all
}

fn counted_lengths(g: &Geometry, f: &LentFlash, row: &[u32], answer: Length) -> Vec<Length> {
    let mut all = flash_lengths(g, f);
    if g.within_rules() {
        all.push(("row", row.len(), 2 * g.n + 1));
    }
    all.push(answer);
    all
}

impl Call {
    pub fn name(&self) -> &'static str {
        match self {
            Call::Sha256 { .. } => "sha256",
            Call::ReadHeader { .. } => "read_header",
            Call::WriteHeader { .. } => "write_header",
            Call::ReadSealed { .. } => "read_sealed",
            Call::WriteSealed { .. } => "write_sealed",
            Call::MakeHeader { .. } => "make_header",
            Call::NextTag { .. } => "next_tag",
            Call::ReadSheet { .. } => "read_sheet",
            Call::CheckImage { .. } => "check_image",
            Call::CheckFirmware { .. } => "check_firmware",
            Call::PowerUp { .. } => "power_up",
            Call::Arm { .. } => "arm",
            Call::Confirm { .. } => "confirm",
            Call::Mend { .. } => "mend",
            Call::PowerUpCounted { .. } => "power_up_counted",
            Call::ArmCounted { .. } => "arm_counted",
        }
    }

    /// All that is passed, by the names of tainhosa.h.
    pub fn parts(&self) -> Vec<(&'static str, Part<'_>)> {
        match self {
            Call::Sha256 { message, digest } => vec![("message", Part::Bytes(message)), ("digest", Part::Bytes(digest))],
            Call::ReadHeader { input, numbers, bytes } | Call::ReadSealed { input, numbers, bytes } => {
                vec![("input", Part::Bytes(input)), ("numbers", Part::Row(numbers)), ("bytes", Part::Bytes(bytes))]
            }
            Call::WriteHeader { out, size, values: v, bytes, place }
            | Call::WriteSealed { out, size, values: v, bytes, place } => {
                let mut all = vec![("out", Part::Bytes(out)), ("size", Part::Number(*size as u64))];
                all.extend(values(v));
                all.extend([("bytes", Part::Bytes(bytes)), ("place", Part::Row(place))]);
                all
            }
            Call::MakeHeader { out, firmware, values: v, bytes, place } => {
                let mut all = vec![("out", Part::Bytes(out)), ("firmware", Part::Bytes(firmware))];
                all.extend(values(v));
                all.extend([("bytes", Part::Bytes(bytes)), ("place", Part::Row(place))]);
                all
            }
            Call::NextTag { input, at, tag } => {
                vec![("input", Part::Bytes(input)), ("at", Part::Number(*at as u64)), ("tag", Part::Row(tag))]
            }
            Call::ReadSheet { text, numbers, bytes } => {
                vec![("text", Part::Bytes(text)), ("numbers", Part::Row(numbers)), ("bytes", Part::Bytes(bytes))]
            }
            Call::CheckFirmware { image, numbers, bytes } => {
                vec![("image", Part::Bytes(image)), ("numbers", Part::Row(numbers)), ("bytes", Part::Bytes(bytes))]
            }
            Call::CheckImage { g, partition, numbers, bytes } => {
                let mut all = sizes(g);
                all.extend([
                    ("partition", Part::Bytes(partition)),
                    ("numbers", Part::Row(numbers)),
                    ("bytes", Part::Bytes(bytes)),
                ]);
                all
            }
            Call::PowerUp { g, flash, budget, answer } => {
                let mut all = sizes(g);
                all.extend(buffers(flash));
                all.extend([("budget", Part::Number(*budget)), ("answer", Part::Row(answer))]);
                all
            }
            Call::Arm { g, flash, count } | Call::Confirm { g, flash, count } => {
                let mut all = sizes(g);
                all.extend(buffers(flash));
                all.push(("count", Part::Row(count)));
                all
            }
            Call::Mend { g, flash, numbers } => {
                let mut all = sizes(g);
                all.extend(buffers(flash));
                all.push(("numbers", Part::Row(numbers)));
                all
            }
            Call::PowerUpCounted { g, flash, budget, row, total, answer } => {
                let mut all = sizes(g);
                all.extend(buffers(flash));
                all.extend([("budget", Part::Number(*budget)), ("row", Part::Counts(row))]);
                all.extend([("total", Part::Number(*total)), ("answer", Part::Row(answer))]);
                all
            }
            Call::ArmCounted { g, flash, row, total, answer } => {
                let mut all = sizes(g);
                all.extend(buffers(flash));
                all.extend([("row", Part::Counts(row)), ("total", Part::Number(*total)), ("answer", Part::Row(answer))]);
                all
            }
        }
    }

    /// The buffers whose length the rules fix.
    pub fn lengths(&self) -> Vec<Length> {
        match self {
            Call::Sha256 { digest, .. } => vec![("digest", digest.len(), 32)],
            Call::ReadHeader { numbers, bytes, .. } | Call::ReadSealed { numbers, bytes, .. } => {
                vec![("numbers", numbers.len(), 6), ("bytes", bytes.len(), 128)]
            }
            Call::WriteHeader { bytes, place, .. } | Call::WriteSealed { bytes, place, .. } => {
                vec![("bytes", bytes.len(), 128), ("place", place.len(), 1)]
            }
            Call::MakeHeader { bytes, place, .. } => vec![("bytes", bytes.len(), 96), ("place", place.len(), 1)],
            Call::NextTag { tag, .. } => vec![("tag", tag.len(), 6)],
            Call::ReadSheet { numbers, bytes, .. } => vec![("numbers", numbers.len(), 5), ("bytes", bytes.len(), 96)],
            Call::CheckFirmware { numbers, bytes, .. } => vec![("numbers", numbers.len(), 6), ("bytes", bytes.len(), 128)],
            Call::CheckImage { g, partition, numbers, bytes } => {
                let mut all = partition_length("partition", g, partition);
                all.extend([("numbers", numbers.len(), 6), ("bytes", bytes.len(), 128)]);
                all
            }
            Call::PowerUp { g, flash, answer, .. } => {
                let mut all = flash_lengths(g, flash);
                all.push(("answer", answer.len(), 6));
                all
            }
            Call::Arm { g, flash, count } | Call::Confirm { g, flash, count } => {
                let mut all = flash_lengths(g, flash);
                all.push(("count", count.len(), 1));
                all
            }
            Call::Mend { g, flash, numbers } => {
                let mut all = flash_lengths(g, flash);
                all.push(("numbers", numbers.len(), 3));
                all
            }
            Call::PowerUpCounted { g, flash, row, answer, .. } => counted_lengths(g, flash, row, ("answer", answer.len(), 7)),
            Call::ArmCounted { g, flash, row, answer, .. } => counted_lengths(g, flash, row, ("answer", answer.len(), 2)),
        }
    }

    /// The geometry that is asked for, if one is.
    pub fn geometry(&self) -> Option<Geometry> {
        match self {
            Call::CheckImage { g, .. } | Call::PowerUp { g, .. } | Call::Arm { g, .. } => Some(*g),
            Call::Confirm { g, .. } | Call::Mend { g, .. } => Some(*g),
            Call::PowerUpCounted { g, .. } | Call::ArmCounted { g, .. } => Some(*g),
            _ => None,
        }
    }

    /// Whether a buffer is longer than any that a short test would pass.
    pub fn is_long(&self) -> bool {
        match self {
            Call::Sha256 { message, .. } => message.len() > 5000,
            Call::ReadHeader { input, .. } | Call::ReadSealed { input, .. } => input.len() > 4 * HEADER,
            Call::NextTag { input, .. } => input.len() > 4 * HEADER,
            Call::WriteHeader { out, .. } | Call::WriteSealed { out, .. } => out.len() > 4 * HEADER,
            Call::MakeHeader { firmware, .. } => firmware.len() > 5000,
            Call::ReadSheet { text, .. } => text.len() > 2000,
            Call::CheckFirmware { image, .. } => image.len() > 5000,
            Call::CheckImage { g, .. } | Call::PowerUp { g, .. } | Call::Arm { g, .. } => g.n > 6 || g.s > 768,
            Call::Confirm { g, .. } | Call::Mend { g, .. } => g.n > 6 || g.s > 768,
            Call::PowerUpCounted { g, .. } | Call::ArmCounted { g, .. } => g.n > 6 || g.s > 768,
        }
    }
}
