//! Random calls of every kind.
use crate::call::{Call, Lent, LentFlash, Values};
use crate::inputs::*;
use crate::random::Random;
use crate::reference::*;
use crate::report::Compare;
use crate::sheets::sheet_text;

// ---- buffers

/// Mostly the right length, at times none, one less, one more, or many more.
fn any_length(r: &mut Random, right: usize) -> usize {
    if r.one_in(30) {
        r.pick(&[0, right - 1, right + 1, right + 1000])
    } else {
        right
    }
}

fn row(r: &mut Random, right: usize) -> Lent<u64> {
    let length = any_length(r, right);
    Lent::new(&r.numbers(length))
}

fn bytes(r: &mut Random, right: usize) -> Lent<u8> {
    let length = any_length(r, right);
    Lent::new(&r.bytes(length))
}

fn change_length(r: &mut Random, buffer: &mut Vec<u8>) {
    let right = buffer.len();
    let (short, long) = (r.below(right), right + r.within(2, 1000));
    buffer.resize(r.pick(&[0, right - 1, right + 1, short, long]), 0xFF);
}

// ---- SHA-256

fn try_message(c: &mut Compare, r: &mut Random, length: usize) {
    c.call(Call::Sha256 { message: Lent::new(&r.bytes(length)), digest: bytes(r, 32) });
}

/// Every length up to some blocks, long ones around the ends of blocks, and digests of other lengths.
pub fn try_messages(c: &mut Compare, r: &mut Random) {
    for length in 0..=600 {
        try_message(c, r, length);
    }
    for length in [5_001, 65_535, 65_591, 65_592, 131_072, 1_000_000, (1 << 20) - 9, (1 << 20) - 8, 1 << 20] {
        try_message(c, r, length);
    }
    for digest in [0, 31, 33, 64, 1032] {
        c.call(Call::Sha256 { message: Lent::new(&r.bytes(100)), digest: Lent::new(&r.bytes(digest)) });
    }
}

// ---- headers

/// The bytes to read a header from, with and without bytes behind it, and at times too few.
fn header_input(r: &mut Random) -> Vec<u8> {
    let (size, version) = (r.within(1, 40) as u32, any_version(r));
    let mut v = header(r, size, version);
    let wrong = any_wrong(r, 8);
    if wrong == 3 {
        v.size = 0;
    }
    let mut b = if r.one_in(30) { r.bytes(HEADER) } else { header_bytes(r, &v, wrong) };
    if r.one_in(5) {
        damage(r, &mut b, HEADER);
    }
    if r.one_in(3) {
        let behind = r.length(13);
        b.extend_from_slice(&r.bytes(behind));
    }
    if r.one_in(15) {
        let any = r.below(HEADER);
        b.truncate(r.pick(&[0, 1, 8, 254, 255, any]));
    }
    b
}

/// A sealed header, at times without a hint, or damaged, and with and without bytes behind it.
fn sealed_input(r: &mut Random) -> Vec<u8> {
    let (size, version) = (r.within(1, 40) as u32, any_version(r));
    let mut v = header(r, size, version);
    if !r.one_in(5) {
        v.hint = Some(r.bytes(32).try_into().unwrap());
    }
    let behind = if r.one_in(3) { r.length(13) } else { 0 };
    let mut b = r.bytes(HEADER + behind);
    write_header(&mut b, &v).unwrap();
    if r.one_in(3) {
        damage(r, &mut b, HEADER);
    }
    b
}

/// A place to look for a tag: often in the header, else behind it, far outside, where sums overflow, or above 32 bits.
fn any_place(r: &mut Random) -> usize {
    let far = r.next() as usize;
    let near = r.below(HEADER);
    let end = r.within(250, 260);
    let behind = r.length(13);
    let last = usize::MAX - r.below(10);
    r.pick(&[0, 8, near, near, near, end, behind, 300, far, last, (1 << 32) + 8, 1 << 63])
}

/// The walk from the first tag to its end or refusal, which is asked for once more: the answers and their rows.
pub fn walk(c: &mut Compare, r: &mut Random, input: &[u8]) -> Vec<(u32, Lent<u64>)> {
    let (mut at, mut ends, mut rows) = (8, 0, Vec::new());
    while ends < 2 {
        let tag = Lent::new(&r.numbers(6));
        if let (number, Call::NextTag { tag, .. }) = c.call(Call::NextTag { input: Lent::new(input), at, tag }) {
            at = tag[5] as usize;
            if tag[1] == 0 {
                ends += 1;
            }
            rows.push((number, tag));
        }
    }
    rows
}

fn any_values(r: &mut Random) -> Values {
    Values { version: any_version(r), timestamp: any_timestamp(r), auth_type: r.next() as u16, has_hint: r.one_in(2) }
}

/// The room to write a header to: at times too little, often with bytes behind it.
fn any_out(r: &mut Random) -> Lent<u8> {
    let (short, long, behind) = (r.below(HEADER), r.length(13), r.below(50));
    let room = r.pick(&[0, short, HEADER - 1, HEADER, HEADER, HEADER + 1, HEADER + behind, HEADER + behind, HEADER + long]);
    Lent::new(&r.bytes(room))
}

fn try_write(c: &mut Compare, r: &mut Random) {
    let any = r.next() as u32;
    let size = r.pick(&[0, 1, u32::MAX, any, any, any]);
    let (out, values) = (any_out(r), any_values(r));
    c.call(Call::WriteHeader { out: out.clone(), size, values, bytes: bytes(r, 128), place: row(r, 1) });
    c.call(Call::WriteSealed { out, size, values, bytes: bytes(r, 128), place: row(r, 1) });
}

/// The values that were read are written, and read again: they have to be the same.
fn write_and_read(c: &mut Compare, r: &mut Random, first: &Call, numbers: &[u64], bytes: &[u8]) {
    let values =
        Values { version: numbers[2] as u32, timestamp: numbers[3], auth_type: numbers[4] as u16, has_hint: numbers[5] == 1 };
    let out = Lent::new(&r.bytes(HEADER));
    let (_, written) =
        c.call(Call::WriteHeader { out, size: numbers[1] as u32, values, bytes: Lent::new(bytes), place: Lent::new(&[1]) });
    if let Call::WriteHeader { out, .. } = &written {
        let (numbers_room, bytes_room) = (Lent::new(&[1; 6]), Lent::new(&[1; 128]));
        let (_, again) = c.call(Call::ReadHeader { input: out.clone(), numbers: numbers_room, bytes: bytes_room });
        if !matches!(&again, Call::ReadHeader { numbers: n, bytes: b, .. } if n[..] == *numbers && b[..] == *bytes) {
            c.fail("read, write, read gives other values", &[first, &again]);
        }
    }
}

fn try_header(c: &mut Compare, r: &mut Random) {
    let b = header_input(r);
    let (answer, after) = c.call(Call::ReadHeader { input: Lent::new(&b), numbers: row(r, 6), bytes: bytes(r, 128) });
    if let (0, Call::ReadHeader { numbers, bytes, .. }) = (answer, &after) {
        if r.one_in(8) {
            write_and_read(c, r, &after, numbers, bytes);
        }
    }
    let input = Lent::new(&if r.one_in(2) { sealed_input(r) } else { b.clone() });
    c.call(Call::ReadSealed { input, numbers: row(r, 6), bytes: bytes(r, 128) });
    if r.one_in(6) {
        walk(c, r, &b);
    }
    c.call(Call::NextTag { input: Lent::new(&b), at: any_place(r), tag: row(r, 6) });
    try_write(c, r);
}

// ---- sheets and files

/// A firmware gets the header that the sheet's values and the firmware decide, and the file of both is good and has these values.
fn make_and_check(c: &mut Compare, r: &mut Random, sheet: &Call, numbers: &[u64], stated: &[u8]) {
    let (few, some) = (r.within(1, 300), r.length(14) + 1);
    let length = r.pick(&[few, few, few, some]);
    let firmware = r.bytes(length);
    let values =
        Values { version: numbers[1] as u32, timestamp: numbers[2], auth_type: numbers[3] as u16, has_hint: numbers[4] == 1 };
    let (_, made) = c.call(Call::MakeHeader {
        out: Lent::new(&r.bytes(HEADER)),
        firmware: Lent::new(&firmware),
        values,
        bytes: Lent::new(stated),
        place: Lent::new(&[1]),
    });
    if let Call::MakeHeader { out, .. } = &made {
        let file = [&out[..], &firmware].concat();
        let (numbers_room, bytes_room) = (Lent::new(&[1; 6]), Lent::new(&[1; 128]));
        let (_, checked) = c.call(Call::CheckFirmware { image: Lent::new(&file), numbers: numbers_room, bytes: bytes_room });
        let expected = [&[0, firmware.len() as u64], &numbers[1..]].concat();
        if !matches!(&checked, Call::CheckFirmware { numbers: n, bytes: b, .. } if n[..] == expected && b[32..] == *stated) {
            c.fail("the file of a made header and its firmware is not good, or has other values", &[sheet, &made, &checked]);
        }
    }
}

fn try_sheet(c: &mut Compare, r: &mut Random) {
    let text = Lent::new(&sheet_text(r));
    let (answer, after) = c.call(Call::ReadSheet { text, numbers: row(r, 5), bytes: bytes(r, 96) });
    if let (0, Call::ReadSheet { numbers, bytes, .. }) = (answer, &after) {
        make_and_check(c, r, &after, numbers, bytes);
    }
}

fn try_file(c: &mut Compare, r: &mut Random) {
    let image = Lent::new(&file(r));
    c.call(Call::CheckFirmware { image, numbers: row(r, 6), bytes: bytes(r, 128) });
    let (few, some) = (r.below(200), r.length(14));
    let length = r.pick(&[0, 1, few, few, some]);
    let (out, firmware, values) = (any_out(r), Lent::new(&r.bytes(length)), any_values(r));
    c.call(Call::MakeHeader { out, firmware, values, bytes: bytes(r, 96), place: row(r, 1) });
}

/// Firmwares of 2^32 bytes and of one more are refused. The zeros are lent by the system, which has not to keep them.
pub fn try_largest_firmware(c: &Compare) {
    const MOST: usize = (1 << 32) + 1;
    let layout = std::alloc::Layout::array::<u8>(MOST).unwrap();
    // The zeros are a buffer of that layout, and are given back behind the calls.
    let zeros = unsafe { std::alloc::alloc_zeroed(layout) };
    if zeros.is_null() {
        println!("a firmware of 2^32 bytes: not tried, since the system lends no such buffer");
        return;
    }
    for length in [MOST - 1, MOST] {
        let firmware = unsafe { std::slice::from_raw_parts(zeros, length) };
        let (mut out, mut place) = ([0xA5; 300], [7]);
        let values = tainhosa::raw::Values { version: 1, timestamp: 2, auth_type: 3, has_hint: false };
        let answer = tainhosa::raw::make_header(&mut out, firmware, values, &[0; 96], &mut place);
        if answer != 3 || place != [4] || out != [0xA5; 300] {
            c.fail(&format!("a firmware of {length} bytes is answered {answer} at {place:?}"), &[]);
        }
    }
    unsafe { std::alloc::dealloc(zeros, layout) };
}

// ---- images and flash

fn any_budget(r: &mut Random, g: Geometry) -> u64 {
    let all = 9 * (g.n.clamp(1, 512) as u64 - 1);
    let (few, some, any) = (r.below(5) as u64, r.next() % (all + 6), r.next());
    r.pick(&[few, some, some, all + few, any, 1 << 32, u64::MAX])
}

/// Mending, often with flags that were spoiled. Where it could take long, BOOT has no header, and every mark fails by that; on the
/// largest flashes it is not tried.
fn try_mend(c: &mut Compare, r: &mut Random, g: Geometry, f: &Flash) {
    if f.boot.len() > 1 << 19 {
        return;
    }
    let mut f = f.clone();
    if f.fits(g) {
        if r.one_in(2) {
            spoil_flags(r, g, &mut f);
        }
        if 3 * g.m() * g.m() * g.s > 400_000 {
            f.boot[..4].fill(0);
        }
    }
    c.call(Call::Mend { g, flash: LentFlash::new(&f), numbers: row(r, 3) });
}

/// A row of counts, mostly of the right length, and a total.
fn counts(r: &mut Random, g: Geometry) -> (Lent<u32>, u64) {
    let n = g.n.clamp(2, 600);
    let length = any_length(r, 2 * n + 1);
    let row = any_row(r, length, n - 1);
    let total = any_total(r, &row);
    (Lent::new(&row), total)
}

/// All seven calls on one flash, each on the flash as it is given.
fn try_calls(c: &mut Compare, r: &mut Random, g: Geometry, f: &Flash) {
    let partition = Lent::new(if r.one_in(2) { &f.boot } else { &f.update });
    let flash = LentFlash::new(f);
    c.call(Call::CheckImage { g, partition, numbers: row(r, 6), bytes: bytes(r, 128) });
    c.call(Call::PowerUp { g, flash: flash.clone(), budget: any_budget(r, g), answer: row(r, 6) });
    c.call(Call::Arm { g, flash: flash.clone(), count: row(r, 1) });
    c.call(Call::Confirm { g, flash: flash.clone(), count: row(r, 1) });
    try_mend(c, r, g, f);
    let (row_lent, total) = counts(r, g);
    c.call(Call::PowerUpCounted { g, flash: flash.clone(), budget: any_budget(r, g), row: row_lent, total, answer: row(r, 7) });
    let (row_lent, total) = counts(r, g);
    c.call(Call::ArmCounted { g, flash, row: row_lent, total, answer: row(r, 2) });
}

fn try_flash(c: &mut Compare, r: &mut Random, g: Geometry) {
    let mut f = flash(r, g);
    let mut asked = g;
    match r.below(40) {
        0 => asked = other_geometry(r, g),
        1 => change_length(r, &mut f.boot),
        2 => change_length(r, &mut f.update),
        3 => change_length(r, &mut f.swap),
        _ => {}
    }
    try_calls(c, r, asked, &f);
}

/// The smallest and the largest flashes.
pub fn try_corners(c: &mut Compare, r: &mut Random) {
    for (n, s) in [(2, 256), (2, 512), (511, 256), (512, 512), (2, 131_072), (512, 131_072)] {
        try_flash(c, r, Geometry { n, s });
    }
}

/// Some calls on one random input.
pub fn try_any(c: &mut Compare, r: &mut Random) {
    match r.below(200) {
        0 => {
            let length = r.length(20);
            try_message(c, r, length);
        }
        1..=5 => {
            let (g, f) = flash_outside_rules(r);
            try_calls(c, r, g, &f);
        }
        6..=100 => {
            let g = geometry(r);
            try_flash(c, r, g);
        }
        101..=130 => try_sheet(c, r),
        131..=150 => try_file(c, r),
        _ => try_header(c, r),
    }
}
