//! The calls of `include/tainhosa.h` as they are, on slices of any length: a number is answered, 0 or that of a refusal, and rows and
//! bytes are filled as the header file says. The types of this crate are easier to use; these functions are for tests of the calls.
//!
//! They are safe: a slice brings its own length, is aligned and never null, and one that is written overlaps no other.
use crate::ffi;

/// The values of a header that are passed as numbers.
#[derive(Clone, Copy, Debug, PartialEq, Eq)]
pub struct Values {
    /// The version.
    pub version: u32,
    /// The timestamp, in unix seconds.
    pub timestamp: u64,
    /// The type of the authentication.
    pub auth_type: u16,
    /// Whether there is a hint.
    pub has_hint: bool,
}

/// BOOT, UPDATE and SWAP.
#[derive(Debug)]
pub struct Buffers<'a> {
    /// The partition that runs.
    pub boot: &'a mut [u8],
    /// The partition that takes an update.
    pub update: &'a mut [u8],
    /// The sector between them.
    pub swap: &'a mut [u8],
}

/// `tainhosa_sha256`: 32 bytes of digest.
pub fn sha256(message: &[u8], digest: &mut [u8]) -> u32 {
    unsafe { ffi::tainhosa_sha256(message.as_ptr(), message.len(), digest.as_mut_ptr(), digest.len()) }
}

/// `tainhosa_read_header`: 6 numbers and 128 bytes.
pub fn read_header(input: &[u8], numbers: &mut [u64], bytes: &mut [u8]) -> u32 {
    unsafe {
        ffi::tainhosa_read_header(
            input.as_ptr(),
            input.len(),
            numbers.as_mut_ptr(),
            numbers.len(),
            bytes.as_mut_ptr(),
            bytes.len(),
        )
    }
}

/// `tainhosa_write_header`: 128 bytes, and one number for the place.
pub fn write_header(out: &mut [u8], size: u32, values: Values, bytes: &[u8], place: &mut [u64]) -> u32 {
    unsafe {
        ffi::tainhosa_write_header(
            out.as_mut_ptr(),
            out.len(),
            size,
            values.version,
            values.timestamp,
            values.auth_type,
            values.has_hint,
            bytes.as_ptr(),
            bytes.len(),
            place.as_mut_ptr(),
            place.len(),
        )
    }
}

/// `tainhosa_read_sealed`: 6 numbers and 128 bytes.
pub fn read_sealed(input: &[u8], numbers: &mut [u64], bytes: &mut [u8]) -> u32 {
    unsafe {
        ffi::tainhosa_read_sealed(
            input.as_ptr(),
            input.len(),
            numbers.as_mut_ptr(),
            numbers.len(),
            bytes.as_mut_ptr(),
            bytes.len(),
        )
    }
}

/// `tainhosa_write_sealed`: 128 bytes, and one number for the place.
pub fn write_sealed(out: &mut [u8], size: u32, values: Values, bytes: &[u8], place: &mut [u64]) -> u32 {
    unsafe {
        ffi::tainhosa_write_sealed(
            out.as_mut_ptr(),
            out.len(),
            size,
            values.version,
            values.timestamp,
            values.auth_type,
            values.has_hint,
            bytes.as_ptr(),
            bytes.len(),
            place.as_mut_ptr(),
            place.len(),
        )
    }
}

/// `tainhosa_make_header`: 96 bytes, and one number for the place.
pub fn make_header(out: &mut [u8], firmware: &[u8], values: Values, bytes: &[u8], place: &mut [u64]) -> u32 {
    unsafe {
        ffi::tainhosa_make_header(
            out.as_mut_ptr(),
            out.len(),
            firmware.as_ptr(),
            firmware.len(),
            values.version,
            values.timestamp,
            values.auth_type,
            values.has_hint,
            bytes.as_ptr(),
            bytes.len(),
            place.as_mut_ptr(),
            place.len(),
        )
    }
}

/// `tainhosa_next_tag`: 6 numbers for the tag.
pub fn next_tag(input: &[u8], at: usize, tag: &mut [u64]) -> u32 {
    unsafe { ffi::tainhosa_next_tag(input.as_ptr(), input.len(), at, tag.as_mut_ptr(), tag.len()) }
}

/// `tainhosa_read_sheet`: 5 numbers and 96 bytes.
pub fn read_sheet(text: &[u8], numbers: &mut [u64], bytes: &mut [u8]) -> u32 {
    unsafe {
        ffi::tainhosa_read_sheet(text.as_ptr(), text.len(), numbers.as_mut_ptr(), numbers.len(), bytes.as_mut_ptr(), bytes.len())
    }
}

/// `tainhosa_check_image`: 6 numbers and 128 bytes.
pub fn check_image(sectors: usize, size: usize, partition: &[u8], numbers: &mut [u64], bytes: &mut [u8]) -> u32 {
    unsafe {
        ffi::tainhosa_check_image(
            sectors,
            size,
            partition.as_ptr(),
            partition.len(),
            numbers.as_mut_ptr(),
            numbers.len(),
            bytes.as_mut_ptr(),
            bytes.len(),
        )
    }
}

/// `tainhosa_check_firmware`: 6 numbers and 128 bytes.
pub fn check_firmware(image: &[u8], numbers: &mut [u64], bytes: &mut [u8]) -> u32 {
    unsafe {
        ffi::tainhosa_check_firmware(
            image.as_ptr(),
            image.len(),
            numbers.as_mut_ptr(),
            numbers.len(),
            bytes.as_mut_ptr(),
            bytes.len(),
        )
    }
}

/// `tainhosa_power_up`: 6 numbers for the answer.
pub fn power_up(sectors: usize, size: usize, flash: Buffers<'_>, budget: u64, answer: &mut [u64]) -> u32 {
    unsafe {
        ffi::tainhosa_power_up(
            sectors,
            size,
            flash.boot.as_mut_ptr(),
            flash.boot.len(),
            flash.update.as_mut_ptr(),
            flash.update.len(),
            flash.swap.as_mut_ptr(),
            flash.swap.len(),
            budget,
            answer.as_mut_ptr(),
            answer.len(),
        )
    }
}

/// `tainhosa_arm`: one number for the count.
pub fn arm(sectors: usize, size: usize, flash: Buffers<'_>, count: &mut [u64]) -> u32 {
    unsafe {
        ffi::tainhosa_arm(
            sectors,
            size,
            flash.boot.as_mut_ptr(),
            flash.boot.len(),
            flash.update.as_mut_ptr(),
            flash.update.len(),
            flash.swap.as_mut_ptr(),
            flash.swap.len(),
            count.as_mut_ptr(),
            count.len(),
        )
    }
}

/// `tainhosa_confirm`: one number for the count.
pub fn confirm(sectors: usize, size: usize, flash: Buffers<'_>, count: &mut [u64]) -> u32 {
    unsafe {
        ffi::tainhosa_confirm(
            sectors,
            size,
            flash.boot.as_mut_ptr(),
            flash.boot.len(),
            flash.update.as_mut_ptr(),
            flash.update.len(),
            flash.swap.as_mut_ptr(),
            flash.swap.len(),
            count.as_mut_ptr(),
            count.len(),
        )
    }
}

/// `tainhosa_mend`: 3 numbers.
pub fn mend(sectors: usize, size: usize, boot: &[u8], update: &mut [u8], swap: &[u8], numbers: &mut [u64]) -> u32 {
    unsafe {
        ffi::tainhosa_mend(
            sectors,
            size,
            boot.as_ptr(),
            boot.len(),
            update.as_mut_ptr(),
            update.len(),
            swap.as_ptr(),
            swap.len(),
            numbers.as_mut_ptr(),
            numbers.len(),
        )
    }
}

/// `tainhosa_power_up_counted`: 2 x sectors + 1 counts, and 7 numbers for the answer.
pub fn power_up_counted(
    sectors: usize,
    size: usize,
    flash: Buffers<'_>,
    budget: u64,
    row: &mut [u32],
    total: u64,
    answer: &mut [u64],
) -> u32 {
    unsafe {
        ffi::tainhosa_power_up_counted(
            sectors,
            size,
            flash.boot.as_mut_ptr(),
            flash.boot.len(),
            flash.update.as_mut_ptr(),
            flash.update.len(),
            flash.swap.as_mut_ptr(),
            flash.swap.len(),
            budget,
            row.as_mut_ptr(),
            row.len(),
            total,
            answer.as_mut_ptr(),
            answer.len(),
        )
    }
}

/// `tainhosa_arm_counted`: 2 x sectors + 1 counts, and 2 numbers for the answer.
pub fn arm_counted(sectors: usize, size: usize, flash: Buffers<'_>, row: &mut [u32], total: u64, answer: &mut [u64]) -> u32 {
    unsafe {
        ffi::tainhosa_arm_counted(
            sectors,
            size,
            flash.boot.as_mut_ptr(),
            flash.boot.len(),
            flash.update.as_mut_ptr(),
            flash.update.len(),
            flash.swap.as_mut_ptr(),
            flash.swap.len(),
            row.as_mut_ptr(),
            row.len(),
            total,
            answer.as_mut_ptr(),
            answer.len(),
        )
    }
}
