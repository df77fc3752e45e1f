//! The C interface, as `include/tainhosa.h` declares it.

extern "C" {
    pub fn tainhosa_sha256(message: *const u8, message_length: usize, digest: *mut u8, digest_length: usize) -> u32;

    pub fn tainhosa_read_header(
        input: *const u8,
        input_length: usize,
        numbers: *mut u64,
        numbers_length: usize,
        bytes: *mut u8,
        bytes_length: usize,
    ) -> u32;

    pub fn tainhosa_write_header(
        out: *mut u8,
        out_length: usize,
        size: u32,
        version: u32,
        timestamp: u64,
        auth_type: u16,
        has_hint: bool,
        bytes: *const u8,
        bytes_length: usize,
        place: *mut u64,
        place_length: usize,
    ) -> u32;

    pub fn tainhosa_read_sealed(
        input: *const u8,
        input_length: usize,
        numbers: *mut u64,
        numbers_length: usize,
        bytes: *mut u8,
        bytes_length: usize,
    ) -> u32;

    pub fn tainhosa_write_sealed(
        out: *mut u8,
        out_length: usize,
        size: u32,
        version: u32,
        timestamp: u64,
        auth_type: u16,
        has_hint: bool,
        bytes: *const u8,
        bytes_length: usize,
        place: *mut u64,
        place_length: usize,
    ) -> u32;

    pub fn tainhosa_make_header(
        out: *mut u8,
        out_length: usize,
        firmware: *const u8,
        firmware_length: usize,
        version: u32,
        timestamp: u64,
        auth_type: u16,
        has_hint: bool,
        bytes: *const u8,
        bytes_length: usize,
        place: *mut u64,
        place_length: usize,
    ) -> u32;

    pub fn tainhosa_next_tag(input: *const u8, input_length: usize, at: usize, tag: *mut u64, tag_length: usize) -> u32;

    pub fn tainhosa_read_sheet(
        text: *const u8,
        text_length: usize,
        numbers: *mut u64,
        numbers_length: usize,
        bytes: *mut u8,
        bytes_length: usize,
    ) -> u32;

    pub fn tainhosa_check_image(
        sectors: usize,
        size: usize,
        partition: *const u8,
        partition_length: usize,
        numbers: *mut u64,
        numbers_length: usize,
        bytes: *mut u8,
        bytes_length: usize,
    ) -> u32;

    pub fn tainhosa_check_firmware(
        image: *const u8,
        image_length: usize,
        numbers: *mut u64,
        numbers_length: usize,
        bytes: *mut u8,
        bytes_length: usize,
    ) -> u32;

    pub fn tainhosa_power_up(
        sectors: usize,
        size: usize,
        boot: *mut u8,
        boot_length: usize,
        update: *mut u8,
        update_length: usize,
        swap: *mut u8,
        swap_length: usize,
        budget: u64,
        answer: *mut u64,
        answer_length: usize,
    ) -> u32;

    pub fn tainhosa_arm(
        sectors: usize,
        size: usize,
        boot: *mut u8,
        boot_length: usize,
        update: *mut u8,
        update_length: usize,
        swap: *mut u8,
        swap_length: usize,
        count: *mut u64,
        count_length: usize,
    ) -> u32;

    pub fn tainhosa_confirm(
        sectors: usize,
        size: usize,
        boot: *mut u8,
        boot_length: usize,
        update: *mut u8,
        update_length: usize,
        swap: *mut u8,
        swap_length: usize,
        count: *mut u64,
        count_length: usize,
    ) -> u32;

    pub fn tainhosa_mend(
        sectors: usize,
        size: usize,
        boot: *const u8,
        boot_length: usize,
        update: *mut u8,
        update_length: usize,
        swap: *const u8,
        swap_length: usize,
        numbers: *mut u64,
        numbers_length: usize,
    ) -> u32;

    pub fn tainhosa_power_up_counted(
        sectors: usize,
        size: usize,
        boot: *mut u8,
        boot_length: usize,
        update: *mut u8,
        update_length: usize,
        swap: *mut u8,
        swap_length: usize,
        budget: u64,
        row: *mut u32,
        row_length: usize,
        total: u64,
        answer: *mut u64,
        answer_length: usize,
    ) -> u32;

    pub fn tainhosa_arm_counted(
        sectors: usize,
        size: usize,
        boot: *mut u8,
        boot_length: usize,
        update: *mut u8,
        update_length: usize,
        swap: *mut u8,
        swap_length: usize,
        row: *mut u32,
        row_length: usize,
        total: u64,
        answer: *mut u64,
        answer_length: usize,
    ) -> u32;
}
