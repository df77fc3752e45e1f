//! The library behind its C interface, by the binding's calls.
use crate::call::{Call, LentFlash, Values};
use tainhosa::raw::{self, Buffers};

fn lend(flash: &mut LentFlash) -> Buffers<'_> {
    Buffers { boot: &mut flash.boot, update: &mut flash.update, swap: &mut flash.swap }
}

fn values(v: &Values) -> raw::Values {
    raw::Values { version: v.version, timestamp: v.timestamp, auth_type: v.auth_type, has_hint: v.has_hint }
}

/// What the library answers. The call's buffers are as it leaves them.
pub fn answer(call: &mut Call) -> u32 {
    match call {
        Call::Sha256 { message, digest } => raw::sha256(message, digest),
        Call::ReadHeader { input, numbers, bytes } => raw::read_header(input, numbers, bytes),
        Call::WriteHeader { out, size, values: v, bytes, place } => raw::write_header(out, *size, values(v), bytes, place),
        Call::ReadSealed { input, numbers, bytes } => raw::read_sealed(input, numbers, bytes),
        Call::WriteSealed { out, size, values: v, bytes, place } => raw::write_sealed(out, *size, values(v), bytes, place),
        Call::MakeHeader { out, firmware, values: v, bytes, place } => raw::make_header(out, firmware, values(v), bytes, place),
        Call::NextTag { input, at, tag } => raw::next_tag(input, *at, tag),
        Call::ReadSheet { text, numbers, bytes } => raw::read_sheet(text, numbers, bytes),
        Call::CheckImage { g, partition, numbers, bytes } => raw::check_image(g.n, g.s, partition, numbers, bytes),
        Call::CheckFirmware { image, numbers, bytes } => raw::check_firmware(image, numbers, bytes),
        Call::PowerUp { g, flash, budget, answer } => raw::power_up(g.n, g.s, lend(flash), *budget, answer),
        Call::Arm { g, flash, count } => raw::arm(g.n, g.s, lend(flash), count),
        Call::Confirm { g, flash, count } => raw::confirm(g.n, g.s, lend(flash), count),
        Call::Mend { g, flash, numbers } => raw::mend(g.n, g.s, &flash.boot, &mut flash.update, &flash.swap, numbers),
        Call::PowerUpCounted { g, flash, budget, row, total, answer } => {
            raw::power_up_counted(g.n, g.s, lend(flash), *budget, row, *total, answer)
        }
        Call::ArmCounted { g, flash, row, total, answer } => raw::arm_counted(g.n, g.s, lend(flash), row, *total, answer),
    }
}
