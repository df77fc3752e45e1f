//! What a C caller has to get: the reference's answers, laid out in rows and buffers as tainhosa.h says.
use crate::call::{Call, Lent, LentFlash, Values};
use crate::reference::*;

const WRONG_LENGTH: u32 = 1;

fn number<T>(answer: &Result<T, Refusal>) -> u32 {
    answer.as_ref().map_or_else(|refusal| refusal.number as u32, |_| 0)
}

fn place<T>(answer: &Result<T, Refusal>) -> u64 {
    answer.as_ref().map_or_else(|refusal| refusal.place, |_| 0)
}

fn lay_out_header(answer: Result<Header, Refusal>, numbers: &mut Lent<u64>, bytes: &mut Lent<u8>) -> u32 {
    if numbers.len() != 6 || bytes.len() != 128 {
        return WRONG_LENGTH;
    }
    numbers.fill(0);
    bytes.fill(0);
    numbers[0] = place(&answer);
    if let Ok(h) = &answer {
        numbers[1..].copy_from_slice(&[
            h.size as u64,
            h.version as u64,
            h.timestamp,
            h.auth_type as u64,
            h.hint.is_some() as u64,
        ]);
        bytes[..32].copy_from_slice(&h.digest);
        bytes[32..96].copy_from_slice(&h.signature);
        bytes[96..].copy_from_slice(&h.hint.unwrap_or([0; 32]));
    }
    number(&answer)
}

fn values(size: u32, v: &Values, bytes: &[u8]) -> Header {
    Header {
        size,
        version: v.version,
        timestamp: v.timestamp,
        digest: bytes[..32].try_into().unwrap(),
        signature: bytes[32..96].try_into().unwrap(),
        auth_type: v.auth_type,
        hint: v.has_hint.then(|| bytes[96..].try_into().unwrap()),
    }
}

fn sheet(v: &Values, bytes: &[u8]) -> Sheet {
    Sheet {
        version: v.version,
        timestamp: v.timestamp,
        auth_type: v.auth_type,
        signature: bytes[..64].try_into().unwrap(),
        hint: v.has_hint.then(|| bytes[64..].try_into().unwrap()),
    }
}

fn lay_out_sheet(answer: Result<Sheet, Refusal>, numbers: &mut [u64], bytes: &mut [u8]) -> u32 {
    numbers.fill(0);
    bytes.fill(0);
    numbers[0] = place(&answer);
    if let Ok(s) = &answer {
        numbers[1..].copy_from_slice(&[s.version as u64, s.timestamp, s.auth_type as u64, s.hint.is_some() as u64]);
        bytes[..64].copy_from_slice(&s.signature);
        bytes[64..].copy_from_slice(&s.hint.unwrap_or([0; 32]));
    }
    number(&answer)
}

fn lay_out_tag(answer: Result<Option<(usize, u16, usize)>, Refusal>, at: usize, tag: &mut [u64]) -> u32 {
    let row = match &answer {
        Err(refusal) => [refusal.place, 0, 0, 0, 0, at as u64],
        Ok(None) => [0, 0, 0, 0, 0, at as u64],
        Ok(Some((p, kind, length))) => [0, 1, *p as u64, *kind as u64, *length as u64, (p + 4 + length) as u64],
    };
    tag.copy_from_slice(&row);
    number(&answer)
}

fn lay_out_power_up(a: Answer, row: &mut [u64]) -> u32 {
    let (number, outcome, inner, inner_place) = match a.outcome {
        Outcome::Refused(number, inner, place) => (number, 0, inner, place),
        Outcome::Cut => (0, 1, 0, 0),
        Outcome::Run => (0, 2, 0, 0),
        Outcome::RunOnTest => (0, 3, 0, 0),
        Outcome::RunFallenBack => (0, 4, 0, 0),
    };
    let (reason, reason_place) = a.reason.unwrap_or((0, 0));
    row.copy_from_slice(&[outcome, a.count, inner, inner_place, reason, reason_place]);
    number as u32
}

/// Does something with the flash as the reference holds it.
fn with_flash<T>(lent: &mut LentFlash, act: impl FnOnce(&mut Flash) -> T) -> T {
    let mut f = lent.flash();
    let result = act(&mut f);
    lent.boot.copy_from_slice(&f.boot);
    lent.update.copy_from_slice(&f.update);
    lent.swap.copy_from_slice(&f.swap);
    result
}

/// The same with the counts, whose row goes out in place.
fn with_counts<T>(
    lent: &mut LentFlash,
    row: &mut Lent<u32>,
    total: u64,
    act: impl FnOnce(&mut Flash, &mut Counts) -> T,
) -> (T, u64) {
    let mut counts = Counts { row: row.to_vec(), total };
    let result = with_flash(lent, |f| act(f, &mut counts));
    row.copy_from_slice(&counts.row);
    (result, counts.total)
}

type Command = fn(Geometry, &mut Flash) -> Result<u64, Refusal>;

fn obey(command: Command, g: Geometry, flash: &mut LentFlash, count: &mut [u64]) -> u32 {
    if count.len() != 1 {
        return WRONG_LENGTH;
    }
    let answer = with_flash(flash, |f| command(g, f));
    count[0] = *answer.as_ref().unwrap_or(&0);
    number(&answer)
}

/// What has to be answered. The call's buffers are as they have to be left.
pub fn answer(call: &mut Call) -> u32 {
    match call {
        Call::Sha256 { digest, .. } if digest.len() != 32 => WRONG_LENGTH,
        Call::Sha256 { message, digest } => {
            digest.copy_from_slice(&sha256(message));
            0
        }
        Call::ReadHeader { input, numbers, bytes } => lay_out_header(read_header(input), numbers, bytes),
        Call::WriteHeader { bytes, place, .. } if bytes.len() != 128 || place.len() != 1 => WRONG_LENGTH,
        Call::WriteHeader { out, size, values: v, bytes, place: row } => {
            let answer = write_header(out, &values(*size, v, bytes));
            row[0] = place(&answer);
            number(&answer)
        }
        Call::ReadSealed { input, numbers, bytes } => lay_out_header(read_sealed(input), numbers, bytes),
        Call::WriteSealed { bytes, place, .. } if bytes.len() != 128 || place.len() != 1 => WRONG_LENGTH,
        Call::WriteSealed { out, size, values: v, bytes, place: row } => {
            let answer = write_sealed(out, &values(*size, v, bytes));
            row[0] = place(&answer);
            number(&answer)
        }
        Call::MakeHeader { bytes, place, .. } if bytes.len() != 96 || place.len() != 1 => WRONG_LENGTH,
        Call::MakeHeader { out, firmware, values: v, bytes, place: row } => {
            let answer = make_header(out, firmware, &sheet(v, bytes));
            row[0] = place(&answer);
            number(&answer)
        }
        Call::ReadSheet { numbers, bytes, .. } if numbers.len() != 5 || bytes.len() != 96 => WRONG_LENGTH,
        Call::ReadSheet { text, numbers, bytes } => lay_out_sheet(read_sheet(text), numbers, bytes),
        Call::CheckFirmware { image, numbers, bytes } => lay_out_header(check_firmware(image), numbers, bytes),
        Call::NextTag { tag, .. } if tag.len() != 6 => WRONG_LENGTH,
        Call::NextTag { input, at, tag } => lay_out_tag(next_tag(input, *at), *at, tag),
        Call::CheckImage { g, partition, numbers, bytes } => lay_out_header(check_image(*g, partition), numbers, bytes),
        Call::PowerUp { answer, .. } if answer.len() != 6 => WRONG_LENGTH,
        Call::PowerUp { g, flash, budget, answer } => {
            let a = with_flash(flash, |f| power_up(*g, f, *budget));
            lay_out_power_up(a, answer)
        }
        Call::Arm { g, flash, count } => obey(arm, *g, flash, count),
        Call::Confirm { g, flash, count } => obey(confirm, *g, flash, count),
        Call::Mend { numbers, .. } if numbers.len() != 3 => WRONG_LENGTH,
        Call::Mend { g, flash, numbers } => {
            let answer = with_flash(flash, |f| mend(*g, f));
            let row = answer.as_ref().map_or([0; 3], |m| [m.sector as u64, m.flag as u64, m.changed as u64]);
            numbers.copy_from_slice(&row);
            number(&answer)
        }
        Call::PowerUpCounted { answer, .. } if answer.len() != 7 => WRONG_LENGTH,
        Call::PowerUpCounted { g, flash, budget, row, total, answer } => {
            let (a, out) = with_counts(flash, row, *total, |f, counts| power_up_counted(*g, f, *budget, counts));
            answer[6] = out;
            lay_out_power_up(a, &mut answer[..6])
        }
        Call::ArmCounted { answer, .. } if answer.len() != 2 => WRONG_LENGTH,
        Call::ArmCounted { g, flash, row, total, answer } => {
            let (a, out) = with_counts(flash, row, *total, |f, counts| arm_counted(*g, f, counts));
            answer.copy_from_slice(&[*a.as_ref().unwrap_or(&0), out]);
            number(&a)
        }
    }
}
