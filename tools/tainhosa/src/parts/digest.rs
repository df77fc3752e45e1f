//! `tainhosa digest`: what is to be signed.
use super::make::refused;
use crate::arguments::Parsed;
use crate::files;
use crate::json::{hex, Json};
use crate::said::{line, Said, Stop};
use tainhosa::{Image, Refusal, Sheet};

/// A sheet that may lack its signature: that has no say in the digest, and is made of it.
fn read(text: &[u8]) -> Result<Sheet, Refusal> {
    const MISSING: u32 = 105;
    const SIGNATURE: u64 = 0x0020;
    match Sheet::read(text) {
        Err(Refusal { number: MISSING, place: SIGNATURE, .. }) => {
            let any = format!("\nsignature {}\n", hex(&[0; 64]));
            Sheet::read(&[text, any.as_bytes()].concat())
        }
        read => read,
    }
}

pub fn run(given: &Parsed) -> Result<Said, Stop> {
    let (sheet_path, firmware_path) = (&given.words[0], &given.words[1]);
    let (text, firmware) = (files::sheet(sheet_path)?, files::firmware(firmware_path)?);
    let sheet = match read(&text) {
        Err(refusal) => return Ok(refused(given.json(), sheet_path, &text, &refusal)),
        Ok(sheet) => sheet,
    };
    if firmware.is_empty() {
        return Err(Stop::new(format!("{}: the file is empty, and no image has an empty firmware", files::name(firmware_path))));
    }
    let mut image = match sheet.make_header(&firmware) {
        Err(refusal) => return Ok(refused(given.json(), firmware_path, &firmware, &refusal)),
        Ok(header) => header.to_vec(),
    };
    image.extend_from_slice(&firmware);
    // A fault of this command must not be signed.
    let wrong = |_| Stop::new("the image that was made does not read back, so no digest is told: this is a fault of tainhosa");
    let digest = Image::check(&image).map_err(wrong)?.header().digest;
    Ok(Said::good(if given.json() {
        line(Json::object([("digest", Json::hex(&digest)), ("size", Json::Number(firmware.len() as u64))]))
    } else {
        format!("{}\n", hex(&digest))
    }))
}
