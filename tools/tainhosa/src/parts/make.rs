//! `tainhosa make`: the image of a firmware, with the values of a release sheet.
use crate::arguments::Parsed;
use crate::files;
use crate::json::Json;
use crate::output::{self, in_words};
use crate::said::{line, Said, Stop};
use crate::temporary::Temporary;
use std::ffi::OsStr;
use std::fs;
use std::io::{self, ErrorKind};
use std::os::unix::ffi::OsStrExt;
use std::os::unix::fs::MetadataExt;
use std::path::Path;
use tainhosa::{Header, Image, Refusal, Sheet};

/// Sees that the image's name is free, or with force that of a plain file that was not read for this image.
fn see_free(image: &OsStr, force: bool, read: &[&OsStr]) -> Result<(), Stop> {
    if image.is_empty() || image.as_bytes().ends_with(b"/") {
        return Err(Stop::new(format!("{}: a file has no such name", files::name(image))));
    }
    let standing = match fs::symlink_metadata(image) {
        Err(error) if error.kind() == ErrorKind::NotFound => return Ok(()),
        Err(error) => return Err(Stop::new(format!("{}: {}", files::name(image), in_words(&error)))),
        Ok(standing) => standing,
    };
    let stop = |what: &str| Err(Stop::new(format!("{}: {what}", files::name(image))));
    if !force {
        return stop("it is there already, and stays without --force");
    }
    if !standing.is_file() {
        return stop("it is not a plain file, and stays");
    }
    for path in read {
        if fs::metadata(path).map_or(false, |m| (m.dev(), m.ino()) == (standing.dev(), standing.ino())) {
            return stop("the image can't take the place of the sheet or the firmware");
        }
    }
    Ok(())
}

/// Writes the image, and tells `out` before the image has its name: where that fails, there is no image.
fn write(path: &OsStr, bytes: &[u8], force: bool, out: &str) -> Result<(), Stop> {
    let image = Path::new(path);
    let stop = |error: io::Error| match error.kind() {
        ErrorKind::AlreadyExists => Stop::new(format!("{}: it is there already, and stays without --force", files::name(path))),
        _ => Stop::new(format!("{}: {}", files::name(path), in_words(&error))),
    };
    let temporary = Temporary::beside(image, bytes, None).map_err(stop)?;
    output::write(out)?;
    let named = if force { temporary.take_place_of(image) } else { temporary.take_free_name(image) };
    named.map_err(stop)
}

fn fault() -> Stop {
    Stop::new("the image that was made does not read back, so it is not written: this is a fault of tainhosa")
}

/// The image is what the sheet and the firmware say, and sealed if it has to be: a fault of this command must not become a release.
fn see_right(image: &[u8], sheet: &Sheet, firmware: &[u8], sealed: bool) -> Result<Header, Stop> {
    let checked = Image::check(image).map_err(|_| fault())?;
    let header = checked.header().clone();
    let stated = Sheet {
        version: header.version,
        timestamp: header.timestamp,
        auth_type: header.auth_type,
        signature: header.signature,
        hint: header.hint,
    };
    let as_asked = !sealed || Header::read_sealed(image).as_ref() == Ok(&header);
    if stated == *sheet && checked.firmware() == firmware && as_asked {
        Ok(header)
    } else {
        Err(fault())
    }
}

/// The refusal of a sheet or a firmware.
pub fn refused(json: bool, path: &OsStr, bytes: &[u8], refusal: &Refusal) -> Said {
    let name = files::name(path);
    Said::refused(json, &name, refusal).if_empty(bytes, &name)
}

pub fn run(given: &Parsed) -> Result<Said, Stop> {
    let (sheet_path, firmware_path, image_path) = (&given.words[0], &given.words[1], &given.words[2]);
    let (json, force, sealed) = (given.json(), given.has("--force"), given.has("--sealed"));
    output::see_open()?;
    let (text, firmware) = (files::sheet(sheet_path)?, files::firmware(firmware_path)?);
    see_free(image_path, force, &[sheet_path, firmware_path])?;
    let sheet = match Sheet::read(&text) {
        Err(refusal) => return Ok(refused(json, sheet_path, &text, &refusal)),
        Ok(sheet) => sheet,
    };
    let mut bytes = match sheet.make_header(&firmware) {
        Err(refusal) => return Ok(refused(json, firmware_path, &firmware, &refusal)),
        Ok(bytes) => bytes,
    };
    if sealed {
        let made = Header::read(&bytes).map_err(|_| fault())?;
        if let Err(refusal) = made.write_sealed_into(&mut bytes) {
            return Ok(Said::refused(json, &format!("{}: it states no hint", files::name(sheet_path)), &refusal));
        }
    }
    let image = [&bytes[..], &firmware].concat();
    let header = see_right(&image, &sheet, &firmware, sealed)?;
    let out = if json {
        let mut fields = vec![("made", Json::Bool(true))];
        fields.extend(Json::header(&header));
        line(Json::Object(fields))
    } else {
        format!("{header}\n")
    };
    write(image_path, &image, force, &out)?;
    Ok(Said::good(String::new()))
}
