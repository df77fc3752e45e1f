//! Files that are read: never more than is needed, and never more than a limit.
use crate::output::in_words;
use crate::said::{shown, Stop};
use std::ffi::OsStr;
use std::fs::File;
use std::io::{self, Read};
use tainhosa::{Header, HEADER_LENGTH};

/// The most bytes of a firmware, an image or a dump that are read: four times what the largest partition holds.
pub const LIMIT: u64 = 256 << 20;
/// The most bytes of a release sheet.
const SHEET_LIMIT: u64 = 1 << 20;

/// A file's name, to be told.
pub fn name(path: &OsStr) -> String {
    shown(path)
}

fn stop(path: &OsStr, error: &io::Error) -> Stop {
    Stop::new(format!("{}: {}", name(path), in_words(error)))
}

fn too_large(path: &OsStr, limit: u64) -> Stop {
    Stop::new(format!("{}: more than {limit} bytes, which is more than is read", name(path)))
}

/// Opens a file that is no larger than the limit; of a pipe that is not known.
fn open(path: &OsStr, limit: u64) -> Result<File, Stop> {
    let file = File::open(path).map_err(|e| stop(path, &e))?;
    if file.metadata().map_err(|e| stop(path, &e))?.len() > limit {
        return Err(too_large(path, limit));
    }
    Ok(file)
}

fn read(path: &OsStr, limit: u64) -> Result<Vec<u8>, Stop> {
    let file = open(path, limit)?;
    let mut bytes = Vec::new();
    file.take(limit + 1).read_to_end(&mut bytes).map_err(|e| stop(path, &e))?;
    if bytes.len() as u64 > limit {
        return Err(too_large(path, limit));
    }
    Ok(bytes)
}

/// A release sheet.
pub fn sheet(path: &OsStr) -> Result<Vec<u8>, Stop> {
    read(path, SHEET_LIMIT)
}

/// A firmware.
pub fn firmware(path: &OsStr) -> Result<Vec<u8>, Stop> {
    read(path, LIMIT)
}

/// A dump of BOOT, UPDATE or SWAP.
pub fn dump(path: &OsStr) -> Result<Vec<u8>, Stop> {
    read(path, LIMIT)
}

/// An image: its header, and if that reads so much of what follows as the header states; less where the file ends before.
pub fn image(path: &OsStr) -> Result<Vec<u8>, Stop> {
    let mut file = open(path, LIMIT)?;
    let mut bytes = Vec::new();
    file.by_ref().take(HEADER_LENGTH as u64).read_to_end(&mut bytes).map_err(|e| stop(path, &e))?;
    if let Ok(header) = Header::read(&bytes) {
        let room = LIMIT - HEADER_LENGTH as u64;
        file.take(u64::from(header.size).min(room + 1)).read_to_end(&mut bytes).map_err(|e| stop(path, &e))?;
        if bytes.len() as u64 > LIMIT {
            return Err(too_large(path, LIMIT));
        }
    }
    Ok(bytes)
}
