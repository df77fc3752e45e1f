//! `tainhosa mend`: the lost flags of an update, found again in dumps of the flash.
use crate::arguments::Parsed;
use crate::files;
use crate::json::{hex, Json};
use crate::output::{self, in_words};
use crate::parts::check::geometry;
use crate::said::{line, Said, Stop};
use crate::temporary::Temporary;
use std::ffi::OsStr;
use std::fs;
use std::io;
use std::path::Path;
use tainhosa::{Flash, Geometry, Mended, Refusal};

/// What becomes of UPDATE's file.
#[derive(Clone, Copy, PartialEq)]
enum File {
    Written,
    DryRun,
    Same,
}

/// What was found, and the bytes that hold flags, before and after.
struct Found {
    mended: Mended,
    before: Vec<u8>,
    after: Vec<u8>,
    file: File,
}

impl Found {
    fn lines(&self) -> String {
        let mark = self.mended.mark;
        let words = if mark.is_all_exchanged() { ": all 0, every sector is exchanged" } else { "" };
        let file = match self.file {
            File::Written => "UPDATE is written",
            File::DryRun => "dry run: nothing is written",
            File::Same => "nothing to write: UPDATE has these flags",
        };
        format!(
            "mark: sector {}, flag {}{words}\nflag bytes changed: {} of {}\nbefore: {}\nafter: {}\n{file}\n",
            mark.sector,
            mark.flag,
            self.mended.bytes,
            self.after.len(),
            hex(&self.before),
            hex(&self.after)
        )
    }

    fn json(&self) -> Json {
        let mark = self.mended.mark;
        let fields = [("sector", Json::Number(mark.sector as u64)), ("flag", Json::text(mark.flag.to_string()))];
        Json::object([
            ("mark", Json::object(fields)),
            ("all_exchanged", Json::Bool(mark.is_all_exchanged())),
            ("changed", Json::Number(self.mended.bytes)),
            ("before", Json::hex(&self.before)),
            ("after", Json::hex(&self.after)),
            ("written", Json::Bool(self.file == File::Written)),
        ])
    }
}

/// The three dumps, with the names of their files.
struct Dumps {
    names: [String; 3],
    boot: Vec<u8>,
    update: Vec<u8>,
    swap: Vec<u8>,
}

impl Dumps {
    fn read(given: &Parsed) -> Result<Dumps, Stop> {
        let paths = &given.words;
        Ok(Dumps {
            names: [files::name(&paths[0]), files::name(&paths[1]), files::name(&paths[2])],
            boot: files::dump(&paths[0])?,
            update: files::dump(&paths[1])?,
            swap: files::dump(&paths[2])?,
        })
    }

    /// What is said where a file has another length than the geometry asks for; of more than one the first.
    fn wrong_length(&self, json: bool, g: Geometry, refusal: &Refusal) -> Said {
        let files =
            [("BOOT", &self.boot, g.partition()), ("UPDATE", &self.update, g.partition()), ("SWAP", &self.swap, g.size())];
        let mut wrong = files.iter().zip(&self.names).filter(|((_, bytes, right), _)| bytes.len() != *right);
        match wrong.next() {
            None => Said::refused(json, "the dumps", refusal),
            Some(((area, bytes, right), name)) => {
                let subject = format!("{name}: {} bytes, and {area} has {right}", bytes.len());
                Said::refused(json, &subject, refusal).if_empty(bytes, name)
            }
        }
    }
}

/// Writes UPDATE, and tells `out` before the new file has its name: where that fails, the old one stays.
fn write(path: &OsStr, bytes: &[u8], out: &str) -> Result<(), Stop> {
    let stop = |error: io::Error| Stop::new(format!("{}: {}", files::name(path), in_words(&error)));
    let update = Path::new(path);
    let standing = fs::symlink_metadata(update).map_err(stop)?;
    if !standing.is_file() {
        return Err(Stop::new(format!("{}: it is not a plain file, and stays", files::name(path))));
    }
    let temporary = Temporary::beside(update, bytes, Some(standing.permissions())).map_err(stop)?;
    output::write(out)?;
    temporary.take_place_of(update).map_err(stop)
}

pub fn run(given: &Parsed) -> Result<Said, Stop> {
    let json = given.json();
    let geometry = match geometry(given)?.ok_or_else(|| given.wrong("--sectors and --size are missing"))? {
        Err(refusal) => return Ok(Said::refused(json, "--sectors and --size", &refusal)),
        Ok(geometry) => geometry,
    };
    output::see_open()?;
    let mut dumps = Dumps::read(given)?;
    let (before, mended, after) = match Flash::new(geometry, &mut dumps.boot, &mut dumps.update, &mut dumps.swap) {
        Err(refusal) => return Ok(dumps.wrong_length(json, geometry, &refusal)),
        Ok(mut flash) => (flash.flag_bytes(), flash.mend(), flash.flag_bytes()),
    };
    let mended = match mended {
        Err(refusal) => return Ok(Said::refused(json, &dumps.names.join(", "), &refusal)),
        Ok(mended) => mended,
    };
    let file = match (given.has("--dry-run"), mended.bytes) {
        (true, _) => File::DryRun,
        (false, 0) => File::Same,
        (false, _) => File::Written,
    };
    let found = Found { mended, before, after, file };
    let out = if json { line(found.json()) } else { found.lines() };
    if file != File::Written {
        return Ok(Said::good(out));
    }
    write(&given.words[1], &dumps.update, &out)?;
    Ok(Said::good(String::new()))
}
