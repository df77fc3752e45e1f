//! The command `tainhosa`: its parts make, list, check and compare firmware images, explain refusals, simulate an update, and mend the
//! lost flags of one.
#![deny(missing_docs)]

mod arguments;
mod files;
mod help;
mod json;
mod output;
mod parts;
mod said;
mod signals;
mod temporary;

use arguments::Given;
use said::{Said, Stop};
use std::ffi::OsString;
use std::process::ExitCode;

/// What the arguments ask for, done and put in words.
fn obey(mut given: impl Iterator<Item = OsString>) -> Result<Said, Stop> {
    let first = given.next().ok_or_else(|| Stop::wrong_use(None, "say what to do"))?;
    let alone = match first.to_str() {
        Some("--help" | "-h") => Some(help::ALL.to_string()),
        Some("--version") => Some(format!("tainhosa {}\n", env!("CARGO_PKG_VERSION"))),
        _ => None,
    };
    if let Some(text) = alone {
        return match given.next() {
            None => Ok(Said::good(text)),
            Some(word) => Err(Stop::wrong_use(None, format!("{} is one word too many", said::shown(&word)))),
        };
    }
    let part = parts::ALL
        .iter()
        .find(|part| first == part.name)
        .ok_or_else(|| Stop::wrong_use(None, format!("{} is not a part of this command", said::shown(&first))))?;
    match arguments::parse(part, given)? {
        Given::Help => Ok(Said::good(part.help.to_string())),
        Given::Words(parsed) => (part.run)(&parsed),
    }
}

fn main() -> ExitCode {
    signals::prepare();
    let status = match obey(std::env::args_os().skip(1)) {
        Ok(said) => output::say(&said),
        Err(stop) => output::tell(&stop),
    };
    ExitCode::from(status)
}
