//! The parts of the command, each in a file of its own.
mod check;
mod compare;
mod digest;
mod explain;
mod list;
mod make;
mod mend;
mod simulate;

use crate::arguments::Parsed;
use crate::help;
use crate::said::{Said, Stop};
use std::ops::RangeInclusive;

/// A part of the command.
pub struct Part {
    pub name: &'static str,
    pub usage: &'static str,
    pub help: &'static str,
    /// How many words it takes.
    pub words: RangeInclusive<usize>,
    /// Its options without a value, those with one, and those of them that may be given more than once.
    pub switches: &'static [&'static str],
    pub options: &'static [&'static str],
    pub repeated: &'static [&'static str],
    pub run: fn(&Parsed) -> Result<Said, Stop>,
}

/// Every part.
pub const ALL: [Part; 8] = [
    Part {
        name: "digest",
        usage: help::DIGEST_USAGE,
        help: help::DIGEST,
        words: 2..=2,
        switches: &["--json"],
        options: &[],
        repeated: &[],
        run: digest::run,
    },
    Part {
        name: "make",
        usage: help::MAKE_USAGE,
        help: help::MAKE,
        words: 3..=3,
        switches: &["--json", "--force", "--sealed"],
        options: &[],
        repeated: &[],
        run: make::run,
    },
    Part {
        name: "list",
        usage: help::LIST_USAGE,
        help: help::LIST,
        words: 1..=1,
        switches: &["--json", "--tags"],
        options: &[],
        repeated: &[],
        run: list::run,
    },
    Part {
        name: "check",
        usage: help::CHECK_USAGE,
        help: help::CHECK,
        words: 1..=1,
        switches: &["--json", "--sealed"],
        options: &["--sectors", "--size"],
        repeated: &[],
        run: check::run,
    },
    Part {
        name: "compare",
        usage: help::COMPARE_USAGE,
        help: help::COMPARE,
        words: 2..=2,
        switches: &["--json"],
        options: &[],
        repeated: &[],
        run: compare::run,
    },
    Part {
        name: "explain",
        usage: help::EXPLAIN_USAGE,
        help: help::EXPLAIN,
        words: 1..=4,
        switches: &["--json"],
        options: &[],
        repeated: &[],
        run: explain::run,
    },
    Part {
        name: "simulate",
        usage: help::SIMULATE_USAGE,
        help: help::SIMULATE,
        words: 0..=0,
        switches: &["--json", "--torn", "--confirm", "--fall-back", "--back", "--counts"],
        options: &["--boot", "--update", "--sectors", "--size", "--cut"],
        repeated: &["--cut"],
        run: simulate::run,
    },
    Part {
        name: "mend",
        usage: help::MEND_USAGE,
        help: help::MEND,
        words: 3..=3,
        switches: &["--json", "--dry-run"],
        options: &["--sectors", "--size"],
        repeated: &[],
        run: mend::run,
    },
];
