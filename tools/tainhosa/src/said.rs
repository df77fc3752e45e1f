//! What a part of the command has to say, and why it may stop before that.
use crate::json::Json;
use std::ffi::OsStr;
use tainhosa::Refusal;

/// A word or a file's name as a message shows it: on one line, and with nothing that a terminal would obey.
pub fn shown(word: &OsStr) -> String {
    let mut text = String::new();
    for c in word.to_string_lossy().chars() {
        if c.is_control() {
            text.extend(c.escape_default());
        } else {
            text.push(c);
        }
    }
    text
}

/// All is good.
pub const GOOD: u8 = 0;
/// The library refused something.
pub const REFUSED: u8 = 1;
/// Wrong use, or a file that can't be read or written.
pub const UNUSABLE: u8 = 2;

/// What goes to standard output, what to standard error, and the exit status.
pub struct Said {
    pub out: String,
    pub notes: Vec<String>,
    pub status: u8,
}

impl Said {
    /// This on standard output, and all is good.
    pub fn good(out: String) -> Said {
        Said { out, notes: vec![], status: GOOD }
    }

    /// A refusal: as document 01 prints it on standard output, or as JSON, and in words on standard error.
    pub fn refused(json: bool, subject: &str, refusal: &Refusal) -> Said {
        let out = if json { line(Json::object([("refused", Json::refusal(refusal))])) } else { format!("{refusal}\n") };
        Said { out, notes: vec![in_words(subject, refusal)], status: REFUSED }
    }

    /// The refusal of an empty file: a file that can't be read.
    pub fn if_empty(mut self, bytes: &[u8], name: &str) -> Said {
        if bytes.is_empty() {
            self.notes = vec![format!("{name}: the file is empty")];
            self.status = UNUSABLE;
        }
        self
    }
}

/// A refusal in words, with what to do about it.
pub fn in_words(subject: &str, refusal: &Refusal) -> String {
    format!("{subject}: {}\n{}", refusal.words(), refusal.advice())
}

/// An object on a line.
pub fn line(json: Json) -> String {
    format!("{json}\n")
}

/// Why nothing can be said: status 2.
pub struct Stop {
    pub message: String,
    /// The usage to show beside it, if that was wrong.
    pub usage: Option<&'static str>,
}

impl Stop {
    /// A file, or the output, that is not usable.
    pub fn new(message: impl Into<String>) -> Stop {
        Stop { message: message.into(), usage: None }
    }

    /// Wrong use of a part, or of the whole command.
    pub fn wrong_use(part_usage: Option<&'static str>, message: impl Into<String>) -> Stop {
        Stop { message: message.into(), usage: Some(part_usage.unwrap_or(crate::help::USAGE)) }
    }
}
