//! The arguments of a part: options first looked at, then the words.
use crate::parts::Part;
use crate::said::{shown, Stop};
use std::ffi::{OsStr, OsString};
use std::os::unix::ffi::OsStrExt;

/// What was given.
pub enum Given {
    Help,
    Words(Parsed),
}

/// The words and options of a part, as its line of `parts::ALL` has them.
pub struct Parsed {
    usage: &'static str,
    pub words: Vec<OsString>,
    switches: Vec<&'static str>,
    options: Vec<(&'static str, OsString)>,
}

/// Looks at the arguments of a part. An option that it does not have, or another number of words, is wrong use.
pub fn parse(part: &Part, mut given: impl Iterator<Item = OsString>) -> Result<Given, Stop> {
    let wrong = |message: String| Stop::wrong_use(Some(part.usage), message);
    let mut parsed = Parsed { usage: part.usage, words: vec![], switches: vec![], options: vec![] };
    let mut words_only = false;
    while let Some(word) = given.next() {
        let text = word.to_string_lossy().into_owned();
        if words_only || !text.starts_with('-') || text == "-" {
            parsed.words.push(word);
        } else if text == "--" {
            words_only = true;
        } else if text == "--help" || text == "-h" {
            if parsed.is_empty() && given.next().is_none() {
                return Ok(Given::Help);
            }
            return Err(wrong(format!("{text} stands alone")));
        } else if let Some(switch) = part.switches.iter().find(|s| **s == text) {
            parsed.switches.push(switch);
        } else {
            let mut halves = word.as_bytes().splitn(2, |b| *b == b'=');
            let name = halves.next().map_or(String::new(), |name| String::from_utf8_lossy(name).into_owned());
            let value = halves.next().map(|value| OsStr::from_bytes(value).to_os_string());
            let option = part
                .options
                .iter()
                .find(|o| **o == name)
                .ok_or_else(|| wrong(format!("unknown option {}", shown(OsStr::new(&name)))))?;
            let value = value.or_else(|| given.next()).ok_or_else(|| wrong(format!("{name} needs a value")))?;
            if parsed.option(option).is_some() && !part.repeated.contains(option) {
                return Err(wrong(format!("{name} is given twice")));
            }
            parsed.options.push((option, value));
        }
    }
    if !part.words.contains(&parsed.words.len()) {
        return Err(wrong(match parsed.words.get(*part.words.end()) {
            Some(word) => format!("{} is one word too many", shown(word)),
            None => "a word is missing".to_string(),
        }));
    }
    Ok(Given::Words(parsed))
}

impl Parsed {
    fn is_empty(&self) -> bool {
        self.words.is_empty() && self.switches.is_empty() && self.options.is_empty()
    }

    pub fn has(&self, switch: &str) -> bool {
        self.switches.contains(&switch)
    }

    pub fn json(&self) -> bool {
        self.has("--json")
    }

    pub fn option(&self, name: &str) -> Option<&OsStr> {
        self.options.iter().find(|(n, _)| *n == name).map(|(_, value)| value.as_os_str())
    }

    pub fn every<'a>(&'a self, name: &'a str) -> impl Iterator<Item = &'a OsStr> {
        self.options.iter().filter(move |(n, _)| *n == name).map(|(_, value)| value.as_os_str())
    }

    /// The option's value, which must be given.
    pub fn needed(&self, name: &str) -> Result<&OsStr, Stop> {
        self.option(name).ok_or_else(|| self.wrong(format!("{name} is missing")))
    }

    /// A number in decimal digits.
    pub fn number(&self, what: &str, text: &OsStr) -> Result<u64, Stop> {
        let digits = text.to_str().filter(|t| !t.is_empty() && t.bytes().all(|b| b.is_ascii_digit()));
        digits
            .and_then(|t| t.parse().ok())
            .ok_or_else(|| self.wrong(format!("{what}: {} is not a number below 2^64, in decimal digits", shown(text))))
    }

    pub fn wrong(&self, message: impl Into<String>) -> Stop {
        Stop::wrong_use(Some(self.usage), message)
    }
}
