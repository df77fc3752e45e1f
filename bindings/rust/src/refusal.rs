use crate::words::{self, meaning};
use std::fmt;

/// Why a call gave no value: a number, and a place. Its text is document 01's line, as `refused 8 at 1`.
#[derive(Clone, Copy, Debug, PartialEq, Eq)]
pub struct Refusal {
    /// The number: 1 to 16 of document 01, 17 of mending, 18 of a tag that must be understood, 19 and 20 of the erase counts, 21 of the
    /// sealed profile, 101 to 105 of the release sheet.
    pub number: u32,
    /// The place: a byte, a line, or of 8 and 105 the type that is missing; 0 where there is none.
    pub place: u64,
    /// Of 12 and 13: what the bad image was refused with.
    pub inner: Option<Inner>,
}

/// The refusal of the image that stands behind a 12 or 13.
#[derive(Clone, Copy, Debug, PartialEq, Eq)]
pub struct Inner {
    /// Its number.
    pub number: u32,
    /// Its place.
    pub place: u64,
}

impl Refusal {
    /// A refusal with no other behind it.
    pub fn new(number: u32, place: u64) -> Refusal {
        Refusal { number, place, inner: None }
    }

    /// What it says, in words.
    ///
    /// ```
    /// use tainhosa::Refusal;
    ///
    /// assert_eq!(Refusal::new(8, 1).words(), "a tag that every header has is missing: version (type 0001)");
    /// ```
    pub fn words(&self) -> String {
        let own = words::sentence(self.number, Some(self.place));
        match self.inner {
            None => own,
            Some(inner) => format!("{own}: {}", words::sentence(inner.number, Some(inner.place))),
        }
    }

    /// What to do about it.
    pub fn advice(&self) -> &'static str {
        meaning(self.number).map_or("", |m| m.advice)
    }
}

impl fmt::Display for Refusal {
    fn fmt(&self, f: &mut fmt::Formatter<'_>) -> fmt::Result {
        match self.inner {
            None => write!(f, "refused {} at {}", self.number, self.place),
            Some(inner) => write!(f, "refused {} for {} at {}", self.number, inner.number, inner.place),
        }
    }
}

impl std::error::Error for Refusal {}
