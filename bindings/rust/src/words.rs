use crate::tag_name;

/// What the place of a refusal counts.
#[derive(Clone, Copy, Debug, PartialEq, Eq)]
pub enum Place {
    /// Nothing: it is 0.
    Nothing,
    /// A byte of the image, from 0.
    Byte,
    /// A line of the release sheet, from 1.
    Line,
    /// No place: the type of a header's tag stands there.
    Tag,
    /// No place: the type of the tag that a line of the sheet is for stands there.
    Name,
}

/// A number of the table of refusals.
#[derive(Clone, Copy, Debug, PartialEq, Eq)]
pub struct Meaning {
    /// The number.
    pub number: u32,
    /// What it says.
    pub words: &'static str,
    /// What its place counts.
    pub place: Place,
    /// What to do about it.
    pub advice: &'static str,
}

const fn row(number: u32, place: Place, words: &'static str, advice: &'static str) -> Meaning {
    Meaning { number, words, place, advice }
}

const AGAIN: &str =
    "The header was damaged, or another program made it wrongly: get the file again, or make the image again from its \
                     release sheet and its firmware.";

/// Every refusal, by its number.
pub const MEANINGS: [Meaning; 26] = [
    row(
        1,
        Place::Nothing,
        "the geometry or the length of a buffer is outside the rules",
        "Give 2 to 512 sectors, and a sector's size from 256 to 131072 bytes that is a multiple of 256; 512 sectors of 256 bytes are \
         too many, since their trailer needs 257 bytes. BOOT and UPDATE have exactly sectors x size bytes, SWAP has size bytes. A row of \
         erase counts has 2 x sectors + 1.",
    ),
    row(
        2,
        Place::Byte,
        "the image does not begin with 43 45 52 54",
        "This is no image, or its first bytes are damaged. If it is the bare firmware, make the image from it first.",
    ),
    row(
        3,
        Place::Byte,
        "the firmware's size is 0, or more than there is room for",
        "See that the firmware is not empty and below 4 GiB, that the file was not cut short, and that the sectors but the last hold \
         the header's 256 bytes and the firmware.",
    ),
    row(4, Place::Byte, "a tag does not fit into the header's 256 bytes", AGAIN),
    row(5, Place::Byte, "a tag has not the length that its type asks for", AGAIN),
    row(6, Place::Byte, "a tag stands in the header for the second time", AGAIN),
    row(7, Place::Byte, "the header's 256 bytes have no end mark", AGAIN),
    row(
        8,
        Place::Tag,
        "a tag that every header has is missing",
        "The image does not state this value, and none is taken from elsewhere: make the image again from a release sheet that states \
         it.",
    ),
    row(
        9,
        Place::Byte,
        "the firmware, or the header before its digest tag, is not what the digest was made of: the digest differs",
        "The firmware, its size, the version, or something else before the digest tag was damaged or changed: get the file again. If the \
         change was meant, or the digest was made of the firmware alone, have the new digest signed and make the image again.",
    ),
    row(
        10,
        Place::Nothing,
        "a status byte is none that may stand there",
        "BOOT may be NEW, TESTING or SUCCESS, UPDATE may be NEW or UPDATING. Something else has written the last byte of a partition, \
         or the geometry is not the printer's: keep a copy of the flash before it is written anew.",
    ),
    row(
        11,
        Place::Nothing,
        "the sector flags are none that an exchange leaves",
        "Something else has written UPDATE's last sector, or the geometry is not the printer's: keep a copy of the flash before it is \
         written anew. Flags that were lost while UPDATE is UPDATING and BOOT is NEW or SUCCESS can be mended.",
    ),
    row(
        12,
        Place::Nothing,
        "the image in BOOT is bad",
        "Nothing may run. Write a good image to BOOT, by the way that the printer's maker has for it.",
    ),
    row(
        13,
        Place::Nothing,
        "there is no good image to fall back to: the one in UPDATE is bad",
        "The image in BOOT was not confirmed, and the one before it is bad, for the reason that stands beside. Write a good image to \
         BOOT, by the way that the printer's maker has for it.",
    ),
    row(
        14,
        Place::Nothing,
        "it is not the time to arm, to confirm or to mend",
        "An update is armed when none is under way and nothing runs on test; it is confirmed when it runs on test and no fallback has \
         begun: let the printer power up first. Flags are mended while UPDATE is UPDATING and BOOT is NEW or SUCCESS.",
    ),
    row(
        15,
        Place::Nothing,
        "the update is not newer than the image in BOOT",
        "Only a greater version is taken. If the update is meant to be newer, make it again with a greater version on its sheet.",
    ),
    row(
        16,
        Place::Byte,
        "there are fewer than 256 bytes, and a header has 256",
        "The file is empty or was cut short: get it again.",
    ),
    row(
        17,
        Place::Nothing,
        "no flags fit the flash: under none are both images good and the update newer",
        "More was lost than the flags: a sector of one of the images is damaged, or the update was never newer than the image in BOOT. \
         Or the geometry is not the printer's, or a dump is not its, or an image has a tag that must be understood and is not known here. \
         Keep a copy of the flash, and write a good image to BOOT, by the way that the printer's maker has for it.",
    ),
    row(
        18,
        Place::Byte,
        "the header has a tag that must be understood, and its type is not known here",
        "Who put the tag there wants the image used only where the tag is understood. Get a newer version of this program, or of the \
         printer's loader, that knows the type; or have the image made without the tag. If nobody put such a tag there, the header was \
         damaged: get the file again.",
    ),
    row(
        19,
        Place::Nothing,
        "the total is not the sum of the erase counts",
        "The counts or their total were damaged, or the two are not of the same moment: nothing was done. Where power was lost, hand in \
         the sum of the row. Otherwise take both from the last good service sheet; the erases since then are missing from it.",
    ),
    row(
        20,
        Place::Nothing,
        "an erase count is too high: a power-up might bring it above 4294967295",
        "With m sectors before the trailer, no count may be above 4294967295 - m. No flash is erased so often: the counts were damaged, or \
         are not this printer's. Take them from the last good service sheet; the erases since then are missing from it.",
    ),
    row(
        21,
        Place::Byte,
        "the header is not sealed: a sealed one has all six tags in their order, nothing between them, and FF behind the end",
        "At byte 138 the hint may be missing: a sealed header has one. Else a tag is out of its order, or there is padding, a skipped \
         tag, or a byte behind the end that is not FF. Make the image again from its firmware and a release sheet that states a hint. If \
         the byte is before 32, the digest changes with that, and has to be signed first.",
    ),
    row(
        101,
        Place::Line,
        "the line is not understood, since it has no space in it",
        "A line is a name, one space and a value, as: version 7. A line for the reader begins with #.",
    ),
    row(
        102,
        Place::Line,
        "the line's name is not known",
        "The names are version, timestamp, auth, signature and hint, in small letters and from the line's first byte on.",
    ),
    row(
        103,
        Place::Line,
        "the line's value is malformed or out of range",
        "version, timestamp and auth have decimal digits only and are below 2^32, 2^64 and 2^16; signature has 128 hex digits; hint is \
         the word no or has 64 hex digits. One space stands before the value and nothing behind it: no space, no carriage return.",
    ),
    row(
        104,
        Place::Line,
        "the line's name stands in the sheet for the second time",
        "Each of the five names stands there exactly once: take out the line that is wrong.",
    ),
    row(
        105,
        Place::Name,
        "the sheet lacks a line",
        "Each of version, timestamp, auth, signature and hint stands there exactly once; without a hint the line is: hint no.",
    ),
];

/// What a number means; None if there is no such refusal.
pub fn meaning(number: u32) -> Option<&'static Meaning> {
    MEANINGS.iter().find(|m| m.number == number)
}

/// A refusal in words, with its place if that is known.
pub(crate) fn sentence(number: u32, place: Option<u64>) -> String {
    let m = match meaning(number) {
        None => return format!("refusal {number}, which no call gives"),
        Some(m) => m,
    };
    let place = match place {
        None => return m.words.to_string(),
        Some(place) => place,
    };
    // What can be missing: of a header the hint can't, and a sheet has no line for the digest.
    const DIGEST: u64 = 0x0003;
    const HINT: u64 = 0x1000;
    let named = match (m.place, place) {
        (Place::Tag, HINT) | (Place::Name, DIGEST) => None,
        _ => tag_name(place),
    };
    match (m.place, named) {
        (Place::Nothing, _) => m.words.to_string(),
        (Place::Byte, _) => format!("{} (byte {place})", m.words),
        (Place::Line, _) => format!("{} (line {place})", m.words),
        (Place::Tag, Some(name)) => format!("{}: {name} (type {place:04x})", m.words),
        (Place::Tag, None) => format!("{}: type {place:04x}", m.words),
        (Place::Name, Some(name)) => format!("{}: {name}", m.words),
        (Place::Name, None) => format!("{}: type {place:04x}", m.words),
    }
}

impl Meaning {
    /// In words, with a place if that is known.
    pub fn sentence(&self, place: Option<u64>) -> String {
        sentence(self.number, place)
    }
}
