use crate::{raw, Refusal};

/// Where the first tag of a header may stand.
const FIRST_TAG: usize = 8;

/// From this type up a tag must be understood. None of these types is known, so that [`Header::read`](crate::Header::read) refuses each of
/// them with 18; a lower type that is not known it skips.
pub const FIRST_CRITICAL_TYPE: u16 = 0x8000;

/// A tag of a header.
#[derive(Clone, Copy, Debug, PartialEq, Eq)]
pub struct Tag {
    /// Its first byte.
    pub place: usize,
    /// Its type.
    pub kind: u16,
    /// The length of its value, which begins 4 bytes behind the place.
    pub length: usize,
}

impl Tag {
    /// Whether it must be understood, by its type.
    pub fn is_critical(&self) -> bool {
        self.kind >= FIRST_CRITICAL_TYPE
    }
}

/// The walk over the tags of a header, of every type, up to the end or a refusal (16, 4 or 7), which is given once.
///
/// Magic, size, the lengths that the types ask for, and whether a tag must be understood, are not looked at.
///
/// ```
/// use tainhosa::{Tag, Tags};
///
/// let mut header = [0xFF; 256];
/// header[9..19].copy_from_slice(&[0x42, 0, 0, 0, 0x01, 0x80, 0, 0, 0, 0]);
/// let tags = Tags::new(&header).collect::<Result<Vec<_>, _>>()?;
/// assert_eq!(tags, [Tag { place: 9, kind: 0x0042, length: 0 }, Tag { place: 13, kind: 0x8001, length: 0 }]);
/// assert!(!tags[0].is_critical() && tags[1].is_critical());
/// # Ok::<(), tainhosa::Refusal>(())
/// ```
#[derive(Clone, Debug)]
pub struct Tags<'a> {
    input: &'a [u8],
    at: Option<usize>,
}

impl<'a> Tags<'a> {
    /// The tags of the header in the first 256 bytes.
    pub fn new(input: &'a [u8]) -> Self {
        Tags { input, at: Some(FIRST_TAG) }
    }
}

impl Iterator for Tags<'_> {
    type Item = Result<Tag, Refusal>;

    fn next(&mut self) -> Option<Self::Item> {
        let at = self.at.take()?;
        let mut row = [0; 6];
        let number = raw::next_tag(self.input, at, &mut row);
        let [refused_at, found, place, kind, length, next] = row;
        if number != 0 {
            return Some(Err(Refusal::new(number, refused_at)));
        }
        if found == 0 {
            return None;
        }
        self.at = Some(next as usize);
        Some(Ok(Tag { place: place as usize, kind: kind as u16, length: length as usize }))
    }
}

/// The name of a type of document 01's table, as sheets and listings have it; None for another type.
pub fn tag_name(kind: u64) -> Option<&'static str> {
    match kind {
        0x0001 => Some("version"),
        0x0002 => Some("timestamp"),
        0x0003 => Some("digest"),
        0x0020 => Some("signature"),
        0x0030 => Some("auth"),
        0x1000 => Some("hint"),
        _ => None,
    }
}
