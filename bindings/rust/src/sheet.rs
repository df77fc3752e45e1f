use crate::header::{part, written};
use crate::raw::{self, Values};
use crate::{Refusal, HEADER_LENGTH};
use std::fmt;

/// What a release sheet states. The size and the digest of an image are not on it: [`Sheet::make_header`] makes them.
///
/// A sheet is a text. Its lines end at a line feed; empty lines and lines that begin with `#` are passed over. Every other line is a
/// name, one space, and a value; each of the five names stands in the sheet exactly once, in any order:
///
/// | name | value |
/// |---|---|
/// | `version` | decimal digits, below 2^32 |
/// | `timestamp` | decimal digits, below 2^64: unix seconds |
/// | `auth` | decimal digits, below 2^16 |
/// | `signature` | 128 hex digits |
/// | `hint` | `no`, or 64 hex digits |
///
/// The text of a `Sheet` is such a sheet.
///
/// ```
/// # use tainhosa::Sheet;
/// let sheet = Sheet { version: 7, timestamp: 1_700_000_000, auth_type: 512, signature: [0xA5; 64], hint: None };
/// assert_eq!(Sheet::read(sheet.to_string().as_bytes()), Ok(sheet));
/// assert_eq!(Sheet::read(b"version 7\nversion 7\n").unwrap_err().to_string(), "refused 104 at 2");
/// ```
#[derive(Clone, Debug, PartialEq, Eq)]
pub struct Sheet {
    /// The version, by which an update is newer or not.
    pub version: u32,
    /// The timestamp, in unix seconds.
    pub timestamp: u64,
    /// The type of the authentication.
    pub auth_type: u16,
    /// The signature of the header's digest.
    pub signature: [u8; 64],
    /// The hint at the key, if there is one.
    pub hint: Option<[u8; 32]>,
}

impl Sheet {
    /// Reads a sheet.
    ///
    /// Refused with 101 to 104 at the line, counted from 1, or with 105, and then the type of what is missing is in the place.
    pub fn read(text: &[u8]) -> Result<Sheet, Refusal> {
        let (mut numbers, mut bytes) = ([0; 5], [0; 96]);
        let answer = raw::read_sheet(text, &mut numbers, &mut bytes);
        let [line, version, timestamp, auth_type, has_hint] = numbers;
        if answer != 0 {
            return Err(Refusal::new(answer, line));
        }
        Ok(Sheet {
            version: version as u32,
            timestamp,
            auth_type: auth_type as u16,
            signature: part(&bytes[..64]),
            hint: (has_hint == 1).then(|| part(&bytes[64..])),
        })
    }

    /// The header of this firmware: its size is the firmware's, its digest covers its bytes before the digest tag (magic, size, version
    /// and timestamp) and then the firmware, and all else is the sheet's. An image is this and the firmware.
    ///
    /// Refused with 3 where the firmware is empty, or has 2^32 bytes or more.
    pub fn make_header(&self, firmware: &[u8]) -> Result<[u8; HEADER_LENGTH], Refusal> {
        written(|out| self.make_header_into(out, firmware))
    }

    /// The same in the first 256 bytes of a buffer; the bytes behind them stay.
    ///
    /// Refused with 16 or 3; then no byte changes.
    pub fn make_header_into(&self, out: &mut [u8], firmware: &[u8]) -> Result<(), Refusal> {
        let values =
            Values { version: self.version, timestamp: self.timestamp, auth_type: self.auth_type, has_hint: self.hint.is_some() };
        let mut bytes = [0; 96];
        bytes[..64].copy_from_slice(&self.signature);
        bytes[64..].copy_from_slice(&self.hint.unwrap_or([0; 32]));
        let mut place = [0];
        match raw::make_header(out, firmware, values, &bytes, &mut place) {
            0 => Ok(()),
            number => Err(Refusal::new(number, place[0])),
        }
    }
}

fn put_hex(f: &mut fmt::Formatter<'_>, bytes: &[u8]) -> fmt::Result {
    bytes.iter().try_for_each(|b| write!(f, "{b:02x}"))
}

impl fmt::Display for Sheet {
    fn fmt(&self, f: &mut fmt::Formatter<'_>) -> fmt::Result {
        write!(f, "version {}\ntimestamp {}\nauth {}\nsignature ", self.version, self.timestamp, self.auth_type)?;
        put_hex(f, &self.signature)?;
        f.write_str("\nhint ")?;
        match &self.hint {
            None => f.write_str("no")?,
            Some(hint) => put_hex(f, hint)?,
        }
        f.write_str("\n")
    }
}
