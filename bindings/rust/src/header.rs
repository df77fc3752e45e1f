use crate::raw::{self, Values};
use crate::{Refusal, HEADER_LENGTH};
use std::fmt;

/// The values of a header. Its text is document 01's listing, without the last line's end.
///
/// ```
/// use tainhosa::Header;
///
/// let header = Header {
///     size: 256,
///     version: 7,
///     timestamp: 1_700_000_000,
///     digest: [1; 32],
///     signature: [2; 64],
///     auth_type: 512,
///     hint: None,
/// };
/// let bytes = header.write()?;
/// assert_eq!(Header::read(&bytes)?, header);
/// assert_eq!(header.to_string(), "size 256\nversion 7\ntimestamp 1700000000\nauth 512\nhint no");
/// assert_eq!(header.write_into(&mut [0; 255]).unwrap_err().to_string(), "refused 16 at 0");
/// # Ok::<(), tainhosa::Refusal>(())
/// ```
#[derive(Clone, Debug, PartialEq, Eq)]
pub struct Header {
    /// The firmware's size in bytes.
    pub size: u32,
    /// The version, by which an update is newer or not.
    pub version: u32,
    /// The timestamp, in unix seconds.
    pub timestamp: u64,
    /// The SHA-256 digest of the header's bytes before the digest tag, and then of the firmware.
    pub digest: [u8; 32],
    /// The signature, which the library does not check.
    pub signature: [u8; 64],
    /// The type of the authentication.
    pub auth_type: u16,
    /// The hint at the key, if the header has one.
    pub hint: Option<[u8; 32]>,
}

/// A part of a buffer as an array. The part is as long as the array.
pub(crate) fn part<const N: usize>(bytes: &[u8]) -> [u8; N] {
    let mut all = [0; N];
    all.copy_from_slice(bytes);
    all
}

/// The header that a call gives, by its answer and the rows of numbers and bytes that it fills.
pub(crate) fn from_rows(call: impl FnOnce(&mut [u64], &mut [u8]) -> u32) -> Result<Header, Refusal> {
    let (mut numbers, mut bytes) = ([0; 6], [0; 128]);
    let answer = call(&mut numbers, &mut bytes);
    let [place, size, version, timestamp, auth_type, has_hint] = numbers;
    if answer != 0 {
        return Err(Refusal::new(answer, place));
    }
    Ok(Header {
        size: size as u32,
        version: version as u32,
        timestamp,
        digest: part(&bytes[..32]),
        signature: part(&bytes[32..96]),
        auth_type: auth_type as u16,
        hint: (has_hint == 1).then(|| part(&bytes[96..])),
    })
}

/// A header's bytes, as they are written.
pub(crate) fn written(write: impl FnOnce(&mut [u8]) -> Result<(), Refusal>) -> Result<[u8; HEADER_LENGTH], Refusal> {
    let mut out = [0; HEADER_LENGTH];
    write(&mut out)?;
    Ok(out)
}

/// A call that writes a header: into these bytes, of this size, with these values, and with digest, signature and hint; then the place.
type Writer = fn(&mut [u8], u32, Values, &[u8], &mut [u64]) -> u32;

impl Header {
    /// Reads the header in the first 256 bytes; what follows them is not looked at, and the digest is not checked.
    ///
    /// Refused with 16, 2, 3 (size 0 only), 4, 18 (a tag that must be understood), 5, 6, 7 or 8.
    pub fn read(input: &[u8]) -> Result<Header, Refusal> {
        from_rows(|numbers, bytes| raw::read_header(input, numbers, bytes))
    }

    /// Reads a sealed header, as [`Header::read`] does and to the same values. It has the one form that [`Header::write_sealed`] writes:
    /// all six tags in the table's order, the hint among them, no padding, no other tag, and FF from byte 176 on. So two sealed headers
    /// have the same values exactly if their 256 bytes are equal.
    ///
    /// Refused with what [`Header::read`] refuses; then with 21, at the first byte that is not as these values are written, or at 138,
    /// where the hint's tag would stand, if there is none and no byte before differs.
    ///
    /// ```
    /// # use tainhosa::Header;
    /// # let (digest, signature) = ([1; 32], [2; 64]);
    /// # let mut header = Header { size: 256, version: 7, timestamp: 0, digest, signature, auth_type: 512, hint: None };
    /// assert_eq!(header.write_sealed().unwrap_err().to_string(), "refused 21 at 138");
    /// header.hint = Some([3; 32]);
    /// let mut bytes = header.write_sealed()?;
    /// assert_eq!(Header::read_sealed(&bytes)?, header);
    ///
    /// // Behind the end mark the ordinary reader does not look.
    /// bytes[200] = 0;
    /// assert_eq!(Header::read(&bytes)?, header);
    /// assert_eq!(Header::read_sealed(&bytes).unwrap_err().to_string(), "refused 21 at 200");
    /// # Ok::<(), tainhosa::Refusal>(())
    /// ```
    pub fn read_sealed(input: &[u8]) -> Result<Header, Refusal> {
        from_rows(|numbers, bytes| raw::read_sealed(input, numbers, bytes))
    }

    /// The 256 bytes of a header with these values, which read back to them. The digest is written as it is; that of a firmware is made
    /// by [`Sheet::make_header`](crate::Sheet::make_header).
    ///
    /// Refused with 3 where the size is 0.
    pub fn write(&self) -> Result<[u8; HEADER_LENGTH], Refusal> {
        written(|out| self.write_into(out))
    }

    /// Writes the header into the first 256 bytes, and leaves the bytes behind them.
    ///
    /// Refused with 16 or 3 (size 0 only); then no byte changes.
    pub fn write_into(&self, out: &mut [u8]) -> Result<(), Refusal> {
        self.write_by(raw::write_header, out)
    }

    /// The 256 bytes of a sealed header with these values: those of [`Header::write`], which [`Header::read_sealed`] reads back to them.
    ///
    /// Refused with 3 where the size is 0, then with 21 at 138 where there is no hint.
    pub fn write_sealed(&self) -> Result<[u8; HEADER_LENGTH], Refusal> {
        written(|out| self.write_sealed_into(out))
    }

    /// Writes the sealed header into the first 256 bytes, and leaves the bytes behind them.
    ///
    /// Refused with 16, 3 (size 0 only) or 21 (no hint); then no byte changes.
    pub fn write_sealed_into(&self, out: &mut [u8]) -> Result<(), Refusal> {
        self.write_by(raw::write_sealed, out)
    }

    fn write_by(&self, writer: Writer, out: &mut [u8]) -> Result<(), Refusal> {
        let values =
            Values { version: self.version, timestamp: self.timestamp, auth_type: self.auth_type, has_hint: self.hint.is_some() };
        let mut bytes = [0; 128];
        bytes[..32].copy_from_slice(&self.digest);
        bytes[32..96].copy_from_slice(&self.signature);
        bytes[96..].copy_from_slice(&self.hint.unwrap_or([0; 32]));
        let mut place = [0];
        match writer(out, self.size, values, &bytes, &mut place) {
            0 => Ok(()),
            number => Err(Refusal::new(number, place[0])),
        }
    }
}

impl fmt::Display for Header {
    fn fmt(&self, f: &mut fmt::Formatter<'_>) -> fmt::Result {
        writeln!(f, "size {}", self.size)?;
        writeln!(f, "version {}", self.version)?;
        writeln!(f, "timestamp {}", self.timestamp)?;
        writeln!(f, "auth {}", self.auth_type)?;
        write!(f, "hint {}", if self.hint.is_some() { "yes" } else { "no" })
    }
}
