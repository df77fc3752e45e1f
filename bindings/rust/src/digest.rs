use crate::raw;

/// The SHA-256 digest of a message (FIPS 180-4). A header's digest has another message than the firmware alone: see
/// [`Sheet::make_header`](crate::Sheet::make_header), which makes it.
///
/// ```
/// let digest = tainhosa::sha256(b"abc");
/// assert_eq!(digest[..4], [0xba, 0x78, 0x16, 0xbf]);
/// ```
pub fn sha256(message: &[u8]) -> [u8; 32] {
    let mut digest = [0; 32];
    raw::sha256(message, &mut digest);
    digest
}
