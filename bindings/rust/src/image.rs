use crate::header::from_rows;
use crate::{raw, Geometry, Header, Refusal, HEADER_LENGTH};

/// An image that was found good: its header reads, its firmware is all there, and the digest is the one that the header states. It covers
/// the header's bytes before the digest tag, padding and skipped tags with them, and then the firmware.
#[derive(Clone, Debug, PartialEq, Eq)]
pub struct Image<'a> {
    header: Header,
    firmware: &'a [u8],
}

impl<'a> Image<'a> {
    /// Checks the image at the first byte: the bytes lent stand for the firmware sectors. What follows the firmware is not looked at.
    ///
    /// Refused with what [`Header::read`] refuses, 3 (also where the firmware is longer than the bytes behind the header) or 9.
    pub fn check(image: &'a [u8]) -> Result<Image<'a>, Refusal> {
        let header = from_rows(|numbers, bytes| raw::check_firmware(image, numbers, bytes))?;
        Ok(Image::of(header, image))
    }

    /// Checks the image of a partition, BOOT or UPDATE, as a power-up does: all sectors but the last may hold firmware.
    ///
    /// Refused with 1 (the partition's length), what [`Header::read`] refuses, 3 (also where the firmware does not fit) or 9.
    pub fn check_partition(geometry: Geometry, partition: &'a [u8]) -> Result<Image<'a>, Refusal> {
        let (sectors, size) = (geometry.sectors(), geometry.size());
        let header = from_rows(|numbers, bytes| raw::check_image(sectors, size, partition, numbers, bytes))?;
        Ok(Image::of(header, partition))
    }

    fn of(header: Header, bytes: &'a [u8]) -> Image<'a> {
        let firmware = &bytes[HEADER_LENGTH..][..header.size as usize];
        Image { header, firmware }
    }

    /// Its header's values.
    pub fn header(&self) -> &Header {
        &self.header
    }

    /// Its firmware.
    pub fn firmware(&self) -> &'a [u8] {
        self.firmware
    }
}
