//! Tainhosa in Rust: the proved library behind `include/tainhosa.h`, with types that cannot be passed wrongly.
//!
//! | of | here |
//! |---|---|
//! | a header's values, in any form or in the sealed one | [`Header`], and [`Tags`] for the walk over its tags |
//! | a release sheet, and the header of a firmware | [`Sheet`] |
//! | an image that was checked | [`Image`] |
//! | the flash, and what a power-up and mending answer | [`Flash`], [`Geometry`], [`PowerUp`], [`Mended`] |
//! | a refusal: its number, its place, and in words | [`Refusal`] |
//! | SHA-256 | [`sha256`] |
//! | the calls as they are, for tests | [`raw`] |
//!
//! Every value that a call gives comes from the bytes that it was lent in this call. A refusal gives none.
//!
//! ```
//! use tainhosa::{Image, Sheet};
//!
//! let signature = "00".repeat(64);
//! let text = format!("version 7\ntimestamp 1700000000\nauth 512\nsignature {signature}\nhint no\n");
//! let sheet = Sheet::read(text.as_bytes())?;
//! let firmware = b"the firmware";
//!
//! let mut image = sheet.make_header(firmware)?.to_vec();
//! image.extend_from_slice(firmware);
//! assert_eq!(Image::check(&image)?.header().version, 7);
//!
//! // The version's first byte, and a byte of the firmware.
//! for changed in [12, 260] {
//!     let mut image = image.clone();
//!     image[changed] ^= 1;
//!     assert_eq!(Image::check(&image).unwrap_err().to_string(), "refused 9 at 256");
//! }
//! # Ok::<(), tainhosa::Refusal>(())
//! ```
//!
//! # Linking
//!
//! The build takes `libtainhosa.a` from the folder that the variable `TAINHOSA_LIBRARY` names, else from `target/staticlib` of the
//! repository, where `tools/ready library` leaves it. The archive is for x86-64.
#![deny(missing_docs)]
#![deny(unsafe_op_in_unsafe_fn)]

mod digest;
mod ffi;
mod flash;
mod header;
mod image;
mod power_up;
pub mod raw;
mod refusal;
mod sheet;
mod tags;
mod words;

pub use digest::sha256;
pub use flash::{Flag, Flash, Geometry, Mark, Mended, Status};
pub use header::Header;
pub use image::Image;
pub use power_up::{Outcome, PowerUp};
pub use refusal::{Inner, Refusal};
pub use sheet::Sheet;
pub use tags::{tag_name, Tag, Tags, FIRST_CRITICAL_TYPE};
pub use words::{meaning, Meaning, Place, MEANINGS};

/// The bytes of a header. The firmware follows it.
pub const HEADER_LENGTH: usize = 256;
