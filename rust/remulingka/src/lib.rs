//! Packs and opens cube files: images packed by CCSDS 123.0-B-1 with the
//! sample-adaptive coder. The work is done by a proved archive; this crate lends
//! it memory, gives its settings names and its refusals words.
//!
//! ```
//! use remulingka::{open, pack, Settings};
//!
//! // Two bands of 3 × 2 samples, unsigned, 8 bits.
//! let samples = [10, 11, 12, 10, 11, 12, 20, 21, 22, 20, 21, 22];
//! let settings = Settings::for_image(3, 2, 2, false, 8).prediction_bands(1);
//! let file = pack(&settings, None, &samples)?;
//! let cube = open(&file)?;
//! assert_eq!(cube.samples, samples);
//! assert_eq!(cube.settings, settings);
//! # Ok::<(), remulingka::Refusal>(())
//! ```
//!
//! Samples are `i32`, band by band and row by row: sample (z, y, x) lies at
//! z·Ny·Nx + y·Nx + x. An image has at most [`MOST_SAMPLES`] samples in at most
//! [`MOST_BANDS`] bands. [`boundary`] has the calls without owned memory.

#![deny(unsafe_code)]
#![warn(missing_docs)]

pub mod boundary;
mod complaint;
mod cube;
pub mod limits;
mod refusal;
mod settings;
mod tables;

pub use cube::{length, longest_file, look, open, pack, Cube};
pub use limits::{MOST_BANDS, MOST_SAMPLES, SCRATCH_SLOTS, SETTING_SLOTS, TABLE_SLOTS};
pub use refusal::Refusal;
pub use settings::{InitialK, Order, Place, Settings, Weights};
pub use tables::Tables;

/// The version of this library and of the command line, `MAJOR.MINOR.PATCH`.
pub const VERSION: &str = env!("CARGO_PKG_VERSION");
