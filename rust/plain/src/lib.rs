//! An independent reference program for cube files: one image packed by
//! CCSDS 123.0-B-1 with the sample-adaptive coder.
//!
//! The modules follow the data's way: `settings` and `header` say what the file
//! is, `predictor` turns samples into mapped values, `coder` turns mapped values
//! into codewords, and `cube` joins them into the four public calls, which `boundary`
//! has as C makes them. `case` reads and answers recorded calls, `make` and `shapes`
//! invent new ones, and `feed` and `unfeed` turn calls into the input of the proved
//! program and back; `parameters` has what another, which takes no input, must write.
//!
//! Nothing here is shared with the proved code. That is the point: two programs
//! written apart from the same paper are compared by a run.

pub mod bits;
pub mod boundary;
pub mod case;
pub mod coder;
pub mod cube;
pub mod feed;
pub mod header;
pub mod make;
pub mod parameters;
pub mod predictor;
pub mod refusal;
pub mod settings;
pub mod shapes;
pub mod unfeed;

pub use cube::{length, look, open, pack, Answer};
pub use refusal::Refusal;
pub use settings::Settings;
