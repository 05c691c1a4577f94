//! ENVI images: a text header beside raw data.

mod cut;
mod data;
mod fields;
mod header;
mod names;
mod types;

pub use cut::{wavelengths, Window};
pub use data::{read_samples, write_rows, write_samples};
pub use header::Header;
pub use names::{find_data, guard_data_name, guard_header_name, is_header_name};
pub use types::{Interleave, SampleType};
