//! The archive against the plain program: random calls at the C boundary, each
//! answered by both, the answers and every lent area compared.
//!
//! Each call is drawn from the seed and its own index alone, so that any one can
//! be made again by itself.

pub mod compare;
pub mod images;
pub mod inputs;
pub mod run;

pub use plain::boundary::{Call, Writer};
pub use run::{run, run_and_tell, Options, Report};
