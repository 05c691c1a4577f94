//! The differential run as a test: `REMULINGKA_CALLS` calls from `REMULINGKA_SEED`.

use std::process::ExitCode;

use differential::{run_and_tell, Options};

fn main() -> ExitCode {
    // `cargo test -- --list` and filters are not for a test without a harness.
    run_and_tell(Options::from_environment())
}
