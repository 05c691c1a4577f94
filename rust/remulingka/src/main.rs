//! The command line.

#![deny(unsafe_code)]

mod program;

use std::ffi::OsString;
use std::process::ExitCode;

fn main() -> ExitCode {
    let words: Vec<OsString> = std::env::args_os().skip(1).collect();
    ExitCode::from(program::run(&words))
}
