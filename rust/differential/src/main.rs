//! The command line of the differential run.

use std::process::ExitCode;

use differential::{run_and_tell, Options};

const USAGE: &str = "\
usage: differential [--calls N] [--seed N] [--only INDEX]
Makes random calls of the archive and of the plain program and compares them.
--only makes the one call of an index again and describes it.";

fn main() -> ExitCode {
    run_and_tell(options())
}

fn options() -> Result<Options, String> {
    let mut options = Options::from_environment()?;
    let mut words = std::env::args().skip(1);
    while let Some(word) = words.next() {
        let number = words.next().and_then(|text| text.parse().ok());
        let number = number.ok_or(USAGE)?;
        match word.as_str() {
            "--calls" => options.calls = number,
            "--seed" => options.seed = number,
            "--only" => options.only = Some(number),
            _ => return Err(USAGE.to_string()),
        }
    }
    Ok(options)
}
