//! The archive's speed beside the plain program's. Both do the same work in one
//! run, turn by turn, so that whatever else the machine does slows both alike;
//! only the ratio means something on a shared machine.

mod cubes;
mod measure;
mod table;

use std::process::ExitCode;

use cubes::cubes;
use measure::{measure, Row};

const USAGE: &str = "\
usage: bench [--seconds N] [--commit NAME] [--output FILE.md]
Packs and opens cubes of 64 bands with the archive and with the plain program.
--seconds  time of the whole run, about (60)
--commit   what the table calls the edition measured (else git is asked)
--output   writes a table there";

struct Options {
    seconds: f64,
    commit: Option<String>,
    output: Option<String>,
}

fn main() -> ExitCode {
    match options().and_then(|options| run(&options)) {
        Ok(()) => ExitCode::SUCCESS,
        Err(message) => {
            eprintln!("{message}");
            ExitCode::from(1)
        }
    }
}

fn options() -> Result<Options, String> {
    let mut options = Options {
        seconds: 60.0,
        commit: None,
        output: None,
    };
    let mut words = std::env::args().skip(1);
    while let Some(word) = words.next() {
        let value = words.next().ok_or(USAGE)?;
        match word.as_str() {
            "--seconds" => options.seconds = value.parse().map_err(|_| USAGE)?,
            "--commit" => options.commit = Some(value),
            "--output" => options.output = Some(value),
            _ => return Err(USAGE.to_string()),
        }
    }
    Ok(options)
}

fn run(options: &Options) -> Result<(), String> {
    let cubes = cubes();
    // Two calls a cube, each measured for its share of the time.
    let share = options.seconds / (2 * cubes.len()) as f64;
    let mut rows: Vec<Row> = Vec::new();
    println!("{}", table::heading());
    for cube in &cubes {
        for row in measure(cube, share)? {
            println!("{}", table::line(&row));
            rows.push(row);
        }
    }
    println!("{}", table::summary(&rows));
    match &options.output {
        Some(path) => {
            let text = table::document(&rows, options.commit.as_deref());
            std::fs::write(path, text).map_err(|error| format!("{path}: {error}"))
        }
        None => Ok(()),
    }
}
