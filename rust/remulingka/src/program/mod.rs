//! The parts of the command line.

mod arguments;
mod check;
mod console;
mod demo;
mod envi;
mod failure;
mod files;
mod image;
mod jobs;
mod join;
mod names;
mod open;
mod options;
mod pack;
mod picture;
mod plot;
mod png;
mod replace;
mod signals;
mod split;
mod stored;
mod sum;
mod texts;

use std::ffi::OsString;

use arguments::Arguments;
use failure::Failure;
use options::{command, overview};

/// Runs the command that the words name; the status to end with.
pub fn run(words: &[OsString]) -> u8 {
    signals::watch();
    match run_command(words) {
        Ok(()) => 0,
        Err(failure) => {
            console::complain(&format!("remulingka: {failure}"));
            failure.status()
        }
    }
}

fn run_command(words: &[OsString]) -> Result<(), Failure> {
    let Some((first, rest)) = words.split_first() else {
        let what = format!("no command is given\n\n{}", overview());
        return Err(Failure::Usage(what));
    };
    let first = first.to_string_lossy();
    match first.as_ref() {
        "--help" | "-h" => return console::print(&overview()),
        "--version" | "-V" => return version(),
        _ => {}
    }
    let Some(command) = command(&first) else {
        let what = match first.starts_with('-') {
            true => format!("there is no option {first} before a command"),
            false => format!("there is no command {first}"),
        };
        return Err(Failure::Usage(format!("{what} (see remulingka help)")));
    };
    let arguments = Arguments::parse(rest, command)?;
    if arguments.flag("help") {
        return console::print(&command.help());
    }
    if arguments.flag("version") {
        return version();
    }
    if arguments.flag("quiet") {
        console::be_quiet();
    }
    match command.name {
        "pack" => pack::pack(&arguments),
        "open" => open::open(&arguments),
        "look" => open::look(&arguments),
        "length" => pack::length(&arguments),
        "check" => check::check(&arguments),
        "picture" => picture::picture(&arguments),
        "demo" => demo::demo(&arguments),
        "completion" => texts::completion(&arguments),
        "manual" => texts::manual(&arguments),
        _ => help(&arguments),
    }
}

fn version() -> Result<(), Failure> {
    console::print(&format!("remulingka {}\n", remulingka::VERSION))
}

/// `remulingka help [COMMAND]`
fn help(arguments: &Arguments) -> Result<(), Failure> {
    match arguments.operands() {
        [] => console::print(&overview()),
        [name] => match command(&name.to_string_lossy()) {
            Some(command) => console::print(&command.help()),
            None => {
                Err(arguments.usage(&format!("there is no command {}", name.to_string_lossy())))
            }
        },
        _ => Err(arguments.wrong_operands()),
    }
}
