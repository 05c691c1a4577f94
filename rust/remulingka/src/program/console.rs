//! What is said to the user: results on the output, all else on the error output.
//! Words that cannot be written there are no reason to stop.

use std::io::{ErrorKind, IsTerminal, Write};
use std::sync::atomic::{AtomicBool, Ordering};

use super::failure::Failure;

/// Whether results and notes are left out.
static QUIET: AtomicBool = AtomicBool::new(false);

/// Leaves out results and notes from now on; warnings and failures are still said.
pub fn be_quiet() {
    QUIET.store(true, Ordering::Relaxed);
}

pub fn is_quiet() -> bool {
    QUIET.load(Ordering::Relaxed)
}

/// Writes what was asked for to the output. A reader that went away early is no
/// fault.
pub fn print(text: &str) -> Result<(), Failure> {
    print_bytes(text.as_bytes())
}

pub fn print_bytes(bytes: &[u8]) -> Result<(), Failure> {
    let mut output = std::io::stdout().lock();
    match output.write_all(bytes).and_then(|()| output.flush()) {
        Err(error) if error.kind() != ErrorKind::BrokenPipe => {
            Err(Failure::File(format!("standard output: {error}")))
        }
        _ => Ok(()),
    }
}

/// Says how something went: on the output, or on the error output where the output
/// carries bytes. Not when quiet.
pub fn report(text: &str, output_is_taken: bool) -> Result<(), Failure> {
    if is_quiet() {
        return Ok(());
    }
    if output_is_taken {
        complain(text);
        return Ok(());
    }
    print(&format!("{text}\n"))
}

/// Says something of use on the error output. Not when quiet.
pub fn note(text: &str) {
    if !is_quiet() {
        complain(&format!("remulingka: {text}"));
    }
}

/// Says something that the user must know, quiet or not.
pub fn warn(text: &str) {
    complain(&format!("remulingka: warning: {text}"));
}

/// One line on the error output. Where that is full or closed there is nobody left
/// to tell.
pub fn complain(text: &str) {
    let _ = writeln!(std::io::stderr(), "{text}");
}

/// One line on the error output that is written over and over, and removed at
/// the end. Where the error output is no terminal, nothing.
pub struct Progress {
    is_shown: bool,
}

impl Progress {
    pub fn new() -> Progress {
        Progress {
            is_shown: !is_quiet() && std::io::stderr().is_terminal(),
        }
    }

    /// Shows what is being done now.
    pub fn show(&self, what: &str) {
        if self.is_shown {
            let mut errors = std::io::stderr();
            // `\x1b[K` clears what is left of a longer line.
            let _ = write!(errors, "\r{what}\x1b[K").and_then(|()| errors.flush());
        }
    }
}

impl Drop for Progress {
    fn drop(&mut self) {
        self.show("");
    }
}
