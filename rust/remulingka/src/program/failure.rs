//! Why the program ends without having done what was asked.

use std::fmt;
use std::path::Path;

/// A message for the user, and with it the program's status.
#[derive(Clone, Debug)]
pub enum Failure {
    /// 1: the recorder, or the reader of ENVI headers, refuses an image or a file.
    Refused(String),
    /// 2: the words of the command line are wrong.
    Usage(String),
    /// 3: a file could not be read, or may not or could not be written.
    File(String),
}

impl Failure {
    /// The file could not be read or written.
    pub fn file(path: &Path, what: impl fmt::Display) -> Failure {
        Failure::File(format!("{}: {what}", path.display()))
    }

    /// What the file holds is refused.
    pub fn refused(path: &Path, what: impl fmt::Display) -> Failure {
        Failure::Refused(format!("{}: {what}", path.display()))
    }

    /// The status that the program ends with.
    pub fn status(&self) -> u8 {
        match self {
            Failure::Refused(_) => 1,
            Failure::Usage(_) => 2,
            Failure::File(_) => 3,
        }
    }
}

impl fmt::Display for Failure {
    fn fmt(&self, to: &mut fmt::Formatter) -> fmt::Result {
        let (Failure::Refused(text) | Failure::Usage(text) | Failure::File(text)) = self;
        to.write_str(text)
    }
}
