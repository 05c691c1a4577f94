//! Files that are read. `-` is standard input.

use std::fs::{self, File};
use std::io::{self, Read};
use std::os::unix::fs::MetadataExt;
use std::path::Path;

use remulingka::limits::LONGEST_HEADER;
use remulingka::longest_file;

use super::failure::Failure;

/// No text that is read here is longer than this; what is longer is no text.
const MOST_TEXT: u64 = 16 << 20;

/// Whether a name stands for standard input or output.
pub fn is_dash(path: &Path) -> bool {
    path.as_os_str() == "-"
}

/// Opens a file, or standard input.
pub fn reader(path: &Path) -> Result<Box<dyn Read>, Failure> {
    if is_dash(path) {
        return Ok(Box::new(io::stdin().lock()));
    }
    let file = File::open(path).map_err(|error| Failure::file(path, error))?;
    let metadata = file.metadata();
    let metadata = metadata.map_err(|error| Failure::file(path, error))?;
    if metadata.is_dir() {
        return Err(Failure::file(path, "this is a folder"));
    }
    Ok(Box::new(file))
}

/// Reads on until `bytes` has `most` bytes or the file ends.
fn read_up_to(
    path: &Path,
    from: &mut dyn Read,
    most: u64,
    bytes: &mut Vec<u8>,
) -> Result<(), Failure> {
    let more = most.saturating_sub(bytes.len() as u64);
    let read = from.take(more).read_to_end(bytes);
    read.map(|_| ()).map_err(|error| Failure::file(path, error))
}

/// Reads a short text that begins with `first`, if that is wanted; a file that
/// begins otherwise is read no further.
pub fn read_text_bytes(path: &Path, first: &[u8]) -> Result<Option<Vec<u8>>, Failure> {
    let (mut from, mut bytes) = (reader(path)?, Vec::new());
    read_up_to(path, &mut from, first.len() as u64, &mut bytes)?;
    if bytes != first {
        return Ok(None);
    }
    read_up_to(path, &mut from, MOST_TEXT + 1, &mut bytes)?;
    if bytes.len() as u64 > MOST_TEXT {
        return Err(Failure::file(path, "this is too long for a text"));
    }
    Ok(Some(bytes))
}

/// Reads a text of ours: settings, tables, a list of names.
pub fn read_text(path: &Path) -> Result<String, Failure> {
    let bytes = read_text_bytes(path, b"")?.unwrap_or_default();
    String::from_utf8(bytes).map_err(|_| Failure::refused(path, "this is no text in UTF-8"))
}

/// Reads the start of a cube file, all of its header and little more.
pub fn read_cube_start(path: &Path) -> Result<Vec<u8>, Failure> {
    let mut bytes = Vec::new();
    read_up_to(path, &mut reader(path)?, LONGEST_HEADER as u64, &mut bytes)?;
    Ok(bytes)
}

/// Reads a cube file: at most one byte more than the longest of its sizes has, so
/// that what is no cube file is not read to its end.
pub fn read_cube(path: &Path) -> Result<Vec<u8>, Failure> {
    let (mut from, mut bytes) = (reader(path)?, Vec::new());
    read_up_to(path, &mut from, LONGEST_HEADER as u64, &mut bytes)?;
    if let Ok(settings) = remulingka::look(&bytes) {
        let longest = longest_file(settings.bands as usize, settings.sample_count() as usize);
        read_up_to(path, &mut from, longest as u64 + 1, &mut bytes)?;
    }
    Ok(bytes)
}

/// Whether two names are of one and the same file that is there.
pub fn is_same(one: &Path, other: &Path) -> bool {
    match (fs::metadata(one), fs::metadata(other)) {
        (Ok(one), Ok(other)) => (one.dev(), one.ino()) == (other.dev(), other.ino()),
        _ => false,
    }
}

/// Refuses an output that is one of the inputs.
pub fn keep_apart(output: &Path, inputs: &[&Path]) -> Result<(), Failure> {
    if inputs.iter().any(|input| is_same(output, input)) {
        return Err(Failure::file(
            output,
            "this is an input; name another output",
        ));
    }
    Ok(())
}
