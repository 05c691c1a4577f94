//! `remulingka check`: opening many files to see which are in order.

use std::ffi::{OsStr, OsString};
use std::fs;
use std::os::unix::ffi::OsStrExt;
use std::path::{Path, PathBuf};

use remulingka::{Refusal, Settings};

use super::arguments::Arguments;
use super::console::{is_quiet, print, report, Progress};
use super::failure::Failure;
use super::files::{is_dash, read_cube, read_text_bytes};
use super::image::{counted, refused_file};
use super::jobs::in_order;
use super::stored::{is_stored, Stored};

/// What is known of the sum of a file that opens.
#[derive(Clone, Copy, Debug, PartialEq, Eq)]
enum Sum {
    AsPacked,
    None,
}

/// What is found about a file. One that cannot be read may be in order; one that opens
/// with another sum than was stored is not what was packed.
enum Verdict {
    Opens(Settings, Sum),
    Changed(Settings),
    Refused(Refusal, Failure),
    /// It is refused for what is stored beside it.
    Unfit(Failure),
    Unreadable(Failure),
}

/// A file with what was found.
struct Found {
    bytes: usize,
    verdict: Verdict,
}

/// `remulingka check FILE|FOLDER...`
pub fn check(arguments: &Arguments) -> Result<(), Failure> {
    let files = files_of(arguments)?;
    let progress = Progress::new();
    let as_json = arguments.flag("json");
    let use_stored = !arguments.flag("no-stored");
    let (mut wrong, mut unreadable, mut done) = (0, 0, 0);
    let work = |file: &PathBuf| look_into(file, use_stored);
    in_order(arguments.jobs()?, &files, work, |file, found: Found| {
        done += 1;
        progress.show("");
        let is_fine = matches!(found.verdict, Verdict::Opens(..));
        match found.verdict {
            Verdict::Opens(..) => {}
            Verdict::Unreadable(_) => unreadable += 1,
            _ => wrong += 1,
        }
        if !is_fine || !is_quiet() {
            let line = if as_json {
                found.json(file)
            } else {
                found.line(file)
            };
            print(&format!("{line}\n"))?;
        }
        progress.show(&format!("{done} of {}", files.len()));
        Ok(())
    })?;
    drop(progress);
    let all = counted(files.len() as u64, "file");
    if wrong > 0 {
        let what = format!("{wrong} of {all} refused or changed, {unreadable} unreadable");
        return Err(Failure::Refused(what));
    }
    if unreadable > 0 {
        return Err(Failure::File(format!("{unreadable} of {all} unreadable")));
    }
    match (as_json, files.len()) {
        (true, _) => Ok(()),
        (false, 1) => report("1 file, and it opens", false),
        (false, _) => report(&format!("{all}, and all open"), false),
    }
}

/// The files that are named: by operands, in folders, and in lists.
fn files_of(arguments: &Arguments) -> Result<Vec<PathBuf>, Failure> {
    let mut named: Vec<PathBuf> = arguments.operands().iter().map(PathBuf::from).collect();
    let list = arguments.path("list");
    if let Some(list) = list {
        // Names need not be UTF-8.
        let text = read_text_bytes(list, b"")?.unwrap_or_default();
        let lines = text.split(|&byte| byte == b'\n');
        let lines = lines.filter(|line| !line.is_empty());
        named.extend(lines.map(|line| PathBuf::from(OsStr::from_bytes(line))));
    }
    if named.is_empty() && list.is_none() {
        return Err(arguments.wrong_operands());
    }
    let mut files = Vec::new();
    for path in named {
        if path.is_dir() {
            add_folder(&path, &mut files)?;
        } else if !is_stored(&path) {
            files.push(path);
        }
    }
    if files.is_empty() {
        return Err(Failure::File("there is no file to check".to_string()));
    }
    Ok(files)
}

/// Adds the cube files of a folder and of those below it, in the order of their names.
/// Links to folders are not followed, for they may lead in a circle.
fn add_folder(folder: &Path, files: &mut Vec<PathBuf>) -> Result<(), Failure> {
    let failed = |error| Failure::file(folder, error);
    let entries = fs::read_dir(folder).map_err(failed)?;
    let entries: Result<Vec<fs::DirEntry>, _> = entries.collect();
    let mut entries = entries.map_err(failed)?;
    entries.sort_by_key(|entry| entry.file_name());
    for entry in entries {
        let path = entry.path();
        let name: OsString = entry.file_name().to_ascii_lowercase();
        if entry.file_type().map_err(failed)?.is_dir() {
            add_folder(&path, files)?;
        } else if name.as_bytes().ends_with(b".cube") && path.is_file() {
            files.push(path);
        }
    }
    Ok(())
}

/// Reads and opens a file.
fn look_into(path: &Path, use_stored: bool) -> Found {
    let bytes = match read_cube(path) {
        Ok(bytes) => bytes,
        Err(failure) => {
            return Found {
                bytes: 0,
                verdict: Verdict::Unreadable(failure),
            }
        }
    };
    let verdict = match remulingka::open(&bytes) {
        Ok(cube) => stored_verdict(path, &bytes, cube.settings, use_stored),
        Err(refusal) => Verdict::Refused(refusal, refused_file(path, &bytes, refusal)),
    };
    Found {
        bytes: bytes.len(),
        verdict,
    }
}

/// The verdict on a file that opens, by what is stored beside it.
fn stored_verdict(path: &Path, bytes: &[u8], settings: Settings, use_stored: bool) -> Verdict {
    if !use_stored || is_dash(path) {
        return Verdict::Opens(settings, Sum::None);
    }
    let stored = match Stored::read(path) {
        Ok(stored) => stored,
        Err(failure @ Failure::File(_)) => return Verdict::Unreadable(failure),
        Err(failure) => return Verdict::Unfit(failure),
    };
    match stored.and_then(|stored| stored.is_of(bytes)) {
        None => Verdict::Opens(settings, Sum::None),
        Some(true) => Verdict::Opens(settings, Sum::AsPacked),
        Some(false) => Verdict::Changed(settings),
    }
}

impl Found {
    /// One line for a person.
    fn line(&self, path: &Path) -> String {
        let file = path.display();
        let sizes = |settings: &Settings| {
            format!(
                "{} columns, {} rows, {} of {} bits",
                settings.columns,
                settings.rows,
                counted(settings.bands as u64, "band"),
                settings.depth
            )
        };
        match &self.verdict {
            Verdict::Opens(settings, Sum::AsPacked) => {
                format!("{file}: opens, {}; as it was packed", sizes(settings))
            }
            Verdict::Opens(settings, Sum::None) => {
                format!("{file}: opens, {}; no sum is stored", sizes(settings))
            }
            Verdict::Changed(settings) => format!(
                "CHANGED {file}: opens, {}, but its bytes are not those that were packed, by the \
                 sum stored beside it",
                sizes(settings)
            ),
            Verdict::Refused(_, failure) | Verdict::Unfit(failure) => format!("REFUSED {failure}"),
            Verdict::Unreadable(failure) => format!("UNREADABLE {failure}"),
        }
    }

    /// The same as a JSON object in one line.
    fn json(&self, path: &Path) -> String {
        let mut fields = vec![("file", quoted(&path.to_string_lossy()))];
        if path.to_str().is_none() {
            let bytes = path.as_os_str().as_bytes().iter();
            let digits: String = bytes.map(|byte| format!("{byte:02x}")).collect();
            fields.push(("file_hex", quoted(&digits)));
        }
        let (verdict, settings, sum) = match &self.verdict {
            Verdict::Opens(settings, Sum::AsPacked) => ("opens", Some(settings), "as packed"),
            Verdict::Opens(settings, Sum::None) => ("opens", Some(settings), "none"),
            Verdict::Changed(settings) => ("changed", Some(settings), "differs"),
            Verdict::Refused(..) | Verdict::Unfit(_) => ("refused", None, "none"),
            Verdict::Unreadable(_) => ("unreadable", None, "none"),
        };
        fields.push(("verdict", quoted(verdict)));
        fields.push(("sum", quoted(sum)));
        fields.push(("bytes", self.bytes.to_string()));
        if let Some(settings) = settings {
            fields.push(("columns", settings.columns.to_string()));
            fields.push(("rows", settings.rows.to_string()));
            fields.push(("bands", settings.bands.to_string()));
            fields.push(("depth", settings.depth.to_string()));
        }
        if let Verdict::Refused(refusal, _) = &self.verdict {
            fields.push(("refusal", refusal.number().to_string()));
        }
        if let Verdict::Refused(_, failure)
        | Verdict::Unfit(failure)
        | Verdict::Unreadable(failure) = &self.verdict
        {
            fields.push(("message", quoted(&failure.to_string())));
        }
        let fields: Vec<String> = fields
            .iter()
            .map(|(name, value)| format!("\"{name}\": {value}"))
            .collect();
        format!("{{{}}}", fields.join(", "))
    }
}

/// A text as JSON writes it.
fn quoted(text: &str) -> String {
    let mut quoted = String::from("\"");
    for letter in text.chars() {
        match letter {
            '"' | '\\' => quoted.extend(['\\', letter]),
            '\u{0}'..='\u{1F}' => quoted.push_str(&format!("\\u{:04x}", letter as u32)),
            _ => quoted.push(letter),
        }
    }
    quoted.push('"');
    quoted
}

#[cfg(test)]
mod tests {
    use super::quoted;

    #[test]
    fn texts_are_quoted() {
        assert_eq!(quoted("a\"b\\c\n\u{1}ü"), "\"a\\\"b\\\\c\\u000a\\u0001ü\"");
    }
}
