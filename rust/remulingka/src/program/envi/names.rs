//! Which files belong together by their names. Endings may be in capitals.

use std::ffi::OsStr;
use std::fs;
use std::os::unix::ffi::OsStrExt;
use std::path::{Path, PathBuf};

use super::super::failure::Failure;
use super::super::files::is_same;

/// The endings that data beside `IMAGE.hdr` may have.
const ENDINGS: [&str; 7] = ["", ".img", ".dat", ".raw", ".bsq", ".bil", ".bip"];

/// A name without an ending of any case; nothing if it ends otherwise.
fn without<'a>(name: &'a [u8], ending: &str) -> Option<&'a [u8]> {
    let (stem, end) = name.split_at_checked(name.len().checked_sub(ending.len())?)?;
    let is_ending = end.eq_ignore_ascii_case(ending.as_bytes()) && !stem.is_empty();
    is_ending.then_some(stem)
}

/// Whether a file's name is one of a header.
pub fn is_header_name(path: &Path) -> bool {
    without(name_of(path), ".hdr").is_some()
}

fn name_of(path: &Path) -> &[u8] {
    path.file_name().map_or(b"", OsStr::as_bytes)
}

/// Whether `data` is a name under which the data of the header named `header` is
/// looked for.
fn belong(header: &[u8], data: &[u8]) -> bool {
    let Some(stem) = without(header, ".hdr") else {
        return false;
    };
    let mut endings = ENDINGS.iter();
    endings.any(|ending| without(data, ending) == Some(stem))
}

/// The ordinary files beside a path whose names are meant.
fn beside(path: &Path, is_meant: impl Fn(&[u8]) -> bool) -> Vec<PathBuf> {
    let folder = match path.parent() {
        Some(folder) if !folder.as_os_str().is_empty() => folder,
        _ => Path::new("."),
    };
    let entries = fs::read_dir(folder).into_iter().flatten().flatten();
    let names = entries.map(|entry| entry.file_name());
    let mut paths: Vec<PathBuf> = names
        .filter(|name| is_meant(name.as_bytes()))
        .map(|name| path.with_file_name(name))
        .filter(|path| path.is_file())
        .collect();
    paths.sort();
    paths
}

/// The files that would pass for the data of a header.
fn data_beside(header: &Path) -> Vec<PathBuf> {
    beside(header, |name| belong(name_of(header), name))
}

/// The headers whose data a file would pass for.
fn headers_beside(data: &Path) -> Vec<PathBuf> {
    beside(data, |name| belong(name, name_of(data)))
}

/// The header of a file that is data, if there is one.
pub fn header_beside(data: &Path) -> Option<PathBuf> {
    headers_beside(data).into_iter().next()
}

fn listed(paths: &[PathBuf]) -> String {
    let names: Vec<String> = paths
        .iter()
        .map(|path| path.display().to_string())
        .collect();
    names.join(", ")
}

/// Finds the data of a header. More than one file that could be it is refused.
pub fn find_data(header: &Path) -> Result<PathBuf, Failure> {
    let there = data_beside(header);
    match there.as_slice() {
        [data] => Ok(data.clone()),
        [] => Err(Failure::file(
            header,
            "no data was found beside it (the same name without .hdr, or with .img, .dat, \
             .raw, .bsq, .bil or .bip); name it with --data",
        )),
        _ => {
            let what = format!(
                "more than one file beside it could be its data: {}; name it with --data",
                listed(&there)
            );
            Err(Failure::refused(header, what))
        }
    }
}

/// Refuses to write a header beside which data lies that is not its own: it would be
/// read under the new header.
pub fn guard_header_name(header: &Path, own: &Path) -> Result<(), Failure> {
    let mut others = data_beside(header);
    others.retain(|data| data != own && !is_same(data, own));
    if others.is_empty() {
        return Ok(());
    }
    let what = format!(
        "other data lies beside it, which would be read under the new header: {}; choose \
         another name, or remove it",
        listed(&others)
    );
    Err(Failure::file(header, what))
}

/// Refuses to write a file that would be read as the data of a header that is not its
/// own.
pub fn guard_data_name(data: &Path, own: Option<&Path>) -> Result<(), Failure> {
    let mut others = headers_beside(data);
    others.retain(|header| own.is_none_or(|own| header != own && !is_same(header, own)));
    if others.is_empty() {
        return Ok(());
    }
    let what = format!(
        "this would be read as the data of another header: {}; choose another name",
        listed(&others)
    );
    Err(Failure::file(data, what))
}

#[cfg(test)]
mod tests {
    use super::belong;

    #[test]
    fn endings_of_any_case_belong() {
        for data in [
            "p", "p.img", "p.IMG", "p.Dat", "p.bsq", "p.BIL", "p.bip", "p.raw",
        ] {
            assert!(belong(b"p.hdr", data.as_bytes()), "{data}");
            assert!(belong(b"p.HDR", data.as_bytes()), "{data}");
        }
        assert!(belong(b"p.img.hdr", b"p.img"));
        for data in ["p.cube", "q.img", "p.hdr", "p.img.gz", "P.img", ""] {
            assert!(!belong(b"p.hdr", data.as_bytes()), "{data}");
        }
        assert!(!belong(b".hdr", b".img"));
    }
}
