//! The header that is stored beside a cube: `FILE.envi`.
//!
//! It is the text of an ENVI header of the image that was packed, every field kept,
//! and three fields of ours: the sum of the cube's bytes, so that it is never taken
//! for another file's and a changed cube is noticed; the part of the image that was
//! packed; and for parts of one scene what they have in common. It does not end with
//! .hdr, for programs that pair files by name would then read the packed bytes as raw
//! samples.

use std::ffi::OsString;
use std::ops::Range;
use std::path::{Path, PathBuf};

use remulingka::{Cube, Settings};

use super::envi::{Header, Window};
use super::failure::Failure;
use super::files::{is_dash, read_cube};
use super::image::open_bytes;
use super::sum::sum_of;

const SUM: &str = "remulingka sum";
const WINDOW: &str = "remulingka window";
const SCENE: &str = "remulingka scene";

/// Where the header of a cube is stored.
pub fn stored_path(cube: &Path) -> PathBuf {
    let mut name = OsString::from(cube.as_os_str());
    name.push(".envi");
    PathBuf::from(name)
}

/// Whether a file is the stored header of a cube that is there.
pub fn is_stored(path: &Path) -> bool {
    let is_named = path.extension().is_some_and(|ending| ending == "envi");
    is_named && path.with_extension("").is_file()
}

/// A part of an image, with the sizes of the whole.
#[derive(Clone, Debug, PartialEq, Eq)]
pub struct Part {
    pub window: Window,
    pub whole: [usize; 3],
}

/// What the parts that were packed together have in common.
#[derive(Clone, Debug, PartialEq, Eq)]
pub struct Scene {
    pub identity: String,
    /// The rows that all parts together have.
    pub rows: Range<usize>,
}

impl Scene {
    fn text(&self) -> String {
        format!(
            "{} rows {}:{}",
            self.identity, self.rows.start, self.rows.end
        )
    }

    fn parse(text: &str) -> Option<Scene> {
        let (identity, rows) = text.split_once(" rows ")?;
        let (first, end) = rows.split_once(':')?;
        Some(Scene {
            identity: identity.to_string(),
            rows: first.parse().ok()?..end.parse().ok()?,
        })
    }
}

/// A stored header.
pub struct Stored {
    /// The header, without our fields.
    pub header: Header,
    pub sum: Option<String>,
    pub part: Option<Part>,
    pub scene: Option<Scene>,
}

/// Leaves our own fields out of a header.
pub fn without_ours(header: &mut Header) {
    header.fields.remove(|name| name.starts_with("remulingka "));
}

impl Part {
    fn text(&self) -> String {
        let shown = |name, range: &Range<usize>, of| {
            format!("{name} {}:{} of {of}", range.start, range.end)
        };
        let [columns, rows, bands] = self.whole;
        format!(
            "{{{}, {}, {}}}",
            shown("columns", &self.window.columns, columns),
            shown("rows", &self.window.rows, rows),
            shown("bands", &self.window.bands, bands)
        )
    }

    fn parse(text: &str) -> Option<Part> {
        let inner = text.strip_prefix('{')?.strip_suffix('}')?;
        let axes: Vec<&str> = inner.split(", ").collect();
        let axis = |index: usize, name: &str| {
            let rest = axes.get(index)?.strip_prefix(name)?.trim_start();
            let (range, of) = rest.split_once(" of ")?;
            let (first, end) = range.split_once(':')?;
            let range: Range<usize> = first.parse().ok()?..end.parse().ok()?;
            let of: usize = of.parse().ok()?;
            (range.start < range.end && range.end <= of).then_some((range, of))
        };
        let (columns, all_columns) = axis(0, "columns")?;
        let (rows, all_rows) = axis(1, "rows")?;
        let (bands, all_bands) = axis(2, "bands")?;
        let window = Window {
            columns,
            rows,
            bands,
        };
        Some(Part {
            window,
            whole: [all_columns, all_rows, all_bands],
        })
    }
}

/// The text to be stored for a cube of this header and sum.
pub fn stored_text(header: &Header, part: &Part, scene: Option<&Scene>, sum: &str) -> Vec<u8> {
    let mut header = header.clone();
    without_ours(&mut header);
    // The image that `open` writes begins at its first byte.
    header.offset = 0;
    header.fields.set(SUM, sum.as_bytes());
    header.fields.set(WINDOW, part.text().as_bytes());
    if let Some(scene) = scene {
        header.fields.set(SCENE, scene.text().as_bytes());
    }
    header.text()
}

impl Stored {
    /// The stored header of a cube, if there is one.
    pub fn read(cube: &Path) -> Result<Option<Stored>, Failure> {
        let path = stored_path(cube);
        if is_dash(cube) || !path.exists() {
            return Ok(None);
        }
        let mut header = Header::read(&path).map_err(|failure| match failure {
            Failure::Refused(what) => {
                Failure::Refused(format!("{what}; --no-stored does without it"))
            }
            failure => failure,
        })?;
        let unread = |name: &str, text: &str| {
            Failure::refused(&path, format!("{name} = {text} cannot be read"))
        };
        let part = header
            .fields
            .word(WINDOW)
            .map(|text| Part::parse(&text).ok_or_else(|| unread(WINDOW, &text)));
        let scene = header
            .fields
            .word(SCENE)
            .map(|text| Scene::parse(&text).ok_or_else(|| unread(SCENE, &text)));
        let (part, scene) = (part.transpose()?, scene.transpose()?);
        let sum = header.fields.word(SUM);
        without_ours(&mut header);
        Ok(Some(Stored {
            header,
            sum,
            part,
            scene,
        }))
    }

    /// Whether the cube's bytes are those that were packed; nothing if no sum is stored.
    pub fn is_of(&self, bytes: &[u8]) -> Option<bool> {
        let sum = self.sum.as_ref()?;
        Some(sum.eq_ignore_ascii_case(&sum_of(bytes)))
    }

    /// Refuses a cube that is not the one this header was stored for.
    fn refuse_other(&self, path: &Path, bytes: &[u8], settings: &Settings) -> Result<(), Failure> {
        let stored = stored_path(path);
        let stored = stored.display();
        if self.is_of(bytes) == Some(false) {
            let what = format!(
                "its bytes are not those that were packed, by the sum in {stored}: it was damaged \
                 or replaced; fetch it again, or open it with --no-stored as it is"
            );
            return Err(Failure::refused(path, what));
        }
        let [columns, rows, bands] = self.header.sizes();
        let sizes = [settings.columns, settings.rows, settings.bands].map(|size| size as usize);
        if sizes != [columns, rows, bands] {
            let what = format!(
                "{stored} is of an image of {columns} columns, {rows} rows and {bands} bands, and \
                 this is not; use --no-stored"
            );
            return Err(Failure::refused(path, what));
        }
        Ok(())
    }
}

/// Reads and opens a cube, with its stored header where that is wanted and there.
pub fn open_cube(path: &Path, use_stored: bool) -> Result<(Cube, Option<Stored>), Failure> {
    let bytes = read_cube(path)?;
    let stored = match use_stored {
        true => Stored::read(path)?,
        false => None,
    };
    let cube = open_bytes(path, &bytes)?;
    if let Some(stored) = &stored {
        stored.refuse_other(path, &bytes, &cube.settings)?;
    }
    Ok((cube, stored))
}

#[cfg(test)]
mod tests {
    use super::{Part, Window};

    #[test]
    fn parts_are_read_as_they_are_written() {
        let part = Part {
            window: Window {
                columns: 3..9,
                rows: 0..1,
                bands: 7..20,
            },
            whole: [9, 4, 32],
        };
        let text = part.text();
        assert_eq!(text, "{columns 3:9 of 9, rows 0:1 of 4, bands 7:20 of 32}");
        assert_eq!(Part::parse(&text), Some(part));
        for wrong in [
            "",
            "{columns 3:9 of 9}",
            "{columns 3:10 of 9, rows 0:1 of 4, bands 7:20 of 32}",
        ] {
            assert_eq!(Part::parse(wrong), None);
        }
    }
}
