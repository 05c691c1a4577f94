//! The header of a part of an image: lists of bands are cut, places are moved, and
//! what can be neither is left out and named.

use std::ops::Range;

use super::fields::{list_of, parts_of};
use super::header::Header;

/// A part of an image.
#[derive(Clone, Debug, PartialEq, Eq)]
pub struct Window {
    pub columns: Range<usize>,
    pub rows: Range<usize>,
    pub bands: Range<usize>,
}

impl Window {
    /// The whole of an image of these columns, rows and bands.
    pub fn whole([columns, rows, bands]: [usize; 3]) -> Window {
        Window {
            columns: 0..columns,
            rows: 0..rows,
            bands: 0..bands,
        }
    }

    /// Its columns, rows and bands.
    pub fn sizes(&self) -> [usize; 3] {
        [self.columns.len(), self.rows.len(), self.bands.len()]
    }

    pub fn sample_count(&self) -> usize {
        let sizes = self.sizes();
        sizes
            .iter()
            .fold(1, |count, &size| count.saturating_mul(size))
    }
}

/// Lists with one part for each band.
const BAND_LISTS: [&str; 8] = [
    "wavelength",
    "fwhm",
    "bbl",
    "band names",
    "data gain values",
    "data offset values",
    "data reflectance gain values",
    "data reflectance offset values",
];

/// Lists whose count has nothing to do with the image's sizes.
const OTHER_LISTS: [&str; 12] = [
    "description",
    "map info",
    "projection info",
    "coordinate system string",
    "default bands",
    "default stretch",
    "class names",
    "class lookup",
    "z plot range",
    "z plot titles",
    "z plot average",
    "pixel size",
];

/// Fields that tie places of the whole image to the ground, and cannot be moved here.
const TIED: [&str; 2] = ["geo points", "rpc info"];

/// What becomes of a field.
enum Fate {
    Stays,
    Becomes(Vec<u8>),
    Goes,
}

impl Header {
    /// The header of a part, and the names of fields that it had to leave out.
    pub fn cut(&self, window: &Window) -> (Header, Vec<String>) {
        let mut part = self.clone();
        [part.columns, part.rows, part.bands] = window.sizes();
        let mut left_out = Vec::new();
        for (name, value) in self.fields.iter() {
            match self.fate(name, value, window) {
                Fate::Stays => {}
                Fate::Becomes(value) => part.fields.set(name, &value),
                Fate::Goes => left_out.push(name.to_string()),
            }
        }
        part.fields
            .remove(|name| left_out.iter().any(|out| out == name));
        (part, left_out)
    }

    fn fate(&self, name: &str, value: &[u8], window: &Window) -> Fate {
        let [columns, rows, bands] = window.sizes();
        let is_placed = columns < self.columns || rows < self.rows;
        let fewer_bands = bands < self.bands;
        let moved = |value: Option<Vec<u8>>| value.map_or(Fate::Goes, Fate::Becomes);
        match name {
            _ if BAND_LISTS.contains(&name) && fewer_bands => moved(self.cut_list(value, window)),
            "default bands" if fewer_bands => moved(moved_bands(value, window)),
            "map info" if is_placed => moved(moved_map(value, window)),
            "x start" if is_placed => moved(moved_start(value, window.columns.start)),
            "y start" if is_placed => moved(moved_start(value, window.rows.start)),
            _ if TIED.contains(&name) && is_placed => Fate::Goes,
            _ if BAND_LISTS.contains(&name) || OTHER_LISTS.contains(&name) => Fate::Stays,
            // An unknown list that has a part for each place of an axis that is cut may
            // belong to that axis, or not.
            _ => {
                let count = parts_of(value).map_or(0, |parts| parts.len());
                let axes = self.sizes().into_iter().zip(window.sizes());
                let mut cut = axes.filter(|(whole, part)| part < whole);
                if cut.any(|(whole, _)| whole == count) {
                    Fate::Goes
                } else {
                    Fate::Stays
                }
            }
        }
    }

    /// A list of bands, cut; nothing if it has not a part for each band.
    fn cut_list(&self, value: &[u8], window: &Window) -> Option<Vec<u8>> {
        let parts = parts_of(value).filter(|parts| parts.len() == self.bands)?;
        Some(list_of(&parts[window.bands.clone()]))
    }
}

fn text_of(value: &[u8]) -> Option<&str> {
    std::str::from_utf8(value).ok().map(str::trim)
}

/// The bands to be shown, from 1; nothing if one of them is not in the part.
fn moved_bands(value: &[u8], window: &Window) -> Option<Vec<u8>> {
    let bands: Option<Vec<Vec<u8>>> = parts_of(value)?
        .iter()
        .map(|part| {
            let band: usize = text_of(part)?.parse().ok()?;
            let band = band.checked_sub(1 + window.bands.start)?;
            (band < window.bands.len()).then(|| (band + 1).to_string().into_bytes())
        })
        .collect();
    Some(list_of(&bands?))
}

/// The pixel that the map's place is of, parts 2 and 3, moves: where it lay at 1 in
/// the whole it lies so much before the part. That is exact, and right for turned
/// maps too.
fn moved_map(value: &[u8], window: &Window) -> Option<Vec<u8>> {
    let mut parts = parts_of(value)?;
    for (index, start) in [(1, window.columns.start), (2, window.rows.start)] {
        let pixel: f64 = text_of(parts.get(index)?)?.parse().ok()?;
        parts[index] = (pixel - start as f64).to_string().into_bytes();
    }
    Some(list_of(&parts))
}

fn moved_start(value: &[u8], start: usize) -> Option<Vec<u8>> {
    let old: i64 = text_of(value)?.parse().ok()?;
    Some((old + start as i64).to_string().into_bytes())
}

/// The wavelengths in nanometres, if they stand in a header, one for each band.
pub fn wavelengths(header: &Header) -> Option<Vec<f64>> {
    let parts = parts_of(header.fields.get("wavelength")?)?;
    let lengths: Option<Vec<f64>> = parts
        .iter()
        .map(|part| text_of(part)?.parse().ok())
        .collect();
    let lengths = lengths.filter(|lengths| {
        let is_length = |length: &f64| (0.0..1e9).contains(length);
        lengths.len() == header.bands && lengths.iter().all(is_length)
    })?;
    let units = header.fields.word("wavelength units").unwrap_or_default();
    match units.to_ascii_lowercase().as_str() {
        "micrometers" | "um" | "microns" => Some(lengths.iter().map(|w| 1000.0 * w).collect()),
        "" | "nanometers" | "nm" | "unknown" => Some(lengths),
        _ => None,
    }
}

#[cfg(test)]
mod tests {
    use super::{Header, Window};

    const TEXT: &str = "ENVI\nsamples = 8\nlines = 6\nbands = 4\ndata type = 12\n\
        wavelength = {400.5, 410, 420,\n 430}\nbbl = {1, 0, 1, 1}\nband names = {a b, c, d, e}\n\
        fwhm = {1, 2, 3}\ndefault bands = {4, 3, 2}\nx start = 1\ny start = 100\n\
        map info = {UTM, 1.0, 1.5, 500000.0, 6700000.0, 1.5, 1.5, 33, North, WGS-84}\n\
        rpc info = {1, 2}\nsun azimuth = 12.5\nlight = {1, 2, 3, 4}\nrow times = {1,2,3,4,5,6}\n";

    fn value(header: &Header, name: &str) -> String {
        let value = header.fields.get(name).unwrap_or(b"none");
        String::from_utf8(value.to_vec()).unwrap()
    }

    #[test]
    fn the_whole_stays_as_it_is() {
        let header = Header::parse(TEXT.as_bytes()).unwrap();
        let (same, left_out) = header.cut(&Window::whole(header.sizes()));
        assert!(left_out.is_empty());
        assert_eq!(same.text(), header.text());
    }

    #[test]
    fn lists_are_cut_and_places_moved() {
        let header = Header::parse(TEXT.as_bytes()).unwrap();
        let window = Window {
            columns: 3..5,
            rows: 2..6,
            bands: 1..4,
        };
        let (part, left_out) = header.cut(&window);
        assert_eq!(part.sizes(), [2, 4, 3]);
        assert_eq!(value(&part, "wavelength"), "{410, 420, 430}");
        assert_eq!(value(&part, "bbl"), "{0, 1, 1}");
        assert_eq!(value(&part, "band names"), "{c, d, e}");
        assert_eq!(value(&part, "default bands"), "{3, 2, 1}");
        assert_eq!(value(&part, "x start"), "4");
        assert_eq!(value(&part, "y start"), "102");
        assert_eq!(
            value(&part, "map info"),
            "{UTM, -2, -0.5, 500000.0, 6700000.0, 1.5, 1.5, 33, North, WGS-84}"
        );
        assert_eq!(value(&part, "sun azimuth"), "12.5");
        // fwhm has not one part a band; the last two may belong to bands and rows.
        assert_eq!(left_out, ["fwhm", "rpc info", "light", "row times"]);
        assert_eq!(value(&part, "light"), "none");
    }

    #[test]
    fn rows_alone_leave_bands_alone() {
        let header = Header::parse(TEXT.as_bytes()).unwrap();
        let mut window = Window::whole(header.sizes());
        window.rows = 0..3;
        let (part, left_out) = header.cut(&window);
        assert_eq!(value(&part, "fwhm"), "{1, 2, 3}");
        assert_eq!(value(&part, "light"), "{1, 2, 3, 4}");
        assert_eq!(left_out, ["rpc info", "row times"]);
    }
}
