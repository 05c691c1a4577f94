//! What an ENVI header says.

use std::path::Path;

use super::super::failure::Failure;
use super::super::files::read_text_bytes;
use super::fields::{Braces, Fields, FIRST_LINE};
use super::names::header_beside;
use super::types::{Interleave, SampleType};

/// The layout of the data, and all fields as they stand.
#[derive(Clone, Debug)]
pub struct Header {
    pub columns: usize,
    pub rows: usize,
    pub bands: usize,
    pub offset: u64,
    pub sample_type: SampleType,
    pub interleave: Interleave,
    pub big_endian: bool,
    pub fields: Fields,
}

/// The fields of the layout, which are written from it.
const LAYOUT: [&str; 8] = [
    "samples",
    "lines",
    "bands",
    "header offset",
    "data type",
    "interleave",
    "byte order",
    "file type",
];

impl Header {
    /// A header with no fields but those of the layout.
    pub fn plain(sample_type: SampleType) -> Header {
        Header {
            columns: 0,
            rows: 0,
            bands: 0,
            offset: 0,
            sample_type,
            interleave: Interleave::Band,
            big_endian: false,
            fields: Fields::default(),
        }
    }

    pub fn read(path: &Path) -> Result<Header, Failure> {
        let Some(text) = read_text_bytes(path, FIRST_LINE)? else {
            let what = match header_beside(path) {
                Some(header) => format!(
                    "this is no ENVI header: its first line is not ENVI; its header is {}",
                    header.display()
                ),
                None => "this is no ENVI header: its first line is not ENVI; name the header \
                         of an image, not its data"
                    .to_string(),
            };
            return Err(Failure::refused(path, what));
        };
        Header::parse(&text).map_err(|what| Failure::refused(path, what))
    }

    /// Takes a header apart. Where braces stand within braces, programs read it in two
    /// ways; what both give is taken, or what the one gives where the other fails.
    pub fn parse(text: &[u8]) -> Result<Header, String> {
        let counted = Header::of_fields(Fields::parse(text, Braces::Counted));
        let first = Header::of_fields(Fields::parse(text, Braces::First));
        match (counted, first) {
            (Ok(counted), Ok(first)) if counted.layout() != first.layout() => Err(
                "braces stand within braces, so that its layout can be read in two ways"
                    .to_string(),
            ),
            (Ok(counted), _) => Ok(counted),
            (Err(_), Ok(first)) => Ok(first),
            (Err(what), Err(_)) => Err(what),
        }
    }

    fn of_fields(fields: Result<Fields, String>) -> Result<Header, String> {
        let fields = fields?;
        let sample_type = SampleType::of_number(fields.needed("data type")?)?;
        let interleave = fields.word("interleave").unwrap_or("bsq".to_string());
        let interleave = Interleave::of_name(&interleave)
            .ok_or_else(|| format!("interleave = {interleave} is not bsq, bil or bip"))?;
        let byte_order: u32 = fields.number("byte order")?.unwrap_or(0);
        if byte_order > 1 {
            return Err(format!("byte order = {byte_order} is not 0 or 1"));
        }
        refuse_other_data(&fields)?;
        Ok(Header {
            columns: fields.needed("samples")?,
            rows: fields.needed("lines")?,
            bands: fields.needed("bands")?,
            offset: fields.number("header offset")?.unwrap_or(0),
            sample_type,
            interleave,
            big_endian: byte_order == 1,
            fields,
        })
    }

    /// What the fields of the layout say.
    fn layout(&self) -> [(&'static str, String); 7] {
        [
            (LAYOUT[0], self.columns.to_string()),
            (LAYOUT[1], self.rows.to_string()),
            (LAYOUT[2], self.bands.to_string()),
            (LAYOUT[3], self.offset.to_string()),
            (LAYOUT[4], self.sample_type.number.to_string()),
            (LAYOUT[5], self.interleave.name().to_string()),
            (LAYOUT[6], u8::from(self.big_endian).to_string()),
        ]
    }

    /// The names of the fields that are not of the layout.
    pub fn further(&self) -> Vec<String> {
        let names = self.fields.iter().map(|(name, _)| name.to_string());
        names
            .filter(|name| !LAYOUT.contains(&name.as_str()))
            .collect()
    }

    /// The text of this header.
    pub fn text(&self) -> Vec<u8> {
        let mut fields = self.fields.clone();
        for (name, value) in self.layout() {
            // A value that says the same stays as it was written.
            if fields
                .word(name)
                .is_none_or(|old| !old.eq_ignore_ascii_case(&value))
            {
                fields.set(name, value.as_bytes());
            }
        }
        // Some programs ask for this field, which has but one value for images like these.
        if fields.get("file type").is_none() {
            fields.set("file type", b"ENVI Standard");
        }
        fields.text()
    }

    /// Bytes of the data, the offset with them; nothing if no file is so long.
    pub fn data_bytes(&self) -> Option<u64> {
        let sizes = [self.columns, self.rows, self.bands, self.sample_type.bytes];
        let bytes = sizes
            .iter()
            .try_fold(1_u64, |bytes, &size| bytes.checked_mul(size as u64));
        bytes?.checked_add(self.offset)
    }

    /// Whether both are of images of the same sizes.
    pub fn sizes(&self) -> [usize; 3] {
        [self.columns, self.rows, self.bands]
    }
}

/// Refuses fields by which the data is not plain samples one behind the other.
fn refuse_other_data(fields: &Fields) -> Result<(), String> {
    if let Some(compression) = fields.word("file compression").filter(|word| word != "0") {
        return Err(format!(
            "file compression = {compression}: the data is compressed; unpack it with gunzip and \
             set the field to 0"
        ));
    }
    let kind = fields.word("file type").unwrap_or_default();
    if !kind.is_empty() && !kind.to_ascii_lowercase().starts_with("envi") {
        return Err(format!(
            "file type = {kind}: the data is not ENVI's raw data"
        ));
    }
    for name in ["major frame offsets", "minor frame offsets"] {
        let value = fields.get(name).unwrap_or_default();
        if value.iter().any(|byte| (b'1'..=b'9').contains(byte)) {
            return Err(format!(
                "{name}: data with bytes between its rows is not read"
            ));
        }
    }
    Ok(())
}
