//! An image on its way to the recorder, and the words for what it refuses.

use std::ops::Range;
use std::path::{Path, PathBuf};

use remulingka::limits::house_limits;
use remulingka::{Cube, Refusal, Settings, Tables, MOST_BANDS, MOST_SAMPLES};

use super::arguments::Arguments;
use super::envi::{find_data, read_samples, Header, Window};
use super::failure::Failure;
use super::files::is_dash;
use super::names::{Choices, Depth};

/// An image that was named, and what is asked for.
pub struct Image {
    pub header: Header,
    pub window: Window,
    pub data: PathBuf,
    is_data_named: bool,
    choices: Choices,
}

/// The window that options take of an image.
pub fn window_of(arguments: &Arguments, header: &Header) -> Result<Window, Failure> {
    Ok(Window {
        columns: arguments.range("columns", header.columns)?,
        rows: arguments.range("rows", header.rows)?,
        bands: arguments.range("take-bands", header.bands)?,
    })
}

impl Image {
    /// Reads the header of an image and finds its data.
    pub fn find(arguments: &Arguments, path: &Path) -> Result<Image, Failure> {
        let choices = arguments.choices()?;
        let header = Header::read(path)?;
        let window = window_of(arguments, &header)?;
        let named = arguments.path("data");
        let data = match named {
            Some(data) if is_dash(data) && is_dash(path) => {
                return Err(arguments.usage("header and data cannot both be standard input"))
            }
            Some(data) => data.to_path_buf(),
            None if is_dash(path) => {
                return Err(arguments.usage("a header from standard input needs --data"))
            }
            None => find_data(path)?,
        };
        Ok(Image {
            header,
            window,
            data,
            is_data_named: named.is_some(),
            choices,
        })
    }

    /// Reads some rows of the window with the settings that were chosen.
    pub fn input(&self, rows: Range<usize>) -> Result<Input<'_>, Failure> {
        let window = Window {
            rows,
            ..self.window.clone()
        };
        // An image over the house limits is refused before its samples are looked at,
        // so they need not be read.
        let is_too_large = window.sample_count() > MOST_SAMPLES || window.bands.len() > MOST_BANDS;
        let samples = if is_too_large {
            Vec::new()
        } else {
            read_samples(&self.data, self.is_data_named, &self.header, &window)?
        };
        let kind = self.header.sample_type;
        let signed = self.choices.signed()?.unwrap_or(kind.is_signed);
        let sizes = window.sizes();
        let [columns, rows, bands] = sizes.map(|size| i32::try_from(size).unwrap_or(i32::MAX));
        let depth = match self.choices.depth()? {
            Depth::Bits(depth) => depth,
            Depth::OfType => kind.depth(),
            Depth::Least => match fitting_depth(signed, &samples) {
                Some(depth) => depth,
                None => return Err(self.no_least(signed, [columns, rows, bands], &samples)),
            },
        };
        let usual = Settings::for_image(columns, rows, bands, signed, depth);
        let settings = self.choices.settings(usual)?;
        Ok(Input {
            data: &self.data,
            settings,
            tables: self.choices.tables(&settings)?,
            samples,
        })
    }

    /// The failure of `--depth least` where no depth holds all samples.
    fn no_least(&self, signed: bool, sizes: [i32; 3], samples: &[i32]) -> Failure {
        let [columns, rows, bands] = sizes;
        let settings = Settings::for_image(columns, rows, bands, signed, 16);
        let (least, most) = settings.sample_range();
        let out = samples
            .iter()
            .position(|sample| !(least..=most).contains(sample));
        let what = format!(
            "depth least: {}; {}",
            sample_words(&settings, samples, out.unwrap_or(0)),
            depth_advice(&settings, samples)
        );
        Failure::refused(&self.data, what)
    }
}

/// The least depth that holds all samples, if 2 to 16 do.
fn fitting_depth(signed: bool, samples: &[i32]) -> Option<i32> {
    let bits = samples.iter().map(|&sample| match signed {
        // A negative sample has as many bits as its complement.
        true => 33 - (sample ^ (sample >> 31)).leading_zeros(),
        false => 32 - sample.leading_zeros(),
    });
    let depth = bits.max().unwrap_or(0).max(2) as i32;
    (depth <= 16).then_some(depth)
}

/// What can be done for samples that are out of range.
fn depth_advice(settings: &Settings, samples: &[i32]) -> String {
    let signed = settings.signed;
    if let Some(depth) = fitting_depth(signed, samples) {
        return format!("set --depth {depth} or more, or correct the sample");
    }
    let (word, other) = if signed {
        ("no", "unsigned")
    } else {
        ("yes", "signed")
    };
    match fitting_depth(!signed, samples) {
        Some(depth) => format!("set --signed {word} and --depth {depth}: {other} it fits"),
        None => "no depth holds all samples: correct them, or scale the image".to_string(),
    }
}

/// A sample with its place and what its range is.
fn sample_words(settings: &Settings, samples: &[i32], index: usize) -> String {
    let place = settings.place_of_index(index as u64);
    let (least, most) = settings.sample_range();
    let kind = if settings.signed {
        "signed"
    } else {
        "unsigned"
    };
    let sample = match samples.get(index) {
        // Wide types are cut to 32 bits when they are read.
        Some(&i32::MAX) => format!("{} or more", i32::MAX),
        Some(&i32::MIN) => format!("{} or less", i32::MIN),
        Some(sample) => sample.to_string(),
        None => "a sample".to_string(),
    };
    format!(
        "{sample} at band {}, row {}, column {} (from 0); {} bits {kind} hold {least} to {most}",
        place.band, place.row, place.column, settings.depth,
    )
}

/// An image that is ready to be packed.
pub struct Input<'a> {
    data: &'a Path,
    pub settings: Settings,
    tables: Option<Tables>,
    samples: Vec<i32>,
}

impl Input<'_> {
    pub fn pack(&self) -> Result<Vec<u8>, Failure> {
        remulingka::pack(&self.settings, self.tables.as_ref(), &self.samples)
            .map_err(|refusal| self.message(refusal))
    }

    pub fn length(&self) -> Result<u64, Failure> {
        remulingka::length(&self.settings, self.tables.as_ref(), &self.samples)
            .map_err(|refusal| self.message(refusal))
    }

    /// The message for a refusal of this image.
    fn message(&self, refusal: Refusal) -> Failure {
        let settings = &self.settings;
        let detail = match refusal {
            Refusal::IllegalSetting => settings
                .complaint()
                .or_else(|| settings.table_complaint(self.tables.as_ref()?)),
            Refusal::SampleOutOfRange { index } => {
                Some(sample_words(settings, &self.samples, index as usize))
            }
            Refusal::HouseLimit => Some(format!(
                "{} samples in {}",
                settings.sample_count(),
                counted(settings.bands as u64, "band")
            )),
            Refusal::ShortArea => Some("the table file has too few bands".to_string()),
            _ => None,
        };
        let advice = match refusal {
            Refusal::HouseLimit => format!(
                "pack it in parts of at most {}, with --split, --rows, --columns or --take-bands",
                house_limits()
            ),
            Refusal::ShortArea => "give a line for each band".to_string(),
            Refusal::SampleOutOfRange { .. } => depth_advice(settings, &self.samples),
            _ => refusal.advice(),
        };
        worded(self.data, refusal, detail, &advice)
    }
}

/// A count with its noun.
pub fn counted(count: u64, noun: &str) -> String {
    let ending = if count == 1 { "" } else { "s" };
    format!("{count} {noun}{ending}")
}

/// A refusal with its file, what it is about, and what can be done.
fn worded(path: &Path, refusal: Refusal, detail: Option<String>, advice: &str) -> Failure {
    let detail = detail.map_or(String::new(), |detail| format!(": {detail}"));
    Failure::refused(path, format!("{refusal}{detail}; {advice}"))
}

/// The failure of a file that was refused; says where in the image it happened.
pub fn refused_file(path: &Path, bytes: &[u8], refusal: Refusal) -> Failure {
    // No file begins so: an image of these sizes is over the limits.
    if bytes.starts_with(b"ENVI\n") || bytes.starts_with(b"ENVI\r") {
        return Failure::refused(path, "this is an ENVI header, and no cube file");
    }
    let detail = match refusal {
        Refusal::BodyEnds { rank } | Refusal::BadCodeword { rank } => {
            remulingka::look(bytes).ok().map(|settings| {
                if rank == settings.sample_count() {
                    return "all values are there, but not the fill behind them".to_string();
                }
                let place = settings.place_of_rank(rank);
                format!(
                    "band {}, row {}, column {} (from 0)",
                    place.band, place.row, place.column
                )
            })
        }
        _ => None,
    };
    let advice = match refusal {
        Refusal::HouseLimit => format!("this program takes at most {}", house_limits()),
        _ => refusal.advice(),
    };
    worded(path, refusal, detail, &advice)
}

/// Opens a file's bytes.
pub fn open_bytes(path: &Path, bytes: &[u8]) -> Result<Cube, Failure> {
    remulingka::open(bytes).map_err(|refusal| refused_file(path, bytes, refusal))
}
