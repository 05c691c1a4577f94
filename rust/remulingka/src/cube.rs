//! The four calls with owned memory.

use crate::boundary;
use crate::limits::{MOST_BANDS, MOST_SAMPLES, SCRATCH_SLOTS, SETTING_SLOTS, TABLE_SLOTS};
use crate::refusal::Refusal;
use crate::settings::Settings;
use crate::tables::Tables;

/// An image that was opened.
#[derive(Clone, Debug, PartialEq, Eq)]
pub struct Cube {
    /// The settings it was packed with.
    pub settings: Settings,
    /// Its table values; zero where the settings use none.
    pub tables: Tables,
    /// Its samples, band by band and row by row.
    pub samples: Vec<i32>,
}

/// Packs an image: the bytes of its file. Without `tables` all table values are
/// zero, as befits settings that use none.
pub fn pack(
    settings: &Settings,
    tables: Option<&Tables>,
    samples: &[i32],
) -> Result<Vec<u8>, Refusal> {
    let zeros = zero_tables(settings, tables);
    let tables = tables.map_or(zeros.as_slice(), Tables::slots);
    let longest = longest_file(bands_to_lend(settings), samples.len().min(MOST_SAMPLES));
    // Zeros that were never touched cost no memory, so the worst case may be lent.
    let mut out = vec![0; longest];
    let answer = boundary::pack(
        &settings.to_slots(),
        tables,
        samples,
        &mut scratch_for(settings),
        &mut out,
    );
    let length = Refusal::of_answer(answer)?;
    out.truncate(length as usize);
    // The area was for the worst of images; do not keep all of it alive.
    out.shrink_to_fit();
    Ok(out)
}

/// Counts the bytes of an image's file without writing it.
pub fn length(
    settings: &Settings,
    tables: Option<&Tables>,
    samples: &[i32],
) -> Result<u64, Refusal> {
    let zeros = zero_tables(settings, tables);
    let tables = tables.map_or(zeros.as_slice(), Tables::slots);
    let slots = settings.to_slots();
    let answer = boundary::length(&slots, tables, samples, &mut scratch_for(settings));
    Refusal::of_answer(answer)
}

/// Opens a file.
pub fn open(file: &[u8]) -> Result<Cube, Refusal> {
    // The header says how much memory to lend: 4 bytes for each of at most MOST_SAMPLES
    // samples, which cost nothing until they are written.
    let mut settings = look(file)?;
    let mut tables = Tables::new(settings.bands as usize);
    let mut samples = vec![0; settings.sample_count() as usize];
    let mut slots = settings.to_slots();
    let answer = boundary::open(
        file,
        &mut scratch_for(&settings),
        tables.slots_mut(),
        &mut samples,
        &mut slots,
    );
    Refusal::of_answer(answer)?;
    settings = Settings::from_slots(&slots);
    Ok(Cube {
        settings,
        tables,
        samples,
    })
}

/// Reads a file's header alone.
pub fn look(file: &[u8]) -> Result<Settings, Refusal> {
    let mut slots = [0; SETTING_SLOTS];
    Refusal::of_answer(boundary::look(file, &mut slots))?;
    Ok(Settings::from_slots(&slots))
}

/// The bands to lend memory for; illegal counts are refused before it is used.
fn bands_to_lend(settings: &Settings) -> usize {
    usize::try_from(settings.bands).map_or(0, |bands| bands.min(MOST_BANDS))
}

fn scratch_for(settings: &Settings) -> Vec<i32> {
    vec![0; SCRATCH_SLOTS * bands_to_lend(settings)]
}

/// Zeros for a table area that was not given; nothing if it was.
fn zero_tables(settings: &Settings, tables: Option<&Tables>) -> Vec<i32> {
    let bands = match tables {
        Some(_) => 0,
        None => bands_to_lend(settings),
    };
    vec![0; TABLE_SLOTS * bands]
}

/// A length that no file of so many bands and samples passes: 19 bytes of header
/// fields, the tables (18 components of at most 22 bits and half a byte a band), at
/// most Umax + D = 48 bits a sample, and fill. Proved as `file-at-most` in
/// `crates/cube/specs/SizeLaws.antt`.
pub fn longest_file(bands: usize, samples: usize) -> usize {
    32 + 50 * bands + 6 * samples
}
