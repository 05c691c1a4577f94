//! The coding order, the file, and the four public calls.

use crate::bits::{BitCounter, BitReader, BitSink, BitWriter};
use crate::coder::{Coder, CodewordFault};
use crate::header::{read_header, write_header, Header};
use crate::predictor::{mapped, unmapped, Place, Predictor};
use crate::refusal::{Leaves, Refusal};
use crate::settings::{Settings, TABLE_STRIDE};

/// The answer of the writing calls: the file's length, or a refusal.
pub type Answer = Result<u64, Refusal>;

/// Packs `samples` into `out`. Scratch is lent by its length alone: this program
/// has its own memory, and what scratch holds can change nothing.
pub fn pack(
    settings: &Settings,
    tables: &[i32],
    samples: &[i32],
    scratch_len: usize,
    out: &mut [u8],
) -> Answer {
    check_call(settings, tables, samples, scratch_len)?;
    let mut writer = BitWriter::default();
    write_file(settings, tables, samples, &mut writer);
    let file = writer.into_bytes();
    let length = file.len() as u64;
    match out.get_mut(..file.len()) {
        Some(place) => place.copy_from_slice(&file),
        None => {
            out.fill(0);
            return Err(Refusal::ShortOutput { length });
        }
    }
    Ok(length)
}

/// The length that `pack` would need, without writing anything.
pub fn length(settings: &Settings, tables: &[i32], samples: &[i32], scratch_len: usize) -> Answer {
    check_call(settings, tables, samples, scratch_len)?;
    let mut counter = BitCounter::default();
    write_file(settings, tables, samples, &mut counter);
    Ok(counter.position() / 8)
}

/// Opens `file`: the settings, with the table values and samples in the lent areas.
pub fn open(
    file: &[u8],
    scratch_len: usize,
    tables: &mut [i32],
    image: &mut [i32],
) -> Result<Settings, Refusal> {
    let opened = open_or_leave(file, scratch_len, tables, image);
    if let Err(refusal) = opened {
        if refusal.leaves() == Leaves::Zero {
            tables.fill(0);
            image.fill(0);
        }
    }
    opened
}

/// Reads the header alone.
pub fn look(file: &[u8]) -> Result<Settings, Refusal> {
    read_header(file).map(|header| header.settings)
}

/// The writer's refusals 1 to 5, in the writer's order: 1, 4, 3, 5, 1, 2.
fn check_call(
    settings: &Settings,
    tables: &[i32],
    samples: &[i32],
    scratch_len: usize,
) -> Result<(), Refusal> {
    if !settings.plain_settings_are_legal() {
        return Err(Refusal::IllegalSetting);
    }
    if settings.passes_house_limit() {
        return Err(Refusal::HouseLimit);
    }
    if samples.len() as u64 != settings.sample_count() {
        return Err(Refusal::WrongCount);
    }
    if settings.areas_are_short(scratch_len, tables.len()) {
        return Err(Refusal::ShortScratchOrTables);
    }
    if !settings.used_table_values_are_legal(tables) {
        return Err(Refusal::IllegalSetting);
    }
    let range = settings.sample_range();
    match samples.iter().position(|&sample| !range.contains(sample)) {
        Some(index) => Err(Refusal::SampleOutOfRange {
            index: index as u64,
        }),
        None => Ok(()),
    }
}

/// Visits every place in coding order (5.4.2), until a visit fails.
pub fn visit_places<E>(
    settings: &Settings,
    mut visit: impl FnMut(Place) -> Result<(), E>,
) -> Result<(), E> {
    let shape = settings.shape();
    if settings.band_sequential == 1 {
        for z in 0..shape.bands {
            for y in 0..shape.rows {
                for x in 0..shape.columns {
                    visit(Place { z, y, x })?;
                }
            }
        }
        return Ok(());
    }
    let depth = settings.interleaving_depth as usize;
    for y in 0..shape.rows {
        for group in (0..shape.bands).step_by(depth) {
            for x in 0..shape.columns {
                for z in group..shape.bands.min(group + depth) {
                    visit(Place { z, y, x })?;
                }
            }
        }
    }
    Ok(())
}

/// Writes the file of a call that was checked.
pub fn write_file(settings: &Settings, tables: &[i32], samples: &[i32], sink: &mut impl BitSink) {
    write_header(settings, tables, sink);
    let mut coder = Coder::new(settings, tables);
    visit_mapped(settings, tables, samples, |place, value| {
        coder.write(place.z, place.y == 0 && place.x == 0, value, sink);
    });
    sink.fill_to(8 * settings.output_word_size as u64);
}

/// Visits the mapped values of a legal image in coding order.
pub fn visit_mapped(
    settings: &Settings,
    tables: &[i32],
    samples: &[i32],
    mut visit: impl FnMut(Place, u32),
) {
    let shape = settings.shape();
    let range = settings.sample_range();
    let mut predictor = Predictor::new(settings, tables);
    let walked: Result<(), std::convert::Infallible> = visit_places(settings, |place| {
        let index = place.z * shape.band_len() + place.y * shape.columns + place.x;
        let sample = samples[index];
        let scaled_predicted = predictor.scaled_predicted(samples, place);
        visit(place, mapped(range, scaled_predicted, sample));
        predictor.learn(place, scaled_predicted, sample);
        Ok(())
    });
    match walked {
        Ok(()) => {}
        Err(never) => match never {},
    }
}

/// `open`, but for the zeros that some refusals leave behind.
fn open_or_leave(
    file: &[u8],
    scratch_len: usize,
    tables: &mut [i32],
    image: &mut [i32],
) -> Result<Settings, Refusal> {
    let header = read_header(file)?;
    let settings = header.settings;
    let image = image
        .get_mut(..settings.shape().sample_count())
        .ok_or(Refusal::WrongCount)?;
    if settings.areas_are_short(scratch_len, tables.len()) {
        return Err(Refusal::ShortScratchOrTables);
    }
    let mut reader = BitReader::new(&file[header.length..]);
    read_body(&header, &mut reader, image)?;
    check_end(file, &settings, &reader)?;
    tables[..TABLE_STRIDE * settings.shape().bands].copy_from_slice(&header.tables);
    Ok(settings)
}

/// Reads the samples into `image`, in coding order.
fn read_body(header: &Header, reader: &mut BitReader, image: &mut [i32]) -> Result<(), Refusal> {
    let settings = &header.settings;
    let shape = settings.shape();
    let range = settings.sample_range();
    let mut predictor = Predictor::new(settings, &header.tables);
    let mut coder = Coder::new(settings, &header.tables);
    let mut rank = 0;
    visit_places(settings, |place| {
        let is_first = place.y == 0 && place.x == 0;
        let value = match coder.read(place.z, is_first, reader) {
            Ok(value) => value,
            Err(CodewordFault::Ends) => return Err(Refusal::BodyEnds { rank }),
            Err(CodewordFault::Foreign) => return Err(Refusal::ForeignCodeword { rank }),
        };
        let scaled_predicted = predictor.scaled_predicted(image, place);
        let sample = unmapped(range, scaled_predicted, value);
        image[place.z * shape.band_len() + place.y * shape.columns + place.x] = sample;
        predictor.learn(place, scaled_predicted, sample);
        rank += 1;
        Ok(())
    })
}

/// The end of the file behind the last codeword: its length, then its fill.
fn check_end(file: &[u8], settings: &Settings, reader: &BitReader) -> Result<(), Refusal> {
    let count = settings.sample_count();
    let file_bytes = file.len() as u64;
    let used_bits = 8 * file_bytes - reader.remaining();
    let right_bytes = used_bits
        .div_ceil(8)
        .next_multiple_of(settings.output_word_size as u64);
    if file_bytes < right_bytes {
        return Err(Refusal::BodyEnds { rank: count });
    }
    if file_bytes > right_bytes || !reader.rest_is_zero() {
        return Err(Refusal::AfterTheEnd { count });
    }
    Ok(())
}
