//! The header (5.3): image, predictor and coder part, written and read.

use crate::bits::{BitReader, BitSink};
use crate::refusal::Refusal;
use crate::settings::{Settings, K_SLOT, TABLE_STRIDE};

/// Bytes of the image part.
pub const IMAGE_BYTES: usize = 12;
/// Bytes of the predictor part before its table.
pub const PREDICTOR_BYTES: usize = 5;
/// Bytes of the coder part before its table.
pub const CODER_BYTES: usize = 2;
/// The K field of a header that has a table of k' instead.
const NO_CONSTANT: u64 = 15;

/// Writes the header of legal settings and tables.
pub fn write_header(settings: &Settings, tables: &[i32], sink: &mut impl BitSink) {
    // What is no setting is written as zero.
    let settings = settings.normalized();
    write_image_part(&settings, sink);
    write_predictor_part(&settings, sink);
    if settings.custom_weights == 1 {
        write_weight_table(&settings, tables, sink);
    }
    write_coder_part(&settings, sink);
    if settings.accumulator_table == 1 {
        write_accumulator_table(&settings, tables, sink);
    }
}

/// The low `width` bits of a setting: the encoding modulo 2^width of 5.3.
fn put_field(sink: &mut impl BitSink, value: i32, width: u32) {
    let modulus = 1_i64 << width;
    sink.put(i64::from(value).rem_euclid(modulus) as u64, width);
}

fn write_image_part(settings: &Settings, sink: &mut impl BitSink) {
    put_field(sink, settings.user_data, 8);
    put_field(sink, settings.x_size, 16);
    put_field(sink, settings.y_size, 16);
    put_field(sink, settings.z_size, 16);
    put_field(sink, settings.signed_samples, 1);
    put_field(sink, 0, 2);
    put_field(sink, settings.dynamic_range, 4);
    put_field(sink, settings.band_sequential, 1);
    put_field(sink, settings.interleaving_depth, 16);
    put_field(sink, 0, 2);
    put_field(sink, settings.output_word_size, 3);
    put_field(sink, 0, 1);
    put_field(sink, 0, 10);
}

fn write_predictor_part(settings: &Settings, sink: &mut impl BitSink) {
    put_field(sink, 0, 2);
    put_field(sink, settings.prediction_bands, 4);
    put_field(sink, settings.reduced_mode, 1);
    put_field(sink, 0, 1);
    put_field(sink, settings.column_sums, 1);
    put_field(sink, 0, 1);
    put_field(sink, settings.register_size, 6);
    put_field(sink, settings.weight_resolution - 4, 4);
    put_field(sink, settings.change_interval.ilog2() as i32 - 4, 4);
    put_field(sink, settings.exponent_initial + 6, 4);
    put_field(sink, settings.exponent_final + 6, 4);
    put_field(sink, 0, 1);
    put_field(sink, settings.custom_weights, 1);
    // Custom weights always come with their table.
    put_field(sink, settings.custom_weights, 1);
    put_field(sink, settings.initialization_resolution, 5);
}

fn write_weight_table(settings: &Settings, tables: &[i32], sink: &mut impl BitSink) {
    let width = settings.initialization_resolution as u32;
    for z in 0..settings.shape().bands {
        let first = TABLE_STRIDE * z;
        for &component in &tables[first..first + settings.component_count(z)] {
            put_field(sink, component, width);
        }
    }
    sink.fill_to(8);
}

fn write_coder_part(settings: &Settings, sink: &mut impl BitSink) {
    put_field(sink, settings.unary_limit, 5);
    put_field(sink, settings.rescaling_counter_size - 4, 3);
    put_field(sink, settings.initial_count_exponent, 3);
    if settings.accumulator_table == 1 {
        sink.put(NO_CONSTANT, 4);
    } else {
        put_field(sink, settings.accumulator_constant, 4);
    }
    put_field(sink, settings.accumulator_table, 1);
}

fn write_accumulator_table(settings: &Settings, tables: &[i32], sink: &mut impl BitSink) {
    for z in 0..settings.shape().bands {
        put_field(sink, tables[TABLE_STRIDE * z + K_SLOT], 4);
    }
    sink.fill_to(8);
}

/// A header that was read: its settings, its table values (19 slots a band, the
/// unused ones zero) and its length in bytes.
#[derive(Clone, Debug, PartialEq, Eq)]
pub struct Header {
    pub settings: Settings,
    pub tables: Vec<i32>,
    pub length: usize,
}

/// Reads the header, part by part; the first fault found is the refusal.
pub fn read_header(file: &[u8]) -> Result<Header, Refusal> {
    let mut rest = file;
    let mut settings = NOTHING_READ;
    read_image_part(take_part(&mut rest, IMAGE_BYTES)?, &mut settings)?;
    read_predictor_part(take_part(&mut rest, PREDICTOR_BYTES)?, &mut settings)?;
    // Only now, with the house limits kept, is the table's size known to be small.
    let mut tables = vec![0; TABLE_STRIDE * settings.shape().bands];
    if settings.custom_weights == 1 {
        let bytes = weight_table_bytes(&settings);
        read_weight_table(take_part(&mut rest, bytes)?, &settings, &mut tables)?;
    }
    read_coder_part(take_part(&mut rest, CODER_BYTES)?, &mut settings)?;
    if settings.accumulator_table == 1 {
        let bytes = settings.shape().bands.div_ceil(2);
        read_accumulator_table(take_part(&mut rest, bytes)?, &settings, &mut tables)?;
    }
    Ok(Header {
        settings,
        tables,
        length: file.len() - rest.len(),
    })
}

/// The settings before any part was read; each part sets its own.
const NOTHING_READ: Settings = Settings {
    user_data: 0,
    x_size: 0,
    y_size: 0,
    z_size: 0,
    signed_samples: 0,
    dynamic_range: 0,
    band_sequential: 0,
    interleaving_depth: 0,
    output_word_size: 0,
    prediction_bands: 0,
    reduced_mode: 0,
    column_sums: 0,
    register_size: 0,
    weight_resolution: 0,
    change_interval: 0,
    exponent_initial: 0,
    exponent_final: 0,
    custom_weights: 0,
    initialization_resolution: 0,
    unary_limit: 0,
    rescaling_counter_size: 0,
    initial_count_exponent: 0,
    accumulator_table: 0,
    accumulator_constant: 0,
};

/// A part of the header that is known to be there whole.
struct Part<'a>(BitReader<'a>);

/// Cuts the next `bytes` bytes off, or refuses 7.
fn take_part<'a>(rest: &mut &'a [u8], bytes: usize) -> Result<Part<'a>, Refusal> {
    let (part, behind) = rest.split_at_checked(bytes).ok_or(Refusal::HeaderEnds)?;
    *rest = behind;
    Ok(Part(BitReader::new(part)))
}

impl Part<'_> {
    /// The next field of `width` bits (at most 22).
    fn field(&mut self, width: u32) -> Result<i32, Refusal> {
        let field = self.0.take(width).ok_or(Refusal::HeaderEnds)?;
        Ok(field as i32)
    }

    /// A field that holds a value modulo 2^width, whose range ends at 2^width:
    /// zero means the end.
    fn modular_field(&mut self, width: u32) -> Result<i32, Refusal> {
        let field = self.field(width)?;
        Ok(if field == 0 { 1 << width } else { field })
    }

    /// A field that must be zero.
    fn zero_field(&mut self, width: u32) -> Result<(), Refusal> {
        refuse_if(self.field(width)? != 0, Refusal::IllegalField)
    }
}

fn refuse_if(condition: bool, refusal: Refusal) -> Result<(), Refusal> {
    if condition {
        Err(refusal)
    } else {
        Ok(())
    }
}

fn read_image_part(mut part: Part, settings: &mut Settings) -> Result<(), Refusal> {
    settings.user_data = part.field(8)?;
    settings.x_size = part.modular_field(16)?;
    settings.y_size = part.modular_field(16)?;
    settings.z_size = part.modular_field(16)?;
    settings.signed_samples = part.field(1)?;
    part.zero_field(2)?;
    settings.dynamic_range = part.modular_field(4)?;
    settings.band_sequential = part.field(1)?;
    if settings.band_sequential == 1 {
        part.zero_field(16)?;
    } else {
        // Zero means 65,536 here too, and is legal only beside as many bands.
        settings.interleaving_depth = part.modular_field(16)?;
    }
    part.zero_field(2)?;
    settings.output_word_size = part.modular_field(3)?;
    let coder_type = part.field(1)?;
    part.zero_field(10)?;
    refuse_if(!settings.image_part_is_legal(), Refusal::IllegalField)?;
    refuse_if(coder_type == 1, Refusal::OtherCoder)?;
    refuse_if(settings.passes_house_limit(), Refusal::HouseLimit)
}

fn read_predictor_part(mut part: Part, settings: &mut Settings) -> Result<(), Refusal> {
    part.zero_field(2)?;
    settings.prediction_bands = part.field(4)?;
    settings.reduced_mode = part.field(1)?;
    part.zero_field(1)?;
    settings.column_sums = part.field(1)?;
    part.zero_field(1)?;
    settings.register_size = part.modular_field(6)?;
    settings.weight_resolution = part.field(4)? + 4;
    settings.change_interval = 1 << (part.field(4)? + 4);
    settings.exponent_initial = part.field(4)? - 6;
    settings.exponent_final = part.field(4)? - 6;
    part.zero_field(1)?;
    settings.custom_weights = part.field(1)?;
    let table_flag = part.field(1)?;
    refuse_if(table_flag != settings.custom_weights, Refusal::IllegalField)?;
    if settings.custom_weights == 1 {
        settings.initialization_resolution = part.field(5)?;
    } else {
        part.zero_field(5)?;
    }
    refuse_if(!settings.predictor_part_is_legal(), Refusal::IllegalField)
}

/// The length of the weight table with its fill.
fn weight_table_bytes(settings: &Settings) -> usize {
    let bands = 0..settings.shape().bands;
    let components: usize = bands.map(|z| settings.component_count(z)).sum();
    (components * settings.initialization_resolution as usize).div_ceil(8)
}

fn read_weight_table(
    mut part: Part,
    settings: &Settings,
    tables: &mut [i32],
) -> Result<(), Refusal> {
    let width = settings.initialization_resolution as u32;
    for (z, slots) in tables.chunks_exact_mut(TABLE_STRIDE).enumerate() {
        for slot in &mut slots[..settings.component_count(z)] {
            let field = part.field(width)?;
            let is_negative = field >> (width - 1) == 1;
            *slot = if is_negative {
                field - (1 << width)
            } else {
                field
            };
        }
    }
    refuse_if(!part.0.rest_is_zero(), Refusal::IllegalField)
}

fn read_coder_part(mut part: Part, settings: &mut Settings) -> Result<(), Refusal> {
    settings.unary_limit = part.modular_field(5)?;
    settings.rescaling_counter_size = part.field(3)? + 4;
    settings.initial_count_exponent = part.modular_field(3)?;
    let constant = part.field(4)?;
    settings.accumulator_table = part.field(1)?;
    let is_missing = constant as u64 == NO_CONSTANT;
    refuse_if(
        is_missing != (settings.accumulator_table == 1),
        Refusal::IllegalField,
    )?;
    settings.accumulator_constant = if is_missing { 0 } else { constant };
    refuse_if(!settings.coder_part_is_legal(), Refusal::IllegalField)
}

fn read_accumulator_table(
    mut part: Part,
    settings: &Settings,
    tables: &mut [i32],
) -> Result<(), Refusal> {
    for slots in tables.chunks_exact_mut(TABLE_STRIDE) {
        slots[K_SLOT] = part.field(4)?;
        refuse_if(!settings.is_legal_k(slots[K_SLOT]), Refusal::IllegalField)?;
    }
    refuse_if(!part.0.rest_is_zero(), Refusal::IllegalField)
}
