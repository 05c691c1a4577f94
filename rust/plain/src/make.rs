//! Random cases: legal and illegal calls, damaged and forged files, short areas.
//!
//! Ends of ranges are drawn far more often than chance would, because that is
//! where two programs differ.

use crate::bits::{BitCounter, BitSink, BitWriter};
use crate::case::{Call, Case, WriterInputs};
use crate::coder::{Code, Coder};
use crate::cube::{visit_mapped, write_file};
use crate::header::write_header;
use crate::settings::{Settings, K_SLOT, MOST_BANDS, SCRATCH_STRIDE, TABLE_STRIDE};

/// A small generator (splitmix64): the same seed gives the same cases everywhere.
pub struct Random {
    state: u64,
}

impl Random {
    pub fn new(seed: u64) -> Random {
        Random { state: seed }
    }

    /// 64 random bits.
    pub fn bits(&mut self) -> u64 {
        self.state = self.state.wrapping_add(0x9E37_79B9_7F4A_7C15);
        let mut bits = self.state;
        bits = (bits ^ bits >> 30).wrapping_mul(0xBF58_476D_1CE4_E5B9);
        bits = (bits ^ bits >> 27).wrapping_mul(0x94D0_49BB_1331_11EB);
        bits ^ bits >> 31
    }

    /// A number below `end` (0 if `end` is).
    pub fn below(&mut self, end: usize) -> usize {
        (self.bits() % end.max(1) as u64) as usize
    }

    /// A number from `low` to `high`.
    pub fn between(&mut self, low: i32, high: i32) -> i32 {
        let count = (i64::from(high) - i64::from(low) + 1).max(1) as u64;
        (i64::from(low) + (self.bits() % count) as i64) as i32
    }

    /// A number from `low` to `high`, each end in one of four draws.
    pub fn edged(&mut self, low: i32, high: i32) -> i32 {
        match self.below(4) {
            0 => low,
            1 => high,
            _ => self.between(low, high),
        }
    }

    /// True in one of `count` draws.
    pub fn one_in(&mut self, count: usize) -> bool {
        self.below(count) == 0
    }

    /// Any slot value.
    pub fn slot(&mut self) -> i32 {
        self.bits() as i32
    }

    /// One of a list that is not empty.
    pub fn pick<T: Copy>(&mut self, list: &[T]) -> T {
        list[self.below(list.len())]
    }
}

/// One random case.
pub fn random_case(random: &mut Random) -> Case {
    let (note, call) = match random.below(12) {
        0..=3 => ("legal", writer_call(random, 0)),
        4..=5 => {
            let faults = 1 + random.below(3);
            ("writer's refusals", writer_call(random, faults))
        }
        6 => ("whole file", whole_file_call(random)),
        7..=9 => ("damaged file", damaged_file_call(random)),
        10 => ("forged codeword", forged_file_call(random)),
        _ => ("forged header", forged_header_call(random)),
    };
    Case {
        note: note.to_string(),
        call,
    }
}

/// Many bands, and now and then as many as the house takes.
pub fn random_bands(random: &mut Random) -> i32 {
    if random.one_in(8) {
        random.pick(&[1_023, 1_024, 1_025, MOST_BANDS - 1, MOST_BANDS])
    } else {
        random.edged(1, 512)
    }
}

/// Sizes about the limits of the house. No sizes make 1 to 3 samples more than the
/// most: those numbers have prime factors beyond any size.
pub const LIMIT_SIZES: [[i32; 3]; 9] = [
    [16_384, 16_384, 1],
    [32_260, 8_321, 1],
    [65_536, 4_096, 1],
    [65_536, 4_097, 1],
    [1, 65_536, 4_096],
    [2, 65_536, 2_049],
    [2, 2, 4_096],
    [2, 2, 4_097],
    [65_536, 65_536, 65_536],
];

/// Sizes of a small image; now and then a long, a wide or a deep one.
fn random_sizes(random: &mut Random) -> [i32; 3] {
    match random.below(16) {
        0 => [random.between(1, 2), 1, random_bands(random)],
        1 => [random.between(100, 3000), 1, 1],
        2 => [1, random.between(100, 3000), 1],
        3 => [
            random.between(2, 40),
            random.between(2, 20),
            random.between(1, 8),
        ],
        _ => [
            random.edged(1, 9),
            random.edged(1, 7),
            random.pick(&[1, 1, 2, 3, 4, 5, 17, 20]),
        ],
    }
}

/// Legal settings. What is no setting gets any value: the writer ignores it.
pub fn random_settings(random: &mut Random) -> Settings {
    let [x_size, y_size, z_size] = random_sizes(random);
    let is_thin = x_size == 1;
    let dynamic_range = random.edged(2, 16);
    let band_sequential = random.between(0, 1);
    let weight_resolution = random.edged(4, 19);
    let exponent_initial = random.edged(-6, 9);
    let custom_weights = random.between(0, 1);
    let initial_count_exponent = random.edged(1, 8);
    let accumulator_table = random.between(0, 1);
    Settings {
        user_data: random.edged(0, 255),
        x_size,
        y_size,
        z_size,
        signed_samples: random.between(0, 1),
        dynamic_range,
        band_sequential,
        interleaving_depth: match band_sequential {
            0 => random.edged(1, z_size),
            _ => random.slot(),
        },
        output_word_size: random.edged(1, 8),
        prediction_bands: random.pick(&[0, 1, 2, 3, 4, 7, 14, 15]),
        reduced_mode: random.between(i32::from(is_thin), 1),
        column_sums: random.between(i32::from(is_thin), 1),
        register_size: random.edged(32.max(dynamic_range + weight_resolution + 2), 64),
        weight_resolution,
        change_interval: 1 << random.edged(4, 11),
        exponent_initial,
        exponent_final: random.edged(exponent_initial, 9),
        custom_weights,
        initialization_resolution: match custom_weights {
            0 => random.slot(),
            _ => random.edged(3, weight_resolution + 3),
        },
        unary_limit: random.edged(8, 32),
        rescaling_counter_size: random.edged(4.max(initial_count_exponent + 1), 9),
        initial_count_exponent,
        accumulator_table,
        accumulator_constant: match accumulator_table {
            0 => random.edged(0, dynamic_range - 2),
            _ => random.slot(),
        },
    }
}

/// A table area with legal values where the settings use them and any elsewhere.
pub fn random_tables(random: &mut Random, settings: &Settings) -> Vec<i32> {
    let bands = settings.shape().bands;
    let behind = random.pick(&[0, 0, 1, 7]);
    let mut tables: Vec<i32> = (0..TABLE_STRIDE * bands + behind)
        .map(|_| random.slot())
        .collect();
    for (z, slots) in tables
        .chunks_exact_mut(TABLE_STRIDE)
        .take(bands)
        .enumerate()
    {
        if settings.custom_weights == 1 {
            let half = 1 << (settings.initialization_resolution - 1);
            for slot in &mut slots[..settings.component_count(z)] {
                *slot = random.edged(-half, half - 1);
            }
        }
        if settings.accumulator_table == 1 {
            slots[K_SLOT] = random.edged(0, settings.dynamic_range - 2);
        }
    }
    tables
}

/// A legal image of one of several kinds.
pub fn random_samples(random: &mut Random, settings: &Settings) -> Vec<i32> {
    let range = settings.sample_range();
    let kind = random.below(6);
    let period = 1 + random.below(9);
    let noise = random.pick(&[0, 1, 3, 20, 300]);
    let alternating = [range.minimum, range.maximum];
    let level = random.edged(range.minimum, range.maximum);
    let mut walk = random.between(range.minimum, range.maximum);
    (0..settings.shape().sample_count())
        .map(|index| match kind {
            0 => level,
            1 => alternating[index / period % 2],
            2 => random.edged(range.minimum, range.maximum),
            3 => random.between(range.minimum, range.maximum),
            _ => {
                let step = random.between(-noise, noise);
                walk = (walk + step).clamp(range.minimum, range.maximum);
                walk
            }
        })
        .collect()
}

/// Legal inputs of the writer.
pub fn random_inputs(random: &mut Random) -> WriterInputs {
    let settings = random_settings(random);
    WriterInputs {
        settings,
        scratch: SCRATCH_STRIDE * settings.shape().bands + random.pick(&[0, 0, 1, 40]),
        tables: random_tables(random, &settings),
        samples: random_samples(random, &settings),
    }
}

/// The file of legal inputs.
pub fn file_of(inputs: &WriterInputs) -> Vec<u8> {
    let mut writer = BitWriter::default();
    write_file(
        &inputs.settings,
        &inputs.tables,
        &inputs.samples,
        &mut writer,
    );
    writer.into_bytes()
}

/// A call of the writer or of the length count with some faults in its inputs.
fn writer_call(random: &mut Random, faults: usize) -> Call {
    let mut inputs = random_inputs(random);
    let length = inputs.length().unwrap_or(0) as usize;
    let mut out = length + random.pick(&[0, 0, 1, 9, 100]);
    for _ in 0..faults {
        match random.below(8) {
            0 => out = random.pick(&[0, length / 2, length.saturating_sub(1)]),
            1 => inputs.scratch = inputs.scratch.saturating_sub(1 + random.below(41)),
            2 => {
                let kept = inputs
                    .tables
                    .len()
                    .saturating_sub(random.pick(&[1, 8, 20, 1000]));
                inputs.tables.truncate(kept);
            }
            3 => break_count(random, &mut inputs.samples),
            4 => break_one(random, &mut inputs.samples, &[-1, 1 << 15, 1 << 16]),
            5 => break_one(random, &mut inputs.tables, &[-1, 4, 15, 1 << 21]),
            6 => break_sizes(random, &mut inputs.settings),
            _ => break_setting(random, &mut inputs.settings),
        }
    }
    if random.one_in(4) {
        Call::Length { inputs }
    } else {
        Call::Pack { inputs, out }
    }
}

/// One sample more or fewer, or none at all.
fn break_count(random: &mut Random, samples: &mut Vec<i32>) {
    match random.below(3) {
        0 => samples.push(0),
        1 => samples.truncate(samples.len().saturating_sub(1)),
        _ => samples.clear(),
    }
}

/// One value, by any other or one of those that often lie just outside.
fn break_one(random: &mut Random, values: &mut [i32], near: &[i32]) {
    let index = random.below(values.len());
    let value = match random.below(4) {
        0 => random.slot(),
        1 => random.pick(&[i32::MIN, i32::MAX]),
        _ => random.pick(near),
    };
    if let Some(place) = values.get_mut(index) {
        *place = value;
    }
}

/// Sizes about the limits of the standard and of the house.
fn break_sizes(random: &mut Random, settings: &mut Settings) {
    let illegal = [
        [65_537, 1, 1],
        [i32::MAX, i32::MAX, i32::MAX],
        [0, 5, 5],
        [5, 0, 5],
        [5, 5, 0],
    ];
    let [x_size, y_size, z_size] = match random.one_in(3) {
        true => random.pick(&illegal),
        false => random.pick(&LIMIT_SIZES),
    };
    settings.x_size = x_size;
    settings.y_size = y_size;
    settings.z_size = z_size;
}

/// One setting by a value at some end, in or out of its range.
fn break_setting(random: &mut Random, settings: &mut Settings) {
    let mut slots = settings.to_slots();
    let index = random.below(slots.len());
    let near = [-1, 1];
    let ends = [
        -7, -1, 0, 1, 2, 3, 7, 9, 10, 16, 17, 20, 23, 31, 33, 65, 256, 4_096, 4_097, 65_537,
    ];
    slots[index] = match random.below(4) {
        0 => slots[index].wrapping_add(random.pick(&near)),
        1 => random.pick(&[i32::MIN, i32::MAX]),
        _ => random.pick(&ends),
    };
    if let Ok(broken) = Settings::from_slots(&slots) {
        *settings = broken;
    }
}

/// A call of the reader, with areas as long as the inputs need, or some shorter.
fn reader_call(random: &mut Random, inputs: &WriterInputs, file: Vec<u8>) -> Call {
    if random.one_in(6) {
        return Call::Look { file };
    }
    let shape = inputs.settings.shape();
    let mut lengths = [
        SCRATCH_STRIDE * shape.bands,
        TABLE_STRIDE * shape.bands,
        shape.sample_count(),
    ];
    for length in &mut lengths {
        *length += random.pick(&[0, 0, 0, 1, 30]);
    }
    if random.one_in(8) {
        let short = random.below(3);
        lengths[short] = lengths[short].saturating_sub(random.pick(&[1, 2, 20, 100_000]));
    }
    Call::Open {
        file,
        scratch: lengths[0],
        table_area: lengths[1],
        image_area: lengths[2],
    }
}

fn whole_file_call(random: &mut Random) -> Call {
    let inputs = random_inputs(random);
    let file = file_of(&inputs);
    reader_call(random, &inputs, file)
}

fn damaged_file_call(random: &mut Random) -> Call {
    let inputs = random_inputs(random);
    let mut file = file_of(&inputs);
    for _ in 0..1 + random.below(2) {
        damage(random, &mut file);
    }
    reader_call(random, &inputs, file)
}

/// Flips bits, cuts, lengthens or overwrites.
fn damage(random: &mut Random, file: &mut Vec<u8>) {
    let length = file.len();
    match random.below(7) {
        0 => file.truncate(random.below(length)),
        1 => file.truncate(length.saturating_sub(1 + random.below(3))),
        2 => {
            let byte = random.pick(&[0, 0, 1, 0xFF]);
            let longer = length + 1 + random.below(9);
            file.resize(longer, byte);
        }
        3 => flip_bit(random, file, 0, length),
        4 => flip_bit(random, file, length.saturating_sub(2), length),
        5 => flip_bit(random, file, 0, 22),
        _ => {
            let from = random.below(length);
            let to = (from + 1 + random.below(6)).min(length);
            let byte = random.pick(&[0, 0xFF, 0x55]);
            file.get_mut(from..to)
                .unwrap_or_default()
                .iter_mut()
                .for_each(|place| *place = byte);
        }
    }
}

/// Flips one bit of the bytes `from` to `to`.
fn flip_bit(random: &mut Random, file: &mut [u8], from: usize, to: usize) {
    let index = from + random.below(to - from);
    if let Some(byte) = file.get_mut(index) {
        *byte ^= 1 << random.below(8);
    }
}

/// The fields of the image part and the predictor part: first bit and width.
const EARLY_FIELDS: [(usize, usize); 28] = [
    (0, 8),
    (8, 16),
    (24, 16),
    (40, 16),
    (56, 1),
    (57, 2),
    (59, 4),
    (63, 1),
    (64, 16),
    (80, 2),
    (82, 3),
    (85, 1),
    (86, 10),
    (96, 2),
    (98, 4),
    (102, 1),
    (103, 1),
    (104, 1),
    (105, 1),
    (106, 6),
    (112, 4),
    (116, 4),
    (120, 4),
    (124, 4),
    (128, 1),
    (129, 1),
    (130, 1),
    (131, 5),
];
/// The fields of the coder part, the first table entry behind them too.
const CODER_FIELDS: [(usize, usize); 6] = [(0, 5), (5, 3), (8, 3), (11, 4), (15, 1), (16, 4)];

/// Overwrites one or two header fields.
fn forged_header_call(random: &mut Random) -> Call {
    let inputs = random_inputs(random);
    let mut file = file_of(&inputs);
    let coder_part = 8 * header_length_before_coder_part(&inputs);
    for _ in 0..random.pick(&[1, 1, 2]) {
        let (first, width) = if random.one_in(4) {
            let (first, width) = random.pick(&CODER_FIELDS);
            (coder_part + first, width)
        } else {
            random.pick(&EARLY_FIELDS)
        };
        forge_field(random, &mut file, first, width);
    }
    reader_call(random, &inputs, file)
}

/// Overwrites a field by its ends, its neighbour or any value.
fn forge_field(random: &mut Random, file: &mut [u8], first: usize, width: usize) {
    let (kind, value) = (random.below(4), random.bits());
    let mut carry = true;
    for index in (first..first + width).rev() {
        let Some(byte) = file.get_mut(index / 8) else {
            return;
        };
        let bit = 0x80 >> (index % 8);
        let is_set = *byte & bit != 0;
        let becomes_set = match kind {
            0 => false,
            1 => true,
            2 => is_set != carry,
            _ => value >> (first + width - 1 - index) & 1 == 1,
        };
        carry = carry && is_set;
        *byte = if becomes_set {
            *byte | bit
        } else {
            *byte & !bit
        };
    }
}

/// Where the coder part starts.
fn header_length_before_coder_part(inputs: &WriterInputs) -> usize {
    let mut counter = BitCounter::default();
    write_header(&inputs.settings, &inputs.tables, &mut counter);
    let table = match inputs.settings.accumulator_table {
        1 => inputs.settings.shape().bands.div_ceil(2),
        _ => 0,
    };
    counter.position() as usize / 8 - table - 2
}

/// A file in which one codeword is such as the writer would not choose.
fn forged_file_call(random: &mut Random) -> Call {
    let inputs = random_inputs(random);
    let WriterInputs {
        settings,
        tables,
        samples,
        ..
    } = &inputs;
    let mut writer = BitWriter::default();
    write_header(settings, tables, &mut writer);
    let mut coder = Coder::new(settings, tables);
    let forged_rank = random.below(samples.len());
    let mut is_forged = false;
    let mut rank = 0;
    visit_mapped(settings, tables, samples, |place, value| {
        let is_first = place.y == 0 && place.x == 0;
        // The first value of a band cannot be forged; the next one then is.
        if rank >= forged_rank && !is_first && !is_forged {
            is_forged = true;
            write_forged(random, coder.code(place.z), value, &mut writer);
            coder.write(place.z, is_first, value, &mut BitCounter::default());
        } else {
            coder.write(place.z, is_first, value, &mut writer);
        }
        rank += 1;
    });
    writer.fill_to(8 * settings.output_word_size as u64);
    let mut file = writer.into_bytes();
    // Cut short, to see which of two faults in one codeword comes first.
    if random.one_in(4) {
        let cut = random.below(file.len().min(12));
        file.truncate(file.len() - cut);
    }
    reader_call(random, &inputs, file)
}

/// An escape for a value that has none, or a short codeword over 2^D − 1.
fn write_forged(random: &mut Random, code: Code, value: u32, sink: &mut impl BitSink) {
    let least_too_large = 1 << (code.dynamic_range - code.k);
    if least_too_large < code.unary_limit && random.one_in(2) {
        let zeros = random.edged(least_too_large as i32, code.unary_limit as i32 - 1) as u32;
        let low_bits = random.bits() & ((1 << code.k) - 1);
        sink.put(1 << code.k | low_bits, zeros + 1 + code.k);
        return;
    }
    let greatest_without_escape = (u64::from(code.unary_limit) << code.k) - 1;
    let greatest = greatest_without_escape.min((1 << code.dynamic_range) - 1);
    let forged = random.pick(&[u64::from(value).min(greatest), 0, greatest]);
    sink.put(forged, code.unary_limit + code.dynamic_range);
}
