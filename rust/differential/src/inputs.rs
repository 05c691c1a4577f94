//! Random calls. Ends of ranges come far more often than by chance.

use plain::boundary::{Call, Writer};
use plain::case::{self, WriterInputs};
use plain::make::{self, Random};
use plain::settings::{SCRATCH_STRIDE, SETTING_SLOTS, TABLE_STRIDE};
use plain::Settings;

use crate::images::random_image;

/// One call in this many has a large image, of 2^20 samples.
const LARGE_ONE_IN: usize = 20_000;

/// One random call.
pub fn random_call(random: &mut Random) -> Call {
    if random.one_in(LARGE_ONE_IN) {
        return large_call(random);
    }
    let mut call = match random.below(8) {
        0..=3 => from_case(make::random_case(random).call, random),
        4 | 5 => writer_call(random),
        _ => reader_call(random),
    };
    if random.one_in(12) {
        break_settings(random, &mut call);
    }
    call
}

/// A call of the plain program's own generator, with further settings slots.
pub fn from_case(call: case::Call, random: &mut Random) -> Call {
    let settings = settings_length(random);
    match call {
        case::Call::Pack { inputs, out } => Call::Pack {
            writer: writer_of(inputs, random),
            out,
        },
        case::Call::Length { inputs } => Call::Length {
            writer: writer_of(inputs, random),
        },
        case::Call::Open {
            file,
            scratch,
            table_area,
            image_area,
        } => Call::Open {
            file,
            scratch,
            tables: table_area,
            image: image_area,
            settings,
        },
        case::Call::Look { file } => Call::Look { file, settings },
    }
}

/// Usually 24 slots, sometimes more.
fn settings_length(random: &mut Random) -> usize {
    SETTING_SLOTS + random.pick(&[0, 0, 0, 1, 8])
}

fn writer_of(inputs: WriterInputs, random: &mut Random) -> Writer {
    let mut settings = inputs.settings.to_slots().to_vec();
    let length = settings_length(random);
    settings.resize_with(length, || random.slot());
    Writer {
        settings,
        tables: inputs.tables,
        samples: inputs.samples,
        scratch: inputs.scratch,
    }
}

/// Makes the settings list too short, or one of its slots such as no record holds.
fn break_settings(random: &mut Random, call: &mut Call) {
    let is_short = random.one_in(3);
    let length = random.pick(&[0, 1, 7, 12, 22, 23]);
    let slot = random.below(SETTING_SLOTS);
    let unheld = random.pick(&[
        -1,
        2,
        3,
        256,
        65_537,
        1 << 24,
        i32::MIN,
        i32::MIN + 1,
        i32::MAX,
    ]);
    match call {
        Call::Pack { writer, .. } | Call::Length { writer } => {
            if is_short {
                writer.settings.truncate(length);
            } else if let Some(place) = writer.settings.get_mut(slot) {
                *place = unheld;
            }
        }
        Call::Open { settings, .. } | Call::Look { settings, .. } => {
            if is_short {
                *settings = length;
            }
        }
    }
}

/// Legal settings with sizes of our own.
fn sized_settings(random: &mut Random, [x_size, y_size, z_size]: [i32; 3]) -> Settings {
    let mut settings = make::random_settings(random);
    settings.x_size = x_size;
    settings.y_size = y_size;
    settings.z_size = z_size;
    let is_thin = i32::from(x_size == 1);
    settings.reduced_mode = settings.reduced_mode.max(is_thin);
    settings.column_sums = settings.column_sums.max(is_thin);
    if settings.band_sequential == 0 {
        settings.interleaving_depth = random.edged(1, z_size);
    }
    // Every count of bands before, not only those about the ends.
    if random.one_in(2) {
        settings.prediction_bands = random.between(0, 15);
    }
    settings
}

/// Mostly small images, where every edge is near; some are long enough for the
/// weights and the coder's statistics to settle.
fn random_sizes(random: &mut Random) -> [i32; 3] {
    if random.one_in(40) {
        return [
            random.between(16, 64),
            random.between(16, 64),
            random.between(4, 20),
        ];
    }
    match random.below(12) {
        0 => [random.between(1, 5), 1, make::random_bands(random)],
        1 => [
            random.between(2, 3),
            random.between(2, 4),
            random.between(13, 40),
        ],
        2 => [
            random.between(20, 70),
            random.between(10, 40),
            random.between(1, 4),
        ],
        3 => [1, random.between(1, 90), random.between(1, 20)],
        4 => [random.between(1, 90), 1, random.between(1, 20)],
        _ => [
            random.between(1, 12),
            random.between(1, 12),
            random.between(1, 9),
        ],
    }
}

/// Legal inputs with an image of one of our kinds.
fn random_inputs(random: &mut Random) -> WriterInputs {
    let sizes = random_sizes(random);
    let settings = sized_settings(random, sizes);
    WriterInputs {
        settings,
        scratch: SCRATCH_STRIDE * settings.shape().bands + random.pick(&[0, 0, 3]),
        tables: make::random_tables(random, &settings),
        samples: random_image(random, &settings),
    }
}

/// A writing call whose output is now and then a little short or long.
fn writer_call(random: &mut Random) -> Call {
    let inputs = random_inputs(random);
    if random.one_in(4) {
        let writer = writer_of(inputs, random);
        return Call::Length { writer };
    }
    let length = inputs.length().unwrap_or(0) as usize;
    let out = match random.below(8) {
        0 => random.below(length),
        1 => length - random.pick(&[1, 2, 3, 8]).min(length),
        _ => length + random.pick(&[0, 0, 1, 3, 7, 64]),
    };
    Call::Pack {
        writer: writer_of(inputs, random),
        out,
    }
}

/// A reading call of a file that is whole or was changed in its body or its end.
fn reader_call(random: &mut Random) -> Call {
    let inputs = random_inputs(random);
    let shape = inputs.settings.shape();
    let mut file = make::file_of(&inputs);
    let length = file.len();
    match random.below(11) {
        0 | 1 => {}
        10 => set_sizes(random, &mut file),
        2 => scramble_body(random, &inputs, &mut file),
        3 => file.truncate(random.below(length)),
        4 => file.extend((0..1 + random.below(9)).map(|_| 0)),
        5 => set_fill_bit(random, &mut file),
        6 => flip_bits(random, &mut file[..12]),
        7 => flip_bits(random, &mut file[..19]),
        _ => flip_bits(random, &mut file),
    }
    let settings = settings_length(random);
    if random.one_in(8) {
        return Call::Look { file, settings };
    }
    let mut lengths = [
        SCRATCH_STRIDE * shape.bands,
        TABLE_STRIDE * shape.bands,
        shape.sample_count(),
    ];
    let changed = random.below(3);
    match random.below(10) {
        0 => lengths[changed] -= 1,
        1 => lengths[changed] = 0,
        2..=4 => lengths[changed] += 1 + random.below(50),
        _ => {}
    }
    Call::Open {
        file,
        scratch: lengths[0],
        tables: lengths[1],
        image: lengths[2],
        settings,
    }
}

/// Random bits, zeros or ones from somewhere in the body on.
fn scramble_body(random: &mut Random, inputs: &WriterInputs, file: &mut [u8]) {
    let mut counter = plain::bits::BitCounter::default();
    plain::header::write_header(&inputs.settings, &inputs.tables, &mut counter);
    let header = (plain::bits::BitSink::position(&counter) / 8) as usize;
    let kind = random.below(3);
    let from = header + random.below(file.len() - header);
    for byte in file.iter_mut().skip(from) {
        *byte = match kind {
            0 => random.bits() as u8,
            1 => 0,
            _ => 0xFF,
        };
    }
}

/// Sets one of the last bits, which are often fill.
fn set_fill_bit(random: &mut Random, file: &mut [u8]) {
    let back = 1 + random.below(file.len().min(4));
    let index = file.len() - back;
    file[index] |= 1 << random.below(8);
}

/// Sizes about the limits of the house, as the header has them: modulo 2^16.
fn set_sizes(random: &mut Random, file: &mut [u8]) {
    let sizes = random.pick(&make::LIMIT_SIZES);
    for (field, size) in file[1..7].chunks_exact_mut(2).zip(sizes) {
        field.copy_from_slice(&(size as u16).to_be_bytes());
    }
}

fn flip_bits(random: &mut Random, file: &mut [u8]) {
    for _ in 0..1 + random.below(4) {
        let index = random.below(file.len());
        file[index] ^= 1 << random.below(8);
    }
}

/// A call on an image of 2^20 samples. The most that the house takes, 2^28, are for the
/// test that is run by hand.
fn large_call(random: &mut Random) -> Call {
    let sizes = random.pick(&[
        [1024, 1024, 1],
        [64, 64, 256],
        [32, 32, 1024],
        [16, 16, 4096],
        [65_536, 16, 1],
        [16, 65_536, 1],
        [1, 65_536, 16],
    ]);
    let settings = sized_settings(random, sizes);
    let inputs = WriterInputs {
        settings,
        scratch: SCRATCH_STRIDE * settings.shape().bands,
        tables: make::random_tables(random, &settings),
        samples: random_image(random, &settings),
    };
    if random.one_in(2) {
        let shape = settings.shape();
        return Call::Open {
            file: make::file_of(&inputs),
            scratch: inputs.scratch,
            tables: TABLE_STRIDE * shape.bands,
            image: shape.sample_count(),
            settings: SETTING_SLOTS,
        };
    }
    let out = 6 * inputs.samples.len() + 64 * settings.shape().bands;
    Call::Pack {
        writer: writer_of(inputs, random),
        out,
    }
}
