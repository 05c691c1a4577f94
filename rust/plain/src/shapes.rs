//! Calls for feeds. Headers of every shape, to be looked at: with and without each
//! table, with tables that are empty, and with sizes at the ends of their fields. And
//! calls of every shape: lists of settings and areas that are too short, just long
//! enough and longer, and slots that hold what no setting does.

use crate::bits::BitWriter;
use crate::boundary::{Call, Writer};
use crate::header::write_header;
use crate::make::{random_settings, random_tables, Random};
use crate::settings::{Settings, SCRATCH_STRIDE, SETTING_SLOTS, TABLE_STRIDE};

/// P and the reduced-mode flag. With P = 0 in reduced mode a weight table is empty.
const MODES: [(i32, i32); 5] = [(0, 1), (0, 0), (1, 1), (3, 0), (15, 1)];
/// Nz: no earlier band, one, and an odd number, which leaves fill behind k'.
const BANDS: [i32; 3] = [1, 2, 5];
/// Sizes whose fields hold 0, that stand at a house limit or beyond it, or that
/// allow only reduced mode and column sums.
const ODD_SIZES: [[i32; 3]; 10] = [
    [65_536, 1, 1],
    [65_536, 4_096, 1],
    [65_536, 4_097, 1],
    [1, 65_536, 1],
    [1, 65_536, 4_096],
    [2, 65_536, 2_049],
    [1, 1, 65_536],
    [1, 3, 2],
    [2, 2, 4_096],
    [2, 2, 4_097],
];

/// The headers, the same for the same seed.
pub fn header_shapes(seed: u64) -> Vec<Vec<u8>> {
    let mut random = Random::new(seed);
    let mut headers = Vec::new();
    for bands in BANDS {
        for mode in MODES {
            for tables in 0..4 {
                let sizes = [random.between(2, 300), random.between(1, 300), bands];
                headers.push(header(&mut random, sizes, mode, tables));
            }
        }
    }
    for sizes in ODD_SIZES {
        for tables in 0..4 {
            headers.push(header(&mut random, sizes, (0, 1), tables));
        }
    }
    headers
}

/// A header with these sizes, P and mode; bit 0 of `tables` asks for a weight table,
/// bit 1 for one of k'. What is left is drawn.
fn header(random: &mut Random, sizes: [i32; 3], mode: (i32, i32), tables: i32) -> Vec<u8> {
    let drawn = random_settings(random);
    let [x_size, y_size, z_size] = sizes;
    let (prediction_bands, reduced_mode) = mode;
    let settings = Settings {
        x_size,
        y_size,
        z_size,
        interleaving_depth: random.edged(1, z_size),
        prediction_bands,
        reduced_mode,
        column_sums: if x_size == 1 { 1 } else { drawn.column_sums },
        custom_weights: tables & 1,
        initialization_resolution: random.edged(3, drawn.weight_resolution + 3),
        accumulator_table: tables >> 1,
        accumulator_constant: random.edged(0, drawn.dynamic_range - 2),
        ..drawn
    };
    let tables = random_tables(random, &settings);
    let mut writer = BitWriter::default();
    write_header(&settings, &tables, &mut writer);
    writer.into_bytes()
}

/// The slots of the paper's worked file of one sample, which is 130.
const WORKED: [i32; SETTING_SLOTS] = [
    0, 1, 1, 1, 0, 8, 1, 0, 1, 0, 1, 1, 32, 4, 16, -1, 3, 0, 0, 8, 4, 1, 0, 0,
];
/// That file.
const WORKED_FILE: [u8; 20] = [
    0, 0, 1, 0, 1, 0, 1, 0x11, 0, 0, 8, 0, 2, 0xA0, 0, 0x59, 0, 0x40, 0x20, 4,
];
/// What a flag, a byte, a count or a small number never holds, though a slot may.
const ODD_SLOTS: [i32; 6] = [-1, 2, 256, 65_537, i32::MIN, i32::MAX];

/// How much of each area is lent.
#[derive(Clone, Copy)]
struct Lengths {
    settings: usize,
    tables: usize,
    image: usize,
    scratch: usize,
    out: usize,
}

/// Just enough for the worked file.
const ENOUGH: Lengths = Lengths {
    settings: SETTING_SLOTS,
    tables: TABLE_STRIDE,
    image: 1,
    scratch: SCRATCH_STRIDE,
    out: WORKED_FILE.len(),
};

/// The four calls at the boundary with settings and areas of every shape: lists and
/// areas too short by one or more, just long enough and longer, and odd slots.
pub fn boundary_shapes() -> Vec<Call> {
    let settings = (0..=SETTING_SLOTS + 2).map(|settings| Lengths { settings, ..ENOUGH });
    let tables = [TABLE_STRIDE - 1, TABLE_STRIDE + 1].map(|tables| Lengths { tables, ..ENOUGH });
    let image = [0, 2].map(|image| Lengths { image, ..ENOUGH });
    let scratch = [SCRATCH_STRIDE - 1, SCRATCH_STRIDE + 1];
    let scratch = scratch.map(|scratch| Lengths { scratch, ..ENOUGH });
    let out = [0, 19, 21].map(|out| Lengths { out, ..ENOUGH });
    let lengths = settings
        .chain(tables)
        .chain(image)
        .chain(scratch)
        .chain(out);
    let mut calls: Vec<Call> = lengths.flat_map(calls_of_lengths).collect();
    for slot in 0..SETTING_SLOTS {
        for value in ODD_SLOTS {
            let mut slots = WORKED;
            slots[slot] = value;
            calls.extend(writing(&slots, ENOUGH));
        }
    }
    calls
}

/// The calls on the worked file, lent as much as that.
fn calls_of_lengths(lengths: Lengths) -> Vec<Call> {
    let file = WORKED_FILE.to_vec();
    let open = Call::Open {
        file: file.clone(),
        scratch: lengths.scratch,
        tables: lengths.tables,
        image: lengths.image,
        settings: lengths.settings,
    };
    let settings = lengths.settings;
    let mut calls = writing(&WORKED, lengths).to_vec();
    calls.extend([open, Call::Look { file, settings }]);
    calls
}

/// A pack and a length of the worked sample with these slots.
fn writing(slots: &[i32; SETTING_SLOTS], lengths: Lengths) -> [Call; 2] {
    let mut settings = slots.to_vec();
    settings.resize(lengths.settings, 7);
    let writer = Writer {
        settings,
        tables: vec![0; lengths.tables],
        samples: vec![130; lengths.image],
        scratch: lengths.scratch,
    };
    let length = Call::Length {
        writer: writer.clone(),
    };
    let out = lengths.out;
    [Call::Pack { writer, out }, length]
}
