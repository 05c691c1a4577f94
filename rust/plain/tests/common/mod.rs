//! What the tests share: the worked settings and calls with lent areas.
#![allow(dead_code)]

use plain::case::WriterInputs;
use plain::settings::{MOST_BANDS, SCRATCH_STRIDE, TABLE_STRIDE};
use plain::{Refusal, Settings};

/// The settings of the paper's worked files, for `x_size` samples.
pub fn worked_settings(x_size: i32) -> Settings {
    Settings {
        user_data: 0,
        x_size,
        y_size: 1,
        z_size: 1,
        signed_samples: 0,
        dynamic_range: 8,
        band_sequential: 1,
        interleaving_depth: 0,
        output_word_size: 1,
        prediction_bands: 0,
        reduced_mode: 1,
        column_sums: 1,
        register_size: 32,
        weight_resolution: 4,
        change_interval: 16,
        exponent_initial: -1,
        exponent_final: 3,
        custom_weights: 0,
        initialization_resolution: 0,
        unary_limit: 8,
        rescaling_counter_size: 4,
        initial_count_exponent: 1,
        accumulator_table: 0,
        accumulator_constant: 0,
    }
}

/// Inputs with areas of exactly the right length and all table slots zero.
pub fn inputs(settings: Settings, samples: &[i32]) -> WriterInputs {
    let bands = settings.z_size.clamp(0, MOST_BANDS) as usize;
    WriterInputs {
        settings,
        scratch: SCRATCH_STRIDE * bands,
        tables: vec![0; TABLE_STRIDE * bands],
        samples: samples.to_vec(),
    }
}

/// The file of inputs that are legal.
pub fn packed(inputs: &WriterInputs) -> Vec<u8> {
    let length = inputs.length().expect("legal inputs") as usize;
    let mut out = vec![0xA5; length];
    assert_eq!(inputs.pack(&mut out), Ok(length as u64));
    out
}

/// What a file opens to, with areas as large as any file of the test needs.
#[derive(Debug, PartialEq)]
pub struct Opened {
    pub settings: Settings,
    pub tables: Vec<i32>,
    pub samples: Vec<i32>,
}

/// Opens with ample areas and gives the answer's own part of them.
pub fn opened(file: &[u8]) -> Result<Opened, Refusal> {
    opened_within(file, 70_000)
}

/// Opens with an image area of `most` slots.
pub fn opened_within(file: &[u8], most: usize) -> Result<Opened, Refusal> {
    let mut tables = vec![77; TABLE_STRIDE * MOST_BANDS as usize];
    let mut image = vec![77; most];
    let scratch = SCRATCH_STRIDE * MOST_BANDS as usize;
    let settings = plain::open(file, scratch, &mut tables, &mut image)?;
    let shape = settings.shape();
    tables.truncate(TABLE_STRIDE * shape.bands);
    image.truncate(shape.sample_count());
    Ok(Opened {
        settings,
        tables,
        samples: image,
    })
}

impl Opened {
    /// The file that these settings, tables and samples pack to.
    pub fn packed_again(&self) -> Vec<u8> {
        packed(&WriterInputs {
            settings: self.settings,
            scratch: SCRATCH_STRIDE * self.settings.shape().bands,
            tables: self.tables.clone(),
            samples: self.samples.clone(),
        })
    }
}
