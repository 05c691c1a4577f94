//! Whole images there and back, at every depth, both signs and both orders.

mod common;

use common::{opened_within, packed};
use plain::case::WriterInputs;
use plain::make::{random_inputs, random_settings, random_tables, Random};
use plain::settings::{Settings, SCRATCH_STRIDE, TABLE_STRIDE};

/// The table area as the reader gives it: unused slots zero, none behind.
fn used_tables(settings: &Settings, tables: &[i32]) -> Vec<i32> {
    let mut used = vec![0; TABLE_STRIDE * settings.shape().bands];
    for z in 0..settings.shape().bands {
        let first = TABLE_STRIDE * z;
        if settings.custom_weights == 1 {
            let end = first + settings.component_count(z);
            used[first..end].copy_from_slice(&tables[first..end]);
        }
        if settings.accumulator_table == 1 {
            used[first + 18] = tables[first + 18];
        }
    }
    used
}

/// Packs, opens, compares; returns the file.
fn there_and_back(inputs: &WriterInputs) -> Vec<u8> {
    let file = packed(inputs);
    let word = inputs.settings.output_word_size as usize;
    assert_eq!(file.len() % word, 0);
    let back = opened_within(&file, inputs.samples.len()).expect("a whole file");
    assert_eq!(back.settings, inputs.settings.normalized());
    assert_eq!(back.tables, used_tables(&inputs.settings, &inputs.tables));
    assert_eq!(back.samples, inputs.samples);
    assert_eq!(plain::look(&file), Ok(back.settings));
    file
}

/// Images at the ends of the range and at random.
fn images(random: &mut Random, settings: &Settings) -> Vec<Vec<i32>> {
    let range = settings.sample_range();
    let (low, high) = (range.minimum, range.maximum);
    let count = settings.shape().sample_count();
    vec![
        vec![low; count],
        vec![high; count],
        vec![range.middle; count],
        (0..count).map(|i| [low, high][i % 2]).collect(),
        (0..count).map(|i| [high, low][i / 3 % 2]).collect(),
        (0..count).map(|_| random.pick(&[low, high])).collect(),
        (0..count).map(|_| random.between(low, high)).collect(),
    ]
}

#[test]
fn every_depth_sign_and_order() {
    let mut random = Random::new(31);
    for dynamic_range in 2..=16 {
        for signed in [0, 1] {
            for order in [0, 1] {
                for _ in 0..6 {
                    let mut settings = random_settings(&mut random);
                    if settings.dynamic_range > dynamic_range {
                        settings.accumulator_constant = 0;
                    }
                    settings.dynamic_range = dynamic_range;
                    settings.signed_samples = signed;
                    settings.band_sequential = order;
                    settings.interleaving_depth = random.edged(1, settings.z_size);
                    settings.register_size = random.edged(37, 64);
                    let tables = random_tables(&mut random, &settings);
                    for samples in images(&mut random, &settings) {
                        there_and_back(&WriterInputs {
                            settings,
                            scratch: SCRATCH_STRIDE * settings.shape().bands,
                            tables: tables.clone(),
                            samples,
                        });
                    }
                }
            }
        }
    }
}

#[test]
fn both_orders_have_the_same_length() {
    // The statistics are a band's own, so the order moves bits but adds none.
    let mut random = Random::new(32);
    for _ in 0..200 {
        let mut inputs = random_inputs(&mut random);
        inputs.settings.band_sequential = 1;
        let sequential = there_and_back(&inputs).len();
        inputs.settings.band_sequential = 0;
        for depth in [1, (inputs.settings.z_size + 1) / 2, inputs.settings.z_size] {
            inputs.settings.interleaving_depth = depth;
            assert_eq!(there_and_back(&inputs).len(), sequential);
        }
    }
}

#[test]
fn long_wide_and_deep_images_pass() {
    let mut random = Random::new(33);
    for (x_size, y_size, z_size) in [(65_536, 16, 1), (16, 65_536, 1), (16, 16, 4_096)] {
        let mut settings = common::worked_settings(x_size);
        settings.y_size = y_size;
        settings.z_size = z_size;
        settings.prediction_bands = 2;
        let samples = (0..1_048_576).map(|_| random.between(100, 110)).collect();
        let file = there_and_back(&WriterInputs {
            settings,
            scratch: SCRATCH_STRIDE * z_size as usize,
            tables: vec![0; TABLE_STRIDE * z_size as usize],
            samples,
        });
        // A size of 65,536 stands as zero.
        let fields: Vec<u16> = (0..3)
            .map(|i| u16::from_be_bytes([file[1 + 2 * i], file[2 + 2 * i]]))
            .collect();
        assert_eq!(fields, [x_size as u16, y_size as u16, z_size as u16]);
    }
}

#[test]
fn what_is_no_setting_is_ignored() {
    let mut random = Random::new(34);
    for _ in 0..300 {
        let mut inputs = random_inputs(&mut random);
        let file = there_and_back(&inputs);
        let settings = &mut inputs.settings;
        if settings.band_sequential == 1 {
            settings.interleaving_depth = random.slot();
        }
        if settings.custom_weights == 0 {
            settings.initialization_resolution = random.slot();
        }
        if settings.accumulator_table == 1 {
            settings.accumulator_constant = random.slot();
        }
        inputs.tables = used_tables(&inputs.settings, &inputs.tables);
        assert_eq!(packed(&inputs), file);
    }
}

#[test]
fn more_scratch_and_earlier_calls_change_nothing() {
    // Scratch is lent by its length alone, so its contents cannot matter; a longer
    // one and calls in between must not either.
    let mut random = Random::new(35);
    let list: Vec<WriterInputs> = (0..60).map(|_| random_inputs(&mut random)).collect();
    let files: Vec<Vec<u8>> = list.iter().map(packed).collect();
    for (inputs, file) in list.into_iter().zip(files).rev() {
        for scratch in [inputs.scratch, inputs.scratch + 1, usize::MAX] {
            let again = WriterInputs {
                scratch,
                ..inputs.clone()
            };
            assert_eq!(packed(&again), file);
        }
    }
}
