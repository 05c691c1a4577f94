//! Images of many bands and samples, and those just over the house limits.

use std::time::Instant;

use remulingka::{
    boundary, length, look, open, pack, InitialK, Order, Refusal, Settings, Tables, Weights,
    MOST_BANDS, MOST_SAMPLES, SCRATCH_SLOTS, SETTING_SLOTS, TABLE_SLOTS,
};

/// Samples of 12 bits with a spectrum, a field and some noise.
fn samples(count: usize) -> Vec<i32> {
    let mut state = 1_u32;
    let noise = std::iter::repeat_with(|| {
        state = state.wrapping_mul(1_664_525).wrapping_add(1_013_904_223);
        (state >> 28) as i32
    });
    let places = (0..count).zip(noise);
    places
        .map(|(index, noise)| (index * 37 / 20 % 3_000) as i32 + noise)
        .collect()
}

fn there_and_back(settings: Settings, tables: Option<&Tables>, samples: &[i32]) {
    let file = pack(&settings, tables, samples).unwrap();
    assert_eq!(length(&settings, tables, samples), Ok(file.len() as u64));
    assert_eq!(look(&file), Ok(settings));
    let cube = open(&file).unwrap();
    assert_eq!(cube.settings, settings);
    if let Some(tables) = tables {
        assert!(cube.tables == *tables, "the tables came back otherwise");
    }
    assert!(cube.samples == samples, "the samples came back otherwise");
}

#[test]
fn a_thousand_and_24_bands() {
    let samples = samples(5 * 4 * 1_024);
    let settings = Settings::for_image(5, 4, 1_024, false, 12).prediction_bands(15);
    for order in [
        Order::BandSequential,
        Order::Interleaved { depth: 1 },
        Order::Interleaved { depth: 1_000 },
        Order::Interleaved { depth: 1_024 },
    ] {
        there_and_back(settings.order(order), None, &samples);
    }
}

#[test]
fn the_most_bands_with_both_tables() {
    let bands = MOST_BANDS as i32;
    let samples = samples(3 * 2 * MOST_BANDS);
    let mut tables = Tables::new(MOST_BANDS);
    for band in 0..MOST_BANDS {
        tables.set_k(band, (band % 11) as i32);
        // Three directional components and those of the bands before.
        let used = 3 + band.min(15);
        for (component, weight) in tables.weights_mut(band)[..used].iter_mut().enumerate() {
            *weight = (band * 31 + component * 7) as i32 % (1 << 18) - (1 << 17);
        }
    }
    let settings = Settings::for_image(3, 2, bands, false, 12)
        .prediction_bands(15)
        .weights(Weights::Table { resolution: 19 })
        .initial_k(InitialK::Table);
    for order in [
        Order::BandSequential,
        Order::Interleaved { depth: bands },
        Order::Interleaved { depth: 4_095 },
    ] {
        there_and_back(settings.order(order), Some(&tables), &samples);
    }
}

/// Whether every call refuses an image of these sizes 4, and leaves all areas as they were.
fn are_refused(columns: i32, rows: i32, bands: i32) -> bool {
    let mut settings = Settings::for_image(columns, rows, bands, false, 8);
    let slots = settings.to_slots();
    let lent = bands as usize;
    let mut scratch = vec![7; SCRATCH_SLOTS * lent];
    let mut tables = vec![7; TABLE_SLOTS * lent];
    let mut out = [0xA5; 99];
    let mut answers = vec![
        boundary::pack(&slots, &tables, &[7], &mut scratch, &mut out),
        boundary::length(&slots, &tables, &[7], &mut scratch),
    ];
    // The header of a small image, with these sizes.
    [settings.columns, settings.rows, settings.bands] = [columns.min(2), 1, 1];
    let mut file = pack(&settings, None, &vec![7; columns.min(2) as usize]).unwrap();
    for (field, size) in file[1..7].chunks_exact_mut(2).zip([columns, rows, bands]) {
        field.copy_from_slice(&(size as u16).to_be_bytes());
    }
    let (mut image, mut read) = ([7; 9], [7; SETTING_SLOTS]);
    answers.push(boundary::open(
        &file,
        &mut scratch,
        &mut tables,
        &mut image,
        &mut read,
    ));
    answers.push(boundary::look(&file, &mut read));
    let is_untouched = out == [0xA5; 99] && image == [7; 9] && read == [7; SETTING_SLOTS];
    let is_untouched = is_untouched && tables.iter().all(|&slot| slot == 7);
    let is_four = |answer: &boundary::Answer| (answer.number(), answer.value()) == (4, 0);
    is_untouched && answers.iter().all(is_four)
}

#[test]
fn every_call_refuses_what_is_over_a_limit() {
    // Sizes at the limits are refused for other reasons: too few samples.
    for [columns, rows, bands] in [
        [1, 1, 4_096],
        [16_384, 16_384, 1],
        [65_536, 4_096, 1],
        [1, 65_536, 4_096],
    ] {
        assert!(!are_refused(columns, rows, bands));
    }
    for [columns, rows, bands] in [
        [1, 1, 4_097],
        [2, 2, 65_536],
        // The least count over 2^28 that sizes make: 2^28 + 4.
        [32_260, 8_321, 1],
        [65_536, 4_097, 1],
        [2, 65_536, 2_049],
        [65_536, 65_536, 1],
        [65_536, 65_536, 65_536],
    ] {
        assert!(are_refused(columns, rows, bands));
    }
    let settings = Settings::for_image(1, 1, 4_097, false, 8);
    assert_eq!(pack(&settings, None, &[0; 4_097]), Err(Refusal::HouseLimit));
    // As many samples as the sizes ask for, so that nothing else is wrong.
    let tables = vec![0; TABLE_SLOTS * 4_097];
    let mut scratch = vec![0; SCRATCH_SLOTS * 4_097];
    let slots = settings.to_slots();
    let answer = boundary::length(&slots, &tables, &[0; 4_097], &mut scratch);
    assert_eq!(answer.number(), 4);
}

/// The most memory that this process had, in MiB, where the system says so.
fn most_memory() -> u64 {
    let status = std::fs::read_to_string("/proc/self/status").unwrap_or_default();
    let line = status.lines().find(|line| line.starts_with("VmHWM:"));
    let words = line.map(|line| line.split_whitespace().collect::<Vec<_>>());
    let kibibytes = words.and_then(|words| words.get(1)?.parse::<u64>().ok());
    kibibytes.unwrap_or(0) / 1_024
}

/// An image as large as there is, twice over: once as it is packed, once as it is opened.
/// Needs 2.2 GiB of memory and minutes, so it is run by hand:
/// `cargo test --release -p remulingka --test larger -- --ignored --nocapture`.
#[test]
#[ignore = "needs 2.2 GiB and minutes"]
fn the_most_samples() {
    for (columns, rows, bands) in [(512, 512, 1_024), (1, 65_536, 4_096)] {
        let mut image = vec![1_000; MOST_SAMPLES];
        // Not constant at its ends and here and there between them.
        for (index, sample) in [0, 1, MOST_SAMPLES - 2, MOST_SAMPLES - 1]
            .into_iter()
            .chain((1..4_096).map(|step| 65_521 * step))
            .zip((0..4_096).cycle())
        {
            image[index] = sample;
        }
        let settings = Settings::for_image(columns, rows, bands, false, 12);
        assert_eq!(settings.sample_count(), MOST_SAMPLES as u64);
        let started = Instant::now();
        let file = pack(&settings, None, &image).unwrap();
        let (packing, memory) = (started.elapsed().as_secs_f64(), most_memory());
        let started = Instant::now();
        let cube = open(&file).unwrap();
        let opening = started.elapsed().as_secs_f64();
        assert_eq!(cube.settings, settings);
        assert!(cube.samples == image, "the samples came back otherwise");
        println!(
            "{columns} × {rows} × {bands}: {} bytes; packed in {packing:.1} s, {memory} MiB; \
             opened in {opening:.1} s, {} MiB with both images",
            file.len(),
            most_memory()
        );
    }
}
