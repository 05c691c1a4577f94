//! The library over the archive: worked numbers, names, places and words.

use remulingka::{
    boundary, length, look, open, pack, InitialK, Order, Refusal, Settings, Tables, Weights,
    MOST_BANDS, SETTING_SLOTS,
};

/// Document 01's first worked file: one sample, 130.
const ONE_SAMPLE: [u8; 20] = [
    0x00, 0x00, 0x01, 0x00, 0x01, 0x00, 0x01, 0x11, 0x00, 0x00, 0x08, 0x00, 0x02, 0xA0, 0x00, 0x59,
    0x00, 0x40, 0x20, 0x04,
];

fn one_sample_settings() -> Settings {
    Settings::for_image(1, 1, 1, false, 8)
        .prediction_bands(0)
        .register_size(32)
        .weight_resolution(4)
        .change_interval(16)
        .unary_limit(8)
        .rescaling_counter_size(4)
        .initial_k(InitialK::Constant(0))
}

#[test]
fn the_worked_files() {
    let settings = one_sample_settings();
    // The body is the mapped value of 130 beside the middle 128: 4, as 8 bits.
    assert_eq!(pack(&settings, None, &[130]).unwrap(), ONE_SAMPLE);
    let mut two = settings;
    two.columns = 2;
    two = two.reduced_mode(true).column_sums(true);
    let mut expected = ONE_SAMPLE.to_vec();
    expected[2] = 2;
    expected.push(0x40);
    assert_eq!(pack(&two, None, &[130, 131]).unwrap(), expected);
    assert_eq!(length(&two, None, &[130, 131]), Ok(21));
    let file = pack(&two.word_size(2), None, &[130, 131]).unwrap();
    assert_eq!((file.len(), file[10]), (22, 0x10));
}

#[test]
fn opening_gives_back_settings_tables_and_samples() {
    let mut tables = Tables::new(3);
    for band in 0..3 {
        tables.set_k(band, 2 + band as i32);
        for (component, weight) in tables.weights_mut(band).iter_mut().enumerate() {
            // Slots that are not used stay zero, as the reader returns them.
            if component < 3 + band {
                *weight = component as i32 - 4;
            }
        }
    }
    let samples: Vec<i32> = (0..3 * 5 * 4).map(|index| index * 37 % 200 - 100).collect();
    let settings = Settings::for_image(5, 4, 3, true, 10)
        .user_data(255)
        .order(Order::Interleaved { depth: 2 })
        .weights(Weights::Table { resolution: 4 })
        .initial_k(InitialK::Table);
    let file = pack(&settings, Some(&tables), &samples).unwrap();
    let cube = open(&file).unwrap();
    assert_eq!(cube.settings, settings);
    assert_eq!(cube.tables, tables);
    assert_eq!(cube.samples, samples);
    assert_eq!(look(&file), Ok(settings));
    let counted = length(&settings, Some(&tables), &samples);
    assert_eq!(counted, Ok(file.len() as u64));
}

#[test]
fn every_refusal_of_owned_calls() {
    let settings = one_sample_settings();
    let refused = |settings: Settings, samples: &[i32]| pack(&settings, None, samples).unwrap_err();
    assert_eq!(
        refused(settings.word_size(9), &[130]),
        Refusal::IllegalSetting
    );
    assert_eq!(
        refused(settings, &[256]),
        Refusal::SampleOutOfRange { index: 0 }
    );
    assert_eq!(refused(settings, &[1, 2]), Refusal::WrongCount);
    let mut many = settings;
    many.bands = MOST_BANDS as i32 + 1;
    assert_eq!(refused(many, &[]), Refusal::HouseLimit);
    let tables = Tables::new(0);
    assert_eq!(
        pack(&settings, Some(&tables), &[130]),
        Err(Refusal::ShortArea)
    );
    let changed = |index: usize, bits: u8| {
        let mut file = ONE_SAMPLE;
        file[index] ^= bits;
        open(&file).unwrap_err()
    };
    assert_eq!(open(&ONE_SAMPLE[..18]).unwrap_err(), Refusal::EndsInHeader);
    assert_eq!(changed(7, 0x20), Refusal::IllegalField);
    assert_eq!(
        open(&ONE_SAMPLE[..19]).unwrap_err(),
        Refusal::BodyEnds { rank: 0 }
    );
    assert_eq!(changed(10, 0x04), Refusal::BlockCoder);
    let longer = [&ONE_SAMPLE[..], &[0]].concat();
    assert_eq!(open(&longer).unwrap_err(), Refusal::AfterEnd { count: 1 });
    // Document 01: eight zeros and 00000111 is an escape that no writer chooses.
    let mut two = [&ONE_SAMPLE[..], &[0x00, 0x07]].concat();
    two[2] = 2;
    assert_eq!(open(&two).unwrap_err(), Refusal::BadCodeword { rank: 1 });
}

#[test]
fn short_outputs_and_empty_areas() {
    let slots = one_sample_settings().to_slots();
    let (mut scratch, tables) = ([7; 32], [0; 19]);
    let mut out = [0xA5; 19];
    let answer = boundary::pack(&slots, &tables, &[130], &mut scratch, &mut out);
    assert_eq!((answer.number(), answer.value()), (6, 20));
    assert_eq!(out, [0; 19]);
    // Slices of no length at all.
    assert_eq!(boundary::pack(&[], &[], &[], &mut [], &mut []).number(), 3);
    assert_eq!(boundary::length(&slots, &[], &[], &mut []).number(), 3);
    let mut settings = [5; SETTING_SLOTS + 1];
    let open_empty = boundary::open(&[], &mut [], &mut [], &mut [], &mut settings);
    assert_eq!(open_empty.number(), 7);
    assert_eq!(boundary::look(&[], &mut []).number(), 3);
    assert_eq!(settings, [5; SETTING_SLOTS + 1]);
    // A slot behind the 24 stays as it is.
    assert_eq!(boundary::look(&ONE_SAMPLE, &mut settings).0, 0);
    assert_eq!((settings[1], settings[SETTING_SLOTS]), (1, 5));
}

#[test]
fn numbers_and_words_of_refusals() {
    for number in 1..=19 {
        let answer = boundary::Answer(number << 56 | 77);
        let refusal = Refusal::of_answer(answer).unwrap_err();
        assert_eq!(u64::from(refusal.number()), number);
        let text = refusal.to_string();
        assert!(text.starts_with(&format!("refusal {number}: ")), "{text}");
        let has_value = [2, 6, 9, 10, 11, 17, 19].contains(&number);
        assert_eq!(text.contains("77"), has_value, "{text}");
        assert!(!refusal.advice().is_empty());
    }
    assert_eq!(Refusal::of_answer(boundary::Answer(77)), Ok(77));
}

/// Fields of the settings to be set to many values.
type Setter = fn(&mut Settings, i32);

const SETTERS: [Setter; 17] = [
    |settings, value| settings.user_data = value,
    |settings, value| settings.columns = value,
    |settings, value| settings.rows = value,
    |settings, value| settings.bands = value,
    |settings, value| settings.depth = value,
    |settings, value| settings.order = Order::Interleaved { depth: value },
    |settings, value| settings.word_size = value,
    |settings, value| settings.prediction_bands = value,
    |settings, value| settings.register_size = value,
    |settings, value| settings.weight_resolution = value,
    |settings, value| settings.change_interval = value,
    |settings, value| settings.exponent_initial = value,
    |settings, value| settings.exponent_final = value,
    |settings, value| settings.weights = Weights::Table { resolution: value },
    |settings, value| settings.unary_limit = value,
    |settings, value| settings.rescaling_counter_size = value,
    |settings, value| settings.initial_count_exponent = value,
];

#[test]
fn complaints_are_made_exactly_where_the_archive_refuses() {
    let mut values: Vec<i32> = (-8..=70).collect();
    values.extend([128, 255, 256, 512, 1024, 2047, 2048, 4096, 65_536, 65_537]);
    values.extend([i32::MIN, i32::MAX, 1 << 30]);
    let mut refused = 0;
    for columns in [1, 4] {
        for depth in [2, 9, 16] {
            let usual = Settings::for_image(columns, 3, 2, false, depth);
            for setter in SETTERS {
                for &value in &values {
                    let mut settings = usual;
                    setter(&mut settings, value);
                    // No samples: whatever is legal is refused 3 or 4 instead.
                    let answer = boundary::length(&settings.to_slots(), &[], &[], &mut []);
                    let is_illegal = answer.number() == 1;
                    let complaint = settings.complaint();
                    assert_eq!(
                        complaint.is_some(),
                        is_illegal,
                        "{settings:?} {complaint:?}"
                    );
                    refused += u32::from(is_illegal);
                }
            }
        }
    }
    assert!(refused > 1000);
    for k in -2..20 {
        let settings = Settings::for_image(4, 3, 2, false, 9).initial_k(InitialK::Constant(k));
        assert_eq!(settings.complaint().is_some(), !(0..=7).contains(&k));
    }
}

#[test]
fn table_complaints_name_the_value() {
    let settings = Settings::for_image(4, 3, 2, false, 9)
        .weights(Weights::Table { resolution: 3 })
        .initial_k(InitialK::Table);
    let mut tables = Tables::new(2);
    assert_eq!(settings.table_complaint(&tables), None);
    // Band 0 uses three components in full mode, band 1 four.
    tables.weights_mut(0)[3] = 4;
    assert_eq!(settings.table_complaint(&tables), None);
    tables.weights_mut(1)[3] = 4;
    let complaint = settings.table_complaint(&tables).unwrap();
    assert_eq!(complaint, "weight 3 of band 1 is 4 and must be -4 to 3");
    tables.set_k(0, 8);
    let complaint = settings.table_complaint(&tables).unwrap();
    assert_eq!(complaint, "k' of band 0 is 8 and must be 0 to 7");
    let refusal = pack(&settings, Some(&tables), &[0; 24]).unwrap_err();
    assert_eq!(refusal, Refusal::IllegalSetting);
    // Of illegal settings nothing is said here, whatever they are.
    for settings in [
        settings.weights(Weights::Table { resolution: 0 }),
        settings.weights(Weights::Table { resolution: 99 }),
        settings.prediction_bands(-1),
        settings.prediction_bands(i32::MAX),
    ] {
        assert_eq!(settings.table_complaint(&tables), None);
        assert!(settings.complaint().is_some());
    }
}

#[test]
fn places_follow_the_coding_order() {
    for depth in 1..=5 {
        let order = Order::Interleaved { depth };
        let settings = Settings::for_image(3, 2, 5, false, 8).order(order);
        let mut rank = 0;
        for row in 0..2 {
            for first in (0..5).step_by(depth as usize) {
                for column in 0..3 {
                    for band in first..5.min(first + depth as u64) {
                        let place = settings.place_of_rank(rank);
                        assert_eq!((place.band, place.row, place.column), (band, row, column));
                        rank += 1;
                    }
                }
            }
        }
    }
    let settings = Settings::for_image(3, 2, 5, false, 8);
    let place = settings.place_of_rank(3 * 2 * 4 + 3 + 2);
    assert_eq!((place.band, place.row, place.column), (4, 1, 2));
}
