//! Every refusal: its number, its value, its place in the order, and what each
//! lent area holds then.

mod common;

use common::{inputs, packed, worked_settings};
use plain::case::WriterInputs;
use plain::make::{random_inputs, Random};
use plain::settings::{SCRATCH_STRIDE, TABLE_STRIDE};
use plain::{Answer, Refusal, Settings};

const PATTERNS: [i32; 3] = [-123_456_789, 0x5A5A_5A5A, 1];

#[derive(Clone, Copy, Debug, PartialEq)]
enum Holds {
    Untouched,
    Zero,
}

/// Packs into areas of several patterns and checks what they hold after a refusal.
fn refused_pack(inputs: &WriterInputs, out: usize) -> (u8, u64, Holds) {
    let mut answers = Vec::new();
    for pattern in [0xA5, 0x01, 0xFF] {
        let mut area = vec![pattern; out];
        let refusal = inputs.pack(&mut area).expect_err("a refusal");
        let holds = if area.iter().all(|&byte| byte == pattern) {
            Holds::Untouched
        } else {
            assert!(area.iter().all(|&byte| byte == 0));
            Holds::Zero
        };
        answers.push((refusal.number(), refusal.value(), holds));
    }
    assert!(answers.iter().all(|answer| *answer == answers[0]));
    answers[0]
}

/// The same for the reader, with the two areas behind one another.
fn refused_open(file: &[u8], scratch: usize, tables: usize, image: usize) -> (u8, u64, Holds) {
    let mut answers = Vec::new();
    for pattern in PATTERNS {
        let mut table_area = vec![pattern; tables];
        let mut image_area = vec![pattern; image];
        let answer = plain::open(file, scratch, &mut table_area, &mut image_area);
        let refusal = answer.expect_err("a refusal");
        let areas = [table_area, image_area].concat();
        let holds = if areas.iter().all(|&slot| slot == pattern) {
            Holds::Untouched
        } else {
            assert!(areas.iter().all(|&slot| slot == 0));
            Holds::Zero
        };
        answers.push((refusal.number(), refusal.value(), holds));
    }
    assert!(answers.iter().all(|answer| *answer == answers[0]));
    answers[0]
}

/// A call that can be spoilt in every way the writer knows.
fn spoilable() -> WriterInputs {
    let mut settings = worked_settings(2);
    settings.z_size = 3;
    settings.custom_weights = 1;
    settings.initialization_resolution = 3;
    settings.prediction_bands = 2;
    settings.accumulator_table = 1;
    inputs(settings, &[130, 131, 132, 133, 134, 135])
}

type Spoil = fn(&mut WriterInputs);

/// The writer's refusals in its order, each with a way to bring it about alone.
const WRITERS_ORDER: [(u8, u64, Spoil); 10] = [
    (1, 0, |call| call.settings.unary_limit = 33),
    (4, 0, |call| {
        call.settings.z_size = 4_097;
        call.samples = vec![300; 2 * 4_097];
        call.scratch = 32 * 4_097;
        call.tables = vec![0; 19 * 4_097];
    }),
    // Beside it everything is too short as well.
    (4, 0, |call| call.settings.z_size = 4_097),
    (3, 0, |call| call.samples.resize(9, 130)),
    (3, 0, |call| call.samples.truncate(5)),
    (5, 0, |call| call.scratch = 95),
    (5, 0, |call| call.tables.truncate(56)),
    (1, 0, |call| call.tables[2 * 19 + 1] = 4),
    (1, 0, |call| call.tables[19 + 18] = 7),
    (2, 4, |call| call.samples[4] = 256),
];

#[test]
fn writers_refusals_and_their_order() {
    let legal = spoilable();
    let length = packed(&legal).len();
    for (later, &(number, value, spoil)) in WRITERS_ORDER.iter().enumerate() {
        let mut call = legal.clone();
        spoil(&mut call);
        let expected = (number, value, Holds::Untouched);
        assert_eq!(refused_pack(&call, length), expected);
        assert_eq!(refused_pack(&call, 1), expected);
        let counted = call.length().expect_err("a refusal");
        assert_eq!((counted.number(), counted.value()), (number, value));
        // An earlier fault beside it decides. It is planted second, because the
        // later ones need table slots and samples that it may take away.
        for &(first_number, first_value, spoil_first) in &WRITERS_ORDER[..later] {
            let mut both = legal.clone();
            spoil(&mut both);
            spoil_first(&mut both);
            let expected = (first_number, first_value, Holds::Untouched);
            assert_eq!(refused_pack(&both, length), expected, "{later}");
        }
    }
}

#[test]
fn a_short_output_is_all_zero() {
    let legal = spoilable();
    let length = packed(&legal).len();
    for out in 1..length {
        let expected = (6, length as u64, Holds::Zero);
        assert_eq!(refused_pack(&legal, out), expected);
    }
    let refusal = legal.pack(&mut []);
    assert_eq!(
        refusal.map_err(|r| (r.number(), r.value())),
        Err((6, length as u64))
    );
}

#[test]
fn nothing_behind_the_answer_changes() {
    let mut random = Random::new(41);
    for _ in 0..200 {
        let inputs = random_inputs(&mut random);
        let file = packed(&inputs);
        for pattern in [0x00, 0xA5, 0xFF] {
            let mut out = vec![pattern; file.len() + 11];
            assert_eq!(inputs.pack(&mut out), Ok(file.len() as u64));
            assert_eq!(out[..file.len()], file);
            assert_eq!(out[file.len()..], [pattern; 11]);
        }
        let bands = inputs.settings.shape().bands;
        for pattern in PATTERNS {
            let mut tables = vec![pattern; TABLE_STRIDE * bands + 5];
            let mut image = vec![pattern; inputs.samples.len() + 7];
            plain::open(&file, SCRATCH_STRIDE * bands, &mut tables, &mut image)
                .expect("a whole file");
            assert_eq!(image[..inputs.samples.len()], inputs.samples);
            assert_eq!(image[inputs.samples.len()..], [pattern; 7]);
            assert_eq!(tables[TABLE_STRIDE * bands..], [pattern; 5]);
        }
    }
}

/// One setting at the ends of its range and just outside, by slot; M, Q and K are
/// settings in the base, so that none is ignored.
#[test]
fn every_setting_has_its_range() {
    let base = {
        let mut settings = worked_settings(2);
        settings.z_size = 2;
        settings.band_sequential = 0;
        settings.interleaving_depth = 1;
        settings.weight_resolution = 10;
        settings.custom_weights = 1;
        settings.initialization_resolution = 4;
        settings.initial_count_exponent = 4;
        settings.rescaling_counter_size = 7;
        settings.register_size = 40;
        settings.to_slots()
    };
    let ranges: [(usize, i32, i32); 21] = [
        (0, 0, 255),
        (4, 0, 1),
        (5, 2, 16),
        (6, 0, 1),
        (7, 1, 2),
        (8, 1, 8),
        (9, 0, 15),
        (10, 0, 1),
        (11, 0, 1),
        (12, 32, 64),
        (13, 4, 19),
        (15, -6, 3),
        (16, -1, 9),
        (17, 0, 1),
        (18, 3, 13),
        (19, 8, 32),
        (20, 5, 9),
        (21, 1, 6),
        (22, 0, 1),
        (23, 0, 6),
        (1, 1, 65_536),
    ];
    let answer = |slot: usize, value: i32| -> Answer {
        let mut slots = base;
        slots[slot] = value;
        let settings = Settings::from_slots(&slots).expect("24 slots");
        let count = settings.sample_count().min(1 << 20) as usize;
        inputs(settings, &vec![0; count]).length()
    };
    for (slot, low, high) in ranges {
        for value in [low - 1, high + 1, i32::MIN, i32::MAX, low, high] {
            let expected = (low..=high).contains(&value);
            assert_eq!(
                answer(slot, value) != Err(Refusal::IllegalSetting),
                expected,
                "slot {slot} at {value}"
            );
        }
    }
    for exponent in 0..31 {
        let is_legal = answer(14, 1 << exponent).is_ok();
        assert_eq!(is_legal, (4..=11).contains(&exponent));
        assert!(exponent == 0 || answer(14, (1 << exponent) + 1).is_err());
    }
}

#[test]
fn settings_that_hang_together() {
    let answer = |change: &dyn Fn(&mut Settings)| {
        let mut settings = worked_settings(1);
        change(&mut settings);
        inputs(settings, &vec![0; settings.sample_count() as usize]).length()
    };
    let illegal = Err(Refusal::IllegalSetting);
    assert_eq!(answer(&|s| s.reduced_mode = 0), illegal);
    assert_eq!(answer(&|s| s.column_sums = 0), illegal);
    // R follows D and Ω: 16 + 19 + 2 = 37.
    for (register_size, is_legal) in [(36, false), (37, true)] {
        let answered = answer(&|s| {
            s.dynamic_range = 16;
            s.weight_resolution = 19;
            s.register_size = register_size;
        });
        assert_eq!(answered.is_ok(), is_legal);
    }
    for (exponent, size, is_legal) in [(8, 8, false), (8, 9, true), (1, 3, false), (1, 4, true)] {
        let answered = answer(&|s| {
            s.initial_count_exponent = exponent;
            s.rescaling_counter_size = size;
        });
        assert_eq!(answered.is_ok(), is_legal);
    }
    let turned = answer(&|s| (s.exponent_initial, s.exponent_final) = (2, 1));
    assert_eq!(turned, illegal);
    let huge = answer(&|s| {
        s.dynamic_range = 2;
        s.accumulator_constant = 1;
    });
    assert_eq!(huge, illegal);
}

#[test]
fn monstrous_settings_are_refused() {
    let mut random = Random::new(42);
    for _ in 0..200_000 {
        let mut slots = random_inputs_cheap(&mut random);
        for _ in 0..1 + random.below(24) {
            let index = random.below(24);
            slots[index] = random.pick(&[i32::MIN, i32::MAX, -1, 0, 1, 2, 65_536, i32::MAX - 1]);
        }
        let settings = Settings::from_slots(&slots).expect("24 slots");
        let answer = plain::length(&settings, &[0; 19], &[0], 32);
        let is_legal = settings.plain_settings_are_legal();
        assert_eq!(answer == Err(Refusal::IllegalSetting), !is_legal);
    }
    assert_eq!(Settings::from_slots(&[0; 23]), Err(Refusal::WrongCount));
    assert!(Settings::from_slots(&[0; 25]).is_ok());
}

/// The worked settings with a random depth, as slots.
fn random_inputs_cheap(random: &mut Random) -> [i32; 24] {
    let mut settings = worked_settings(1);
    settings.dynamic_range = random.between(2, 16);
    settings.to_slots()
}

#[test]
fn readers_refusals_and_areas() {
    let mut settings = worked_settings(2);
    settings.z_size = 2;
    settings.custom_weights = 1;
    settings.initialization_resolution = 3;
    settings.prediction_bands = 1;
    settings.accumulator_table = 1;
    let file = packed(&inputs(settings, &[130, 131, 7, 255]));
    let with = |index: usize, byte: u8| {
        let mut changed = file.clone();
        changed[index] = byte;
        changed
    };
    let header = 12 + 5 + 1 + 2 + 1;
    let ample = |file: &[u8]| refused_open(file, 64, 40, 6);
    let untouched = |number: u8| (number, 0, Holds::Untouched);
    for cut in [0, 11, 12, 16, 17, 18, 19, 20] {
        assert_eq!(ample(&file[..cut]), untouched(7), "{cut}");
    }
    assert_eq!(ample(&file[..header]), (9, 0, Holds::Zero));
    assert_eq!(ample(&with(10, 0x0C)), untouched(12));
    assert_eq!(ample(&with(5, 0x10)), untouched(4));
    assert_eq!(ample(&with(11, 0x01)), untouched(8));
    assert_eq!(ample(&with(17, 0x01)), untouched(8));
    assert_eq!(ample(&with(header - 1, 0x70)), untouched(8));
    assert_eq!(refused_open(&file, 64, 38, 3), untouched(3));
    assert_eq!(refused_open(&file, 63, 38, 4), untouched(5));
    assert_eq!(refused_open(&file, 64, 37, 4), untouched(5));
    assert_eq!(refused_open(&file, 0, 0, 3), untouched(3));
    let longer = [file.as_slice(), &[0]].concat();
    assert_eq!(refused_open(&longer, 64, 40, 6), (11, 4, Holds::Zero));
    assert_eq!(refused_open(&longer, 63, 40, 6), untouched(5));
    // Behind the plain first value, eight zeros and a small value.
    let mut forged = file[..header + 1].to_vec();
    forged.extend([0x00, 0x07, 0xFF, 0xFF]);
    assert_eq!(ample(&forged), (10, 1, Holds::Zero));
    forged.truncate(header + 2);
    assert_eq!(ample(&forged), (9, 1, Holds::Zero));
}

#[test]
fn order_within_the_image_part() {
    let file = packed(&inputs(worked_settings(2), &[130, 131]));
    let answer = |bytes: &[(usize, u8)], length: usize| {
        let mut changed = file.clone();
        for &(index, byte) in bytes {
            changed[index] = byte;
        }
        plain::look(&changed[..length]).map_err(Refusal::number)
    };
    let zero_bit = (11, 0x01);
    let coder_bit = (10, 0x0C);
    let many_bands = (5, 0x10);
    let depth_of_one = (7, 0x03);
    let (register, table_flag) = ((13, 0x81), (16, 0x20));
    assert_eq!(answer(&[zero_bit, coder_bit, many_bands], 11), Err(7));
    assert_eq!(answer(&[zero_bit, coder_bit, many_bands], 12), Err(8));
    assert_eq!(answer(&[depth_of_one, coder_bit, many_bands], 12), Err(8));
    assert_eq!(answer(&[coder_bit, many_bands], 12), Err(12));
    assert_eq!(answer(&[many_bands], 12), Err(4));
    assert_eq!(answer(&[many_bands, register], 21), Err(4));
    assert_eq!(answer(&[register], 16), Err(7));
    assert_eq!(answer(&[register], 17), Err(8));
    assert_eq!(answer(&[table_flag], 17), Err(8));
    assert_eq!(answer(&[(17, 0x38)], 18), Err(7));
    assert_eq!(answer(&[(17, 0x38)], 19), Err(8));
    assert_eq!(answer(&[], 19), Ok(worked_settings(2)));
}

#[test]
fn every_header_field_refuses_its_illegal_values() {
    // First bit, width, and the values that are legal in this file.
    let mut settings = worked_settings(2);
    settings.weight_resolution = 6;
    settings.register_size = 33;
    settings.initial_count_exponent = 4;
    settings.rescaling_counter_size = 6;
    let file = packed(&inputs(settings, &[130, 131]));
    type Legal = fn(u32) -> bool;
    let fields: [(usize, usize, Legal); 29] = [
        (0, 8, |_| true),
        (56, 1, |_| true),
        (57, 2, |v| v == 0),
        (59, 4, |v| v != 1),
        // Band-interleaved order would need a depth beside it.
        (63, 1, |v| v == 1),
        (64, 16, |v| v == 0),
        (80, 2, |v| v == 0),
        (82, 3, |_| true),
        (86, 10, |v| v == 0),
        (96, 2, |v| v == 0),
        (98, 4, |_| true),
        (102, 1, |_| true),
        (103, 1, |v| v == 0),
        (104, 1, |_| true),
        (105, 1, |v| v == 0),
        (106, 6, |v| v == 0 || v >= 32),
        (112, 4, |_| true),
        (116, 4, |v| v <= 7),
        (120, 4, |v| v <= 9),
        (124, 4, |v| v >= 5),
        (128, 1, |v| v == 0),
        (129, 1, |v| v == 0),
        (130, 1, |v| v == 0),
        (131, 5, |v| v == 0),
        (136, 5, |v| v == 0 || v >= 8),
        (141, 3, |v| (1..=5).contains(&v)),
        (144, 3, |v| (1..=5).contains(&v)),
        (147, 4, |v| v <= 6),
        (151, 1, |v| v == 0),
    ];
    for (first, width, is_legal) in fields {
        for value in 0..1_u32 << width {
            let mut changed = file.clone();
            for bit in 0..width {
                let (index, mask) = ((first + bit) / 8, 0x80 >> ((first + bit) % 8));
                changed[index] &= !mask;
                if value >> (width - 1 - bit) & 1 == 1 {
                    changed[index] |= mask;
                }
            }
            let answer = plain::look(&changed).map(|_| ()).map_err(Refusal::number);
            let expected = if is_legal(value) { Ok(()) } else { Err(8) };
            assert_eq!(answer, expected, "bit {first}, value {value}");
        }
    }
}
