//! The small rules against their definitions, written as the standard has them
//! with wide numbers and no shortcuts.

use plain::bits::{BitReader, BitSink, BitWriter};
use plain::coder::{Code, CodewordFault, Statistics};
use plain::make::Random;
use plain::predictor::{
    custom_weight, local_sum, mapped, unmapped, update_exponent, weight_step, wrap_register,
};
use plain::settings::SampleRange;

mod common;

fn range(dynamic_range: u32, signed: bool) -> SampleRange {
    let half = 1 << (dynamic_range - 1);
    let low = if signed { -half } else { 0 };
    SampleRange {
        minimum: low,
        maximum: low + 2 * half - 1,
        middle: low + half,
    }
}

#[test]
fn register_is_the_standards_modulus() {
    let mut random = Random::new(1);
    for size in 32..=64 {
        let modulus = 1_i128 << size;
        for _ in 0..500 {
            let value = (random.bits() as i64) >> random.below(34);
            let defined = (i128::from(value) + modulus / 2).rem_euclid(modulus) - modulus / 2;
            assert_eq!(i128::from(wrap_register(value, size)), defined);
        }
    }
}

#[test]
fn weight_step_is_the_floor() {
    let mut random = Random::new(2);
    for exponent in -23..=21 {
        for index in 0..400 {
            let difference = match index {
                0..=20 => index - 10,
                _ => random.between(-(1 << 19), 1 << 19),
            };
            for error in [-5, -1, 0, 1, 9] {
                let signed = i128::from(if error >= 0 { difference } else { -difference });
                // floor((g·U·2^(−ρ) + 1)/2), both sides times 2^32.
                let scaled = if exponent < 0 {
                    signed << (32 - exponent)
                } else {
                    signed << (32 - exponent as u32)
                };
                let floor = (scaled + (1 << 32)).div_euclid(1 << 33);
                assert_eq!(i128::from(weight_step(error, exponent, difference)), floor);
            }
        }
    }
}

#[test]
fn update_exponent_is_the_clipped_floor() {
    let mut settings = common::worked_settings(10);
    settings.y_size = 100;
    for (initial, last) in [(-6, 9), (-1, 3), (4, 4), (9, 9)] {
        settings.exponent_initial = initial;
        settings.exponent_final = last;
        for t in 1..1000_i32 {
            let floor = (t - 10).div_euclid(16);
            let defined = (initial + floor).max(initial).min(last) + 8 - 4;
            assert_eq!(update_exponent(&settings, t as usize), defined);
        }
    }
}

#[test]
fn custom_weights_have_the_bits_the_standard_names() {
    // The Q bits of the value, then a zero, then ones.
    for resolution in 4..=19_i32 {
        for width in 3..=resolution + 3 {
            let half = 1 << (width - 1);
            for value in [-half, -1, 0, 1, half - 1] {
                let weight = custom_weight(resolution, width, value);
                let rest = resolution + 3 - width;
                assert_eq!(weight >> rest, value);
                let low = weight & ((1 << rest) - 1);
                let expected = if rest == 0 { 0 } else { (1 << (rest - 1)) - 1 };
                assert_eq!(low, expected);
            }
        }
    }
}

/// The local sum straight from equations 16 and 17.
fn defined_sum(
    column: bool,
    nx: usize,
    s: &dyn Fn(usize, usize) -> i32,
    y: usize,
    x: usize,
) -> i32 {
    match (column, y > 0, x > 0, x + 1 < nx) {
        (true, true, _, _) => 4 * s(y - 1, x),
        (_, false, _, _) => 4 * s(y, x - 1),
        (false, true, true, true) => s(y, x - 1) + s(y - 1, x - 1) + s(y - 1, x) + s(y - 1, x + 1),
        (false, true, false, _) => 2 * (s(y - 1, x) + s(y - 1, x + 1)),
        (false, true, true, false) => s(y, x - 1) + s(y - 1, x - 1) + 2 * s(y - 1, x),
    }
}

#[test]
fn local_sums() {
    let mut random = Random::new(3);
    for columns in 2..6 {
        let band: Vec<i32> = (0..4 * columns)
            .map(|_| random.between(-999, 999))
            .collect();
        let sample = |y: usize, x: usize| band[y * columns + x];
        for t in 1..band.len() {
            let (y, x) = (t / columns, t % columns);
            for column in [false, true] {
                let defined = defined_sum(column, columns, &sample, y, x);
                assert_eq!(local_sum(column, columns, &band, y, x), defined);
            }
        }
    }
}

/// Equation 35 as it stands.
fn defined_mapped(range: SampleRange, scaled: i32, sample: i32) -> i32 {
    let predicted = scaled.div_euclid(2);
    let delta = sample - predicted;
    let theta = (predicted - range.minimum).min(range.maximum - predicted);
    let turned = if scaled.rem_euclid(2) == 1 {
        -delta
    } else {
        delta
    };
    if delta.abs() > theta {
        delta.abs() + theta
    } else if (0..=theta).contains(&turned) {
        2 * delta.abs()
    } else {
        2 * delta.abs() - 1
    }
}

#[test]
fn mapping_is_the_definition_and_undone() {
    for dynamic_range in 2..=7 {
        for signed in [false, true] {
            let range = range(dynamic_range, signed);
            for scaled in 2 * range.minimum..=2 * range.maximum + 1 {
                let mut seen = vec![false; 1 << dynamic_range];
                for sample in range.minimum..=range.maximum {
                    let value = mapped(range, scaled, sample);
                    assert_eq!(value as i32, defined_mapped(range, scaled, sample));
                    assert_eq!(unmapped(range, scaled, value), sample);
                    assert!(!std::mem::replace(&mut seen[value as usize], true));
                }
            }
        }
    }
}

#[test]
fn mapping_of_deep_samples_is_undone() {
    let mut random = Random::new(4);
    for _ in 0..200_000 {
        let range = range(random.between(8, 16) as u32, random.one_in(2));
        let scaled = random.edged(2 * range.minimum, 2 * range.maximum + 1);
        let sample = random.edged(range.minimum, range.maximum);
        let value = mapped(range, scaled, sample);
        assert_eq!(value as i32, defined_mapped(range, scaled, sample));
        assert_eq!(unmapped(range, scaled, value), sample);
    }
}

#[test]
fn code_parameter_is_the_definition() {
    let mut random = Random::new(5);
    for _ in 0..200_000 {
        let count = random.between(2, 511) as u64;
        let accumulator = random.bits() >> (64 - random.between(1, 25));
        let dynamic_range = random.edged(2, 16);
        let sum = accumulator + 49 * count / 128;
        let defined = if 2 * count > sum {
            0
        } else {
            (0..=dynamic_range as u32 - 2)
                .filter(|k| count << k <= sum)
                .max()
                .unwrap_or(0)
        };
        let statistics = Statistics { count, accumulator };
        assert_eq!(statistics.code_parameter(dynamic_range), defined);
    }
}

#[test]
fn first_code_parameter_is_the_given_one() {
    for exponent in 1..=8 {
        for k in 0..=14 {
            let first = Statistics::initial(exponent, k);
            assert_eq!(first.code_parameter(16), k as u32);
        }
    }
}

#[test]
fn statistics_halve_at_the_rescaling_count() {
    let mut statistics = Statistics {
        count: 14,
        accumulator: 100,
    };
    statistics.update(7, 4);
    assert_eq!((statistics.count, statistics.accumulator), (15, 107));
    statistics.update(6, 4);
    assert_eq!((statistics.count, statistics.accumulator), (8, 57));
}

#[test]
fn every_codeword_is_read_back_and_no_other() {
    for dynamic_range in 2..=8 {
        for k in 0..=dynamic_range - 2 {
            for unary_limit in [8, 9, 32] {
                let code = Code {
                    dynamic_range,
                    unary_limit,
                    k,
                };
                for value in 0..1 << dynamic_range {
                    let mut writer = BitWriter::default();
                    code.write(value, &mut writer);
                    let width = writer.position();
                    writer.put(1, 1);
                    writer.fill_to(8);
                    let bytes = writer.into_bytes();
                    let mut reader = BitReader::new(&bytes);
                    assert_eq!(code.read(&mut reader), Ok(value));
                    assert_eq!(reader.position(), width);
                    check_escape(code, value);
                }
            }
        }
    }
}

/// An escape is read exactly for the values that have one.
fn check_escape(code: Code, value: u32) {
    let mut writer = BitWriter::default();
    writer.put(u64::from(value), code.unary_limit + code.dynamic_range);
    writer.fill_to(8);
    let bytes = writer.into_bytes();
    let expected = if value >> code.k >= code.unary_limit {
        Ok(value)
    } else {
        Err(CodewordFault::Foreign)
    };
    assert_eq!(code.read(&mut BitReader::new(&bytes)), expected);
}

#[test]
fn bits_are_read_as_written() {
    let mut random = Random::new(6);
    for _ in 0..300 {
        let fields: Vec<(u64, u32)> = (0..random.below(40))
            .map(|_| {
                let width = random.below(49) as u32;
                (random.bits() & ((1 << width) - 1), width)
            })
            .collect();
        let mut writer = BitWriter::default();
        for &(value, width) in &fields {
            writer.put(value, width);
        }
        let position = writer.position();
        assert_eq!(position, fields.iter().map(|f| u64::from(f.1)).sum::<u64>());
        writer.fill_to(8);
        let bytes = writer.into_bytes();
        let mut reader = BitReader::new(&bytes);
        for &(value, width) in &fields {
            assert_eq!(reader.take(width), Some(value));
        }
        assert!(reader.rest_is_zero());
        assert_eq!(reader.take(8), None);
    }
}
