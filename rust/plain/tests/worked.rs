//! The numbers worked by hand in the paper, and its list of old slips.

mod common;

use common::{inputs, opened, packed, worked_settings};
use plain::bits::{BitReader, BitSink, BitWriter};
use plain::coder::{Code, Coder, CodewordFault, Statistics};
use plain::cube::visit_places;
use plain::predictor::{
    custom_weight, default_central_weight, mapped, weight_step, wrap_register, Place, Predictor,
};
use plain::settings::SampleRange;
use plain::Refusal;

const FILE_20: [u8; 20] = [
    0x00, 0x00, 0x01, 0x00, 0x01, 0x00, 0x01, 0x11, 0x00, 0x00, 0x08, 0x00, 0x02, 0xA0, 0x00, 0x59,
    0x00, 0x40, 0x20, 0x04,
];

#[test]
fn whole_file_of_20_bytes() {
    let file = packed(&inputs(worked_settings(1), &[130]));
    assert_eq!(file, FILE_20);
    let back = opened(&FILE_20).expect("a whole file");
    assert_eq!(back.settings, worked_settings(1));
    assert_eq!(back.samples, [130]);
}

#[test]
fn whole_file_of_21_bytes() {
    let mut expected = FILE_20.to_vec();
    expected[2] = 0x02;
    expected.push(0x40);
    let call = inputs(worked_settings(2), &[130, 131]);
    assert_eq!(packed(&call), expected);
    assert_eq!(call.length(), Ok(21));
    assert_eq!(
        opened(&expected).map(|back| back.samples),
        Ok(vec![130, 131])
    );
}

#[test]
fn scaled_prediction_and_code_of_the_second_sample() {
    let settings = worked_settings(2);
    let samples = [130, 131];
    let mut predictor = Predictor::new(&settings, &[0; 19]);
    let first = Place { z: 0, y: 0, x: 0 };
    let second = Place { z: 0, y: 0, x: 1 };
    assert_eq!(predictor.scaled_predicted(&samples, first), 256);
    predictor.learn(first, 256, 130);
    assert_eq!(predictor.scaled_predicted(&samples, second), 261);
    assert_eq!(mapped(settings.sample_range(), 261, 131), 1);
    assert_eq!(Coder::new(&settings, &[0; 19]).code(0).k, 0);
}

#[test]
fn whole_file_of_22_bytes() {
    let mut settings = worked_settings(2);
    settings.output_word_size = 2;
    let file = packed(&inputs(settings, &[130, 131]));
    assert_eq!(file.len(), 22);
    assert_eq!(file[10], 0x10);
    assert_eq!(file[19..], [0x04, 0x40, 0x00]);
}

#[test]
fn mapping_tables() {
    let range = SampleRange {
        minimum: 0,
        maximum: 7,
        middle: 4,
    };
    let table = |scaled| (0..8).map(|s| mapped(range, scaled, s)).collect::<Vec<_>>();
    assert_eq!(table(5), [4, 2, 0, 1, 3, 5, 6, 7]);
    assert_eq!(table(4), [3, 1, 0, 2, 4, 5, 6, 7]);
}

#[test]
fn register_wraps() {
    let end = 1_i64 << 31;
    assert_eq!(wrap_register(end, 32), -end);
    assert_eq!(wrap_register(end - 1, 32), end - 1);
    assert_eq!(wrap_register(-end - 1, 32), end - 1);
    assert_eq!(wrap_register(i64::MIN, 64), i64::MIN);
}

#[test]
fn initial_weights() {
    let defaults: Vec<i32> = (0..3).map(|i| default_central_weight(4, i)).collect();
    assert_eq!(defaults, [14, 1, 0]);
    assert_eq!(custom_weight(4, 3, -4), -57);
    assert_eq!(custom_weight(4, 3, 3), 55);
    for value in [-64, -1, 0, 1, 63] {
        assert_eq!(custom_weight(4, 7, value), value);
    }
}

#[test]
fn weights_stop_at_their_ends() {
    // One band before, whose differences push one way until the weight stands.
    let mut settings = worked_settings(40);
    settings.z_size = 2;
    settings.prediction_bands = 1;
    let mut ends = Vec::new();
    for error in [1, -1] {
        let mut predictor = Predictor::new(&settings, &[0; 38]);
        let samples: Vec<i32> = (0..80).map(|i| (i % 2) * 255).collect();
        for x in 0..40 {
            for z in 0..2 {
                let place = Place { z, y: 0, x };
                let scaled = predictor.scaled_predicted(&samples, place);
                // The central difference is 1020 or -1020 by turns; the error follows it.
                let sign = if x % 2 == 1 { error } else { -error };
                let told = if z == 0 {
                    scaled
                } else {
                    2 * samples[40 + x] - sign
                };
                predictor.learn(place, told, samples[40 * z + x]);
            }
        }
        ends.push(predictor.weights(1)[0]);
    }
    assert_eq!(ends, [63, -64]);
}

#[test]
fn weight_steps() {
    assert_eq!(weight_step(0, 1, 5), 1);
    assert_eq!(weight_step(-1, 1, 5), -1);
    assert_eq!(weight_step(0, -1, 5), 5);
    assert_eq!(weight_step(-1, -1, 5), -5);
}

#[test]
fn first_accumulators() {
    let first = Statistics::initial(1, 3);
    assert_eq!((first.count, first.accumulator), (2, 23));
    assert_eq!(first.code_parameter(16), 3);
    let first = Statistics::initial(8, 0);
    assert_eq!((first.count, first.accumulator), (256, 286));
    assert_eq!(first.code_parameter(16), 0);
}

/// The bits of a codeword as text.
fn codeword(code: Code, mapped: u32) -> String {
    let mut writer = BitWriter::default();
    code.write(mapped, &mut writer);
    let width = writer.position();
    writer.fill_to(8);
    let bytes = writer.into_bytes();
    let bits: String = bytes.iter().map(|byte| format!("{byte:08b}")).collect();
    bits[..width as usize].to_string()
}

fn read(code: Code, bits: &str) -> Result<u32, CodewordFault> {
    // Whole bytes are read, so the last bits may be no part of the codeword.
    assert_eq!(bits.len() % 8, 0);
    let bytes: Vec<u8> = (0..bits.len() / 8)
        .map(|i| u8::from_str_radix(&bits[8 * i..8 * i + 8], 2).expect("bits"))
        .collect();
    code.read(&mut BitReader::new(&bytes))
}

#[test]
fn codewords() {
    let code = Code {
        dynamic_range: 8,
        unary_limit: 8,
        k: 0,
    };
    assert_eq!(codeword(code, 7), "00000001");
    assert_eq!(codeword(code, 8), "0000000000001000");
    assert_eq!(read(code, "00000001"), Ok(7));
    assert_eq!(read(code, "0000000000001000"), Ok(8));
    assert_eq!(read(code, "0000000000000111"), Err(CodewordFault::Foreign));
    assert_eq!(read(code, "00000000"), Err(CodewordFault::Ends));
    let code = Code {
        dynamic_range: 4,
        unary_limit: 8,
        k: 2,
    };
    assert_eq!(read(code, "00010011"), Ok(12));
    assert_eq!(read(code, "00001001"), Err(CodewordFault::Foreign));
    // The same, cut before its two low bits: 9 precedes 10.
    let mut reader = BitReader::new(&[0b1000_0001]);
    assert_eq!(code.read(&mut reader), Ok(0));
    assert_eq!(code.read(&mut reader), Err(CodewordFault::Ends));
}

#[test]
fn limits_of_single_settings() {
    let answer = |change: &dyn Fn(&mut plain::Settings)| {
        let mut settings = worked_settings(1);
        change(&mut settings);
        let count = settings.sample_count() as usize;
        inputs(settings, &vec![130; count]).length()
    };
    assert!(answer(&|s| s.rescaling_counter_size = 9).is_ok());
    let refused = answer(&|s| s.rescaling_counter_size = 10);
    assert_eq!(refused, Err(Refusal::IllegalSetting));
    assert!(answer(&|s| s.z_size = 4_096).is_ok());
    assert_eq!(answer(&|s| s.z_size = 4_097), Err(Refusal::HouseLimit));
    let depth = |m: i32| {
        answer(&|s| {
            s.z_size = 3;
            s.band_sequential = 0;
            s.interleaving_depth = m;
        })
    };
    assert!(depth(3).is_ok());
    for m in [0, -1, 4] {
        assert_eq!(depth(m), Err(Refusal::IllegalSetting), "M = {m}");
    }
}

#[test]
fn a_zero_interleaving_depth_does_not_pass_as_all_bands() {
    let mut settings = worked_settings(2);
    settings.z_size = 2;
    settings.band_sequential = 0;
    settings.interleaving_depth = 2;
    let mut file = packed(&inputs(settings, &[1, 2, 3, 4]));
    assert_eq!(file[8..10], [0, 2]);
    file[9] = 0;
    assert_eq!(plain::look(&file), Err(Refusal::IllegalField));
    // Beside 65,536 bands it is a legal field; the house refuses them.
    file[5..7].copy_from_slice(&[0, 0]);
    assert_eq!(plain::look(&file), Err(Refusal::HouseLimit));
}

/// The places in coding order as (z, y, x), for 2 columns, 2 rows and 3 bands.
fn places(band_sequential: i32, depth: i32) -> Vec<(usize, usize, usize)> {
    let mut settings = worked_settings(2);
    settings.y_size = 2;
    settings.z_size = 3;
    settings.band_sequential = band_sequential;
    settings.interleaving_depth = depth;
    let mut places = Vec::new();
    let visited: Result<(), ()> = visit_places(&settings, |place| {
        places.push((place.z, place.y, place.x));
        Ok(())
    });
    assert_eq!(visited, Ok(()));
    places
}

#[test]
fn coding_orders() {
    let sequential = places(1, 0);
    assert_eq!(sequential[..3], [(0, 0, 0), (0, 0, 1), (0, 1, 0)]);
    assert!(sequential.is_sorted());
    let row = [
        (0, 0, 0),
        (1, 0, 0),
        (0, 0, 1),
        (1, 0, 1),
        (2, 0, 0),
        (2, 0, 1),
    ];
    let pairs = places(0, 2);
    assert_eq!(pairs[..6], row);
    assert_eq!(pairs[6..], row.map(|(z, _, x)| (z, 1, x)));
    let by_line = places(0, 1);
    assert!(by_line.is_sorted_by_key(|&(z, y, x)| (y, z, x)));
    let by_pixel = places(0, 3);
    assert!(by_pixel.is_sorted_by_key(|&(z, y, x)| (y, x, z)));
    for mut other in [pairs, by_line, by_pixel] {
        other.sort_unstable();
        assert_eq!(other, sequential);
        assert_eq!(other.len(), 12);
    }
}

#[test]
fn first_sample_of_a_band_is_predicted_from_the_band_before() {
    for (prediction_bands, expected) in [(0, [256, 256]), (1, [256, 26]), (15, [256, 26])] {
        let mut settings = worked_settings(2);
        settings.z_size = 2;
        settings.prediction_bands = prediction_bands;
        let mut predictor = Predictor::new(&settings, &[0; 38]);
        let samples = [13, 200, 77, 88];
        let scaled = [0, 1].map(|z| predictor.scaled_predicted(&samples, Place { z, y: 0, x: 0 }));
        assert_eq!(scaled, expected);
    }
}

#[test]
fn the_count_runs_on_over_rows() {
    // Every value is 0 but the last, so k falls from 6 as the count grows; a count
    // that began again each row would give another length.
    let mut settings = worked_settings(2);
    settings.y_size = 40;
    settings.rescaling_counter_size = 6;
    settings.accumulator_constant = 6;
    let mut samples = vec![128; 80];
    samples[79] = 129;
    let mut statistics = Statistics::initial(1, 6);
    let mut bits = 8;
    for t in 1..80 {
        let k = statistics.code_parameter(8);
        let value = if t == 79 { 1 } else { 0 };
        bits += (value >> k) + 1 + k;
        statistics.update(value, 6);
    }
    assert_eq!(statistics.count, 33 + 17 - 1);
    let length = inputs(settings, &samples).length();
    assert_eq!(length, Ok(19 + u64::from(bits).div_ceil(8)));
}
