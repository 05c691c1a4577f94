//! Damaged files: whatever opens must pack to exactly the bytes that were opened.

mod common;

use common::{inputs, opened, packed, worked_settings};
use plain::bits::{BitCounter, BitSink};
use plain::case::WriterInputs;
use plain::header::write_header;
use plain::make::{file_of, random_inputs, Random};
use plain::Refusal;

/// Small inputs of many kinds.
fn small_inputs(seed: u64, count: usize, most_bytes: usize) -> Vec<WriterInputs> {
    let mut random = Random::new(seed);
    let mut list = vec![
        inputs(worked_settings(1), &[130]),
        inputs(worked_settings(2), &[130, 131]),
    ];
    while list.len() < count {
        let inputs = random_inputs(&mut random);
        if file_of(&inputs).len() <= most_bytes {
            list.push(inputs);
        }
    }
    list
}

/// Opens bytes; what opens must be their one origin. Says whether it opened.
fn opens_faithfully(file: &[u8]) -> bool {
    match opened(file) {
        Ok(back) => {
            assert_eq!(back.packed_again(), file);
            assert_eq!(plain::look(file), Ok(back.settings));
            true
        }
        Err(refusal) => {
            assert!((3..=12).contains(&refusal.number()));
            false
        }
    }
}

fn header_length(inputs: &WriterInputs) -> usize {
    let mut counter = BitCounter::default();
    write_header(&inputs.settings, &inputs.tables, &mut counter);
    counter.position() as usize / 8
}

#[test]
fn every_single_bit_flipped() {
    let (mut opened_count, mut refused_count) = (0, 0);
    for inputs in small_inputs(21, 150, 120) {
        let file = packed(&inputs);
        assert!(opens_faithfully(&file));
        for bit in 0..8 * file.len() {
            let mut flipped = file.clone();
            flipped[bit / 8] ^= 0x80 >> (bit % 8);
            if opens_faithfully(&flipped) {
                opened_count += 1;
            } else {
                refused_count += 1;
            }
        }
    }
    // Both happen: user bits and plain values open, zero bits are refused.
    assert!(opened_count > 1000 && refused_count > 1000);
}

#[test]
fn every_cut_is_refused() {
    for inputs in small_inputs(22, 150, 300) {
        let file = packed(&inputs);
        let header = header_length(&inputs);
        let count = inputs.samples.len() as u64;
        let mut last_rank = 0;
        for length in 0..file.len() {
            let refusal = opened(&file[..length]).expect_err("a cut file");
            if length < header {
                assert_eq!(refusal, Refusal::HeaderEnds);
                continue;
            }
            let Refusal::BodyEnds { rank } = refusal else {
                panic!("{refusal:?} at {length}");
            };
            assert!(last_rank <= rank && rank <= count);
            last_rank = rank;
        }
        assert!(plain::look(&file[..header]).is_ok());
    }
}

#[test]
fn every_extension_is_refused() {
    for inputs in small_inputs(23, 100, 300) {
        let file = packed(&inputs);
        let count = inputs.samples.len() as u64;
        for more in 1..=9 {
            for byte in [0, 0xFF] {
                let mut longer = file.clone();
                longer.resize(file.len() + more, byte);
                let refusal = opened(&longer).expect_err("a longer file");
                assert_eq!(refusal, Refusal::AfterTheEnd { count });
            }
        }
    }
}

#[test]
fn every_fill_bit_set_is_refused() {
    let mut tried = 0;
    for inputs in small_inputs(24, 200, 300) {
        let file = packed(&inputs);
        let count = inputs.samples.len() as u64;
        let mut settings = inputs.settings;
        settings.output_word_size = 1;
        let bytes = packed(&WriterInputs { settings, ..inputs }).len();
        // Bytes that only the word size asks for are fill throughout.
        for bit in 8 * bytes..8 * file.len() {
            let mut set = file.clone();
            set[bit / 8] |= 0x80 >> (bit % 8);
            assert_eq!(opened(&set), Err(Refusal::AfterTheEnd { count }));
            tried += 1;
        }
    }
    assert!(tried > 1000);
    // The 21-byte file ends with two bits of a codeword and six of fill.
    let file = packed(&inputs(worked_settings(2), &[130, 131]));
    for bit in 2..8 {
        let mut set = file.clone();
        set[20] |= 0x80 >> bit;
        assert_eq!(opened(&set), Err(Refusal::AfterTheEnd { count: 2 }));
    }
}

#[test]
fn too_short_comes_before_a_set_fill_bit() {
    let mut settings = worked_settings(2);
    settings.output_word_size = 4;
    let mut file = packed(&inputs(settings, &[130, 131]));
    assert_eq!(file.len(), 24);
    file.truncate(22);
    file[21] = 0xFF;
    assert_eq!(opened(&file), Err(Refusal::BodyEnds { rank: 2 }));
}

#[test]
fn random_bytes_are_answered() {
    let mut random = Random::new(25);
    let header = packed(&inputs(worked_settings(2), &[130, 131]));
    for _ in 0..30_000 {
        let mut file: Vec<u8> = (0..random.below(60)).map(|_| random.bits() as u8).collect();
        // Half of them start as a file would, so that some get to the body.
        if random.one_in(2) && file.len() >= 19 {
            file[..19].copy_from_slice(&header[..19]);
            file[2] = random.between(1, 9) as u8;
        }
        opens_faithfully(&file);
    }
}
