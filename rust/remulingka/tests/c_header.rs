//! The header for C beside this library: the same limits, version, settings and words,
//! without a warning in C and in C++.

use std::path::{Path, PathBuf};
use std::process::Command;

use remulingka::{
    boundary, longest_file, pack, InitialK, Refusal, Settings, Weights, MOST_BANDS, MOST_SAMPLES,
    SCRATCH_SLOTS, SETTING_SLOTS, TABLE_SLOTS, VERSION,
};

const PROGRAM: &str = r#"
#include <stdio.h>
#include "remulingka.h"

static void show(int32_t nx, int32_t ny, int32_t nz, int is_signed, int32_t depth) {
    int32_t settings[REMULINGKA_SETTING_SLOTS];
    remulingka_usual(settings, nx, ny, nz, is_signed, depth);
    for (int slot = 0; slot < REMULINGKA_SETTING_SLOTS; slot++) printf(" %d", (int)settings[slot]);
    printf("\n");
}

int main(void) {
    printf("%s %d.%d.%d\n", REMULINGKA_VERSION, REMULINGKA_VERSION_MAJOR, REMULINGKA_VERSION_MINOR,
           REMULINGKA_VERSION_PATCH);
    printf("%d %d %d %d %d\n", REMULINGKA_MOST_SAMPLES, REMULINGKA_MOST_BANDS,
           REMULINGKA_SETTING_SLOTS, REMULINGKA_TABLE_SLOTS, REMULINGKA_SCRATCH_SLOTS);
    printf("%zu %zu\n", REMULINGKA_LONGEST(1, 1, 1), REMULINGKA_LONGEST(65536, 1, 16));
    for (int number = 1; number <= 19; number++) printf("%s\n", remulingka_words(number));
    for (int32_t depth = -3; depth <= 20; depth++) {
        show(1, 2, 3, 0, depth);
        show(40, 30, 20, 1, depth);
    }
    return 0;
}
"#;

/// Compiles the program above and gives what it prints.
fn printed(compiler: &str, standard: &str, source: &str) -> String {
    let folder = Path::new(env!("CARGO_TARGET_TMPDIR"));
    let (source, program): (PathBuf, PathBuf) = (folder.join(source), folder.join(standard));
    std::fs::write(&source, PROGRAM).unwrap();
    let include = Path::new(env!("CARGO_MANIFEST_DIR")).join("../../include");
    let compiled = Command::new(compiler)
        .arg(format!("-std={standard}"))
        .args([
            "-Wall",
            "-Wextra",
            "-Wpedantic",
            "-Wconversion",
            "-Werror",
            "-I",
        ])
        .args([&include, &source])
        .arg("-o")
        .arg(&program)
        .status()
        .expect("the compiler runs");
    assert!(compiled.success(), "{compiler} {standard}");
    let run = Command::new(&program).output().unwrap();
    String::from_utf8(run.stdout).unwrap()
}

#[test]
fn the_header_says_what_the_library_says() {
    let text = printed("cc", "c99", "header.c");
    let mut lines = text.lines();
    assert_eq!(lines.next(), Some(format!("{VERSION} {VERSION}").as_str()));
    let limits = [
        MOST_SAMPLES,
        MOST_BANDS,
        SETTING_SLOTS,
        TABLE_SLOTS,
        SCRATCH_SLOTS,
    ];
    let limits = limits.map(|limit| limit.to_string()).join(" ");
    assert_eq!(lines.next(), Some(limits.as_str()));
    let longest = [(1, 1), (16, 1 << 20)].map(|(bands, samples)| longest_file(bands, samples));
    assert_eq!(
        lines.next(),
        Some(format!("{} {}", longest[0], longest[1]).as_str())
    );
    for number in 1..=19_u64 {
        // The library's words have the value in them, those for C have not.
        let refusal = Refusal::of_answer(boundary::Answer(number << 56 | 77)).unwrap_err();
        let ours = refusal.to_string();
        let words = lines.next().unwrap();
        let first: Vec<&str> = words.split(' ').filter(|word| word.len() > 4).collect();
        let shared = first.iter().filter(|word| ours.contains(**word)).count();
        assert!(2 * shared >= first.len(), "{words} beside {ours}");
    }
    for depth in -3..=20 {
        for settings in [
            Settings::for_image(1, 2, 3, false, depth),
            Settings::for_image(40, 30, 20, true, depth),
        ] {
            let slots: String = settings
                .to_slots()
                .iter()
                .map(|slot| format!(" {slot}"))
                .collect();
            assert_eq!(lines.next(), Some(slots.as_str()));
        }
    }
    assert_eq!(lines.next(), None);
    assert_eq!(printed("cc", "c11", "header.c"), text);
    // A C compiler is all that a test may ask for.
    if Command::new("c++").arg("--version").output().is_ok() {
        assert_eq!(printed("c++", "c++17", "header.cc"), text);
    }
}

#[test]
fn no_file_is_longer_than_the_longest() {
    // The worst that settings allow: the widest tables, the longest codewords, fill.
    let mut longest = 0.0;
    for (columns, rows, bands) in [(1, 1, 1), (2, 1, 16), (7, 3, 2), (1, 40, 5), (64, 64, 3)] {
        for turn in 0..40_i64 {
            let mut settings = Settings::for_image(columns, rows, bands, turn % 2 == 1, 16)
                .weights(Weights::Table { resolution: 22 })
                .initial_k(InitialK::Table)
                .prediction_bands(15)
                .word_size(8)
                .unary_limit(32);
            settings.weight_resolution = 19;
            let count = settings.sample_count() as i64;
            let (least, most) = settings.sample_range();
            let sample = |index: i64| match turn % 4 {
                0 => [least, most][(index % 2) as usize],
                1 => [most, least][(index / 2 % 2) as usize],
                _ => least + ((index * 7919 * (turn + 1)) % i64::from(most - least)) as i32,
            };
            let samples: Vec<i32> = (0..count).map(sample).collect();
            let tables = remulingka::Tables::new(bands as usize);
            let file = pack(&settings, Some(&tables), &samples).unwrap();
            let bound = longest_file(bands as usize, count as usize);
            assert!(file.len() <= bound, "{} of {bound}", file.len());
            longest = f64::max(longest, file.len() as f64 / bound as f64);
        }
    }
    assert!(longest > 0.6, "the bound is far from every file: {longest}");
}
