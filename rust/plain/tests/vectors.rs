//! The recorded calls of an independent program, and the command line on them.

use std::path::PathBuf;
use std::process::{Command, Output};

use plain::case::{parse_case, split_cases};

fn vectors() -> PathBuf {
    PathBuf::from(env!("CARGO_MANIFEST_DIR")).join("vectors")
}

/// Calls recorded once the limits were 4,096 bands and 2^28 samples.
fn larger_vectors() -> PathBuf {
    PathBuf::from(env!("CARGO_MANIFEST_DIR")).join("vectors-203")
}

fn plain(arguments: &[&str]) -> Output {
    Command::new(env!("CARGO_BIN_EXE_plain"))
        .args(arguments)
        .output()
        .expect("the program runs")
}

/// A directory of this test's own, emptied.
fn directory(name: &str) -> PathBuf {
    let path = PathBuf::from(env!("CARGO_TARGET_TMPDIR")).join(name);
    let _ = std::fs::remove_dir_all(&path);
    std::fs::create_dir_all(&path).expect("a directory");
    path
}

/// Answers the cases of a directory, and gives their count.
fn agreeing(vectors: PathBuf) -> usize {
    let mut agree = 0;
    for entry in std::fs::read_dir(vectors).expect("the vectors") {
        let path = entry.expect("an entry").path();
        let text = std::fs::read_to_string(&path).expect("a case");
        let (case, recorded) = parse_case(&text).expect("a case");
        assert!(!recorded.is_empty());
        assert_eq!(case.answer_text(), recorded, "{}", path.display());
        // The format is written as it is read, but for the requests that have landed.
        let text = text.replacen("\nstage 203\n", "\n", 1);
        assert_eq!(case.inputs_text() + &recorded, text);
        agree += 1;
    }
    agree
}

#[test]
fn all_400_vectors_agree() {
    assert_eq!(agreeing(vectors()), 400);
}

#[test]
fn all_150_vectors_of_larger_cubes_agree() {
    assert_eq!(agreeing(larger_vectors()), 150);
}

#[test]
fn the_command_line_checks_them() {
    let output = plain(&["check", vectors().to_str().expect("a path")]);
    assert!(output.status.success());
    assert_eq!(output.stdout, b"400 agree, 0 differ\n");
    let output = plain(&["check", larger_vectors().to_str().expect("a path")]);
    assert_eq!(output.stdout, b"150 agree, 0 differ\n");
}

#[test]
fn the_command_line_finds_a_difference() {
    let path = directory("planted");
    for (name, from, to) in [
        ("0000.case", "ok 32", "ok 33"),
        (
            "0002.case",
            "image_area_after untouched",
            "image_area_after zero",
        ),
        ("0004.case", "refused 9 12", "refused 9 13"),
        ("0014.case", "", ""),
    ] {
        let text = std::fs::read_to_string(vectors().join(name)).expect("a case");
        assert!(text.contains(from));
        std::fs::write(path.join(name), text.replacen(from, to, 1)).expect("a file");
    }
    let output = plain(&["check", path.to_str().expect("a path")]);
    assert_eq!(output.status.code(), Some(1));
    let text = String::from_utf8(output.stdout).expect("text");
    assert!(text.ends_with("\n1 agree, 3 differ\n"), "{text}");
    let nothing = directory("nothing");
    let output = plain(&["check", nothing.to_str().expect("a path")]);
    assert_eq!(output.status.code(), Some(1));
}

#[test]
fn the_command_line_answers_and_makes() {
    let case = vectors().join("0004.case");
    let output = plain(&["answer", case.to_str().expect("a path")]);
    assert_eq!(
        output.stdout,
        b"refused 9 12\ntable_area_after zero\nimage_area_after zero\n"
    );
    let path = directory("made");
    let made = plain(&["make", "7", "300", path.to_str().expect("a path")]);
    assert!(made.status.success());
    let output = plain(&["check", path.to_str().expect("a path")]);
    assert_eq!(output.stdout, b"300 agree, 0 differ\n");
    // The same seed makes the same cases, another seed others.
    let streamed = String::from_utf8(plain(&["make", "7", "300"]).stdout).expect("text");
    let cases = split_cases(&streamed);
    assert_eq!(cases.len(), 300);
    let last = std::fs::read_to_string(path.join("0299.case")).expect("a case");
    assert_eq!(cases[299], last);
    assert_ne!(plain(&["make", "8", "300"]).stdout, streamed.as_bytes());
    assert_eq!(plain(&["check"]).status.code(), Some(2));
}

#[test]
fn made_cases_meet_every_refusal_and_success() {
    let mut met = std::collections::BTreeSet::new();
    let mut random = plain::make::Random::new(11);
    for _ in 0..4000 {
        let answer = plain::make::random_case(&mut random).answer_text();
        assert!(!answer.contains("wrong"), "{answer}");
        let first = answer.lines().next().expect("a line");
        let mut words = first.split(' ');
        if words.next() == Some("refused") {
            met.insert(words.next().map(str::to_string));
        }
    }
    assert_eq!(met.len(), 12, "{met:?}");
}
