//! The calls that yet another program answered, made of the archive.

use std::fs;
use std::path::Path;

use differential::compare::compare;
use differential::inputs::from_case;
use plain::case::parse_case;
use plain::make::Random;

/// Makes the recorded calls of a folder, and gives their count.
fn made_of(folder: &str) -> usize {
    let folder = Path::new(env!("CARGO_MANIFEST_DIR"))
        .join("../plain")
        .join(folder);
    let mut random = Random::new(1);
    let mut count = 0;
    for entry in fs::read_dir(folder).unwrap() {
        let path = entry.unwrap().path();
        let text = fs::read_to_string(&path).unwrap();
        let (case, recorded) = parse_case(&text).unwrap();
        // The recorded answer is the plain program's, and this the archive's.
        assert_eq!(case.answer_text(), recorded, "{}", path.display());
        let call = from_case(case.call, &mut random);
        let outcome = compare(&call, &mut random);
        let differences = outcome.differences.join("; ");
        assert!(differences.is_empty(), "{}: {differences}", path.display());
        count += 1;
    }
    count
}

#[test]
fn the_archive_answers_the_recorded_calls_as_recorded() {
    assert_eq!(made_of("vectors"), 400);
}

#[test]
fn the_archive_answers_the_recorded_calls_on_larger_cubes_as_recorded() {
    assert_eq!(made_of("vectors-203"), 150);
}
