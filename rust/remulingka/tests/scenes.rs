//! Scenes larger than one cube: packed in parts that know their place, and joined.

mod common;

use std::fs;
use std::path::Path;

use common::*;

const WIDE: usize = 1024;
const TALL: usize = 2500;

/// A scene of 1,024 columns and 2,500 rows of all bands together, with a map.
fn write_scene(folder: &Path, interleave: &str, bands: usize) -> Vec<u8> {
    let rows = TALL / bands;
    let header = format!(
        "ENVI\nsamples = {WIDE}\nlines = {rows}\nbands = {bands}\ndata type = 12\n\
         interleave = {interleave}\nbyte order = 1\nmap info = {{UTM, 1, 1, 10, 20, 2, 2}}\n"
    );
    fs::write(folder.join("scene.hdr"), header).unwrap();
    let data: Vec<u8> = (0..WIDE * rows * bands)
        .flat_map(|index| ((index * index / 1000 % 4096) as u16).to_be_bytes())
        .collect();
    fs::write(folder.join("scene.img"), &data).unwrap();
    data
}

#[test]
fn a_scene_goes_into_parts_and_comes_back() {
    for (interleave, bands) in [("bsq", 1), ("bsq", 5), ("bil", 5), ("bip", 5)] {
        let folder = folder(&format!("scene_{interleave}_{bands}"));
        let data = write_scene(&folder, interleave, bands);
        let rows = (1000 / bands).to_string();
        let words = ["pack", "scene.hdr", "scene.cube", "--split", &rows];
        let line = succeeds(&folder, &words);
        assert!(
            line.contains("scene.0001.cube to scene.0003.cube: 3 parts"),
            "{line}"
        );
        let parts = ["scene.0003.cube", "scene.0001.cube", "scene.0002.cube"];
        let words = [&["open", "--join"], &parts[..], &["again.hdr"]].concat();
        let line = succeeds(&folder, &words);
        assert!(line.contains("3 parts joined"), "{line}");
        assert!(bytes(&folder, "again.img") == data, "{interleave}");
        let [header, again] = ["scene.hdr", "again.hdr"].map(|name| text(&folder, name));
        assert!(again.starts_with(&header), "{again}");
        // Another layout than the scene's.
        let other = [&words[..], &["--interleave", "bip", "--byte-order=0", "-f"]].concat();
        succeeds(&folder, &other);
        let whole = Envi::read(&folder, "scene").unwrap();
        assert!(Envi::read(&folder, "again").unwrap().samples == whole.samples);
    }
}

#[test]
fn each_part_knows_its_place() {
    let folder = folder("places");
    USUAL.write(&folder, "image", sample(false));
    let header = USUAL.header() + "map info = {UTM, 1, 1, 10, 20, 2, 2}\ny start = 5\n";
    fs::write(folder.join("image.hdr"), header).unwrap();
    succeeds(&folder, &["pack", "image.hdr", "s.cube", "--split", "3"]);
    succeeds(&folder, &["open", "s.0002.cube", "last.hdr"]);
    let last = Envi::read(&folder, "last").unwrap();
    assert_eq!((last.field("lines"), last.field("y start")), ("1", "8"));
    assert_eq!(last.field("map info"), "{UTM, 1, -2, 10, 20, 2, 2}");
    assert_eq!(last.samples[0], sample(false)(0, 3, 0));
    // The rows of a window are split and joined as they are.
    succeeds(
        &folder,
        &[
            "pack",
            "image.hdr",
            "w.cube",
            "--rows",
            "1:4",
            "--split",
            "2",
        ],
    );
    succeeds(
        &folder,
        &["open", "--join", "w.0001.cube", "w.0002.cube", "w.hdr"],
    );
    let window = Envi::read(&folder, "w").unwrap();
    assert_eq!((window.field("lines"), window.field("y start")), ("3", "6"));
    assert_eq!(window.samples[5], sample(false)(0, 2, 0));
}

#[test]
fn parts_that_do_not_make_the_scene_are_refused() {
    let folder = folder("refused_parts");
    USUAL.write(&folder, "image", sample(false));
    USUAL.write(&folder, "other", |_, _, _| 9);
    succeeds(&folder, &["pack", "image.hdr", "s.cube", "--split", "1"]);
    succeeds(&folder, &["pack", "other.hdr", "t.cube", "--split", "1"]);
    succeeds(&folder, &["pack", "image.hdr", "whole.cube"]);
    let join = |parts: &[&str]| {
        let words = [&["open", "--join"], parts, &["out.hdr"]].concat();
        fails(&folder, REFUSED, &words)
    };
    let all = ["s.0001.cube", "s.0002.cube", "s.0003.cube", "s.0004.cube"];
    assert!(join(&[all[0], all[2], all[3]]).contains("rows 1:2 before it are missing"));
    assert!(join(&all[1..]).contains("rows 0:1 before it are missing"));
    assert!(join(&all[..3]).contains("rows 3:4 behind it are missing"));
    assert!(join(&[all[0], all[0]]).contains("rows 0:1 before it are there twice"));
    let mixed = join(&[all[0], all[1], "t.0003.cube", all[3]]);
    assert!(
        mixed.contains("t.0003.cube: this is of another scene"),
        "{mixed}"
    );
    assert!(join(&["whole.cube"]).contains("no part that pack --split made"));
    // A part that was changed since.
    let mut part = bytes(&folder, all[2]);
    part[0] ^= 1;
    fs::write(folder.join(all[2]), part).unwrap();
    assert!(join(&all).contains("not those that were packed"));
    fs::remove_file(folder.join("s.0002.cube.envi")).unwrap();
    assert!(join(&all).contains("s.0002.cube: it has no stored header"));
    for wrong in ["0", "x", "-1"] {
        fails(
            &folder,
            USAGE,
            &["pack", "image.hdr", "u.cube", "--split", wrong],
        );
    }
    fails(&folder, USAGE, &["pack", "image.hdr", "-", "--split", "1"]);
}

/// The most memory that a run had, in KiB.
fn most_memory(folder: &Path, words: &[&str]) -> u64 {
    let mut all = vec![
        "-f",
        "%M",
        program().to_str().unwrap_or("").to_string().leak(),
    ];
    all.extend(words);
    let time = std::process::Command::new("/usr/bin/time")
        .args(all)
        .current_dir(folder)
        .output();
    let Ok(output) = time else { return 0 };
    let errors = String::from_utf8_lossy(&output.stderr).into_owned();
    errors
        .trim()
        .lines()
        .last()
        .and_then(|line| line.parse().ok())
        .unwrap_or(0)
}

#[test]
fn memory_holds_one_part_and_no_second_copy() {
    let folder = folder("memory");
    // Eight parts of 4 MiB each as they are lent.
    let header = "ENVI\nsamples = 1024\nlines = 8192\nbands = 1\ndata type = 1\n";
    fs::write(folder.join("scene.hdr"), header).unwrap();
    let data: Vec<u8> = (0..8 << 20)
        .map(|index: u32| (index.wrapping_mul(index) >> 9) as u8)
        .collect();
    fs::write(folder.join("scene.img"), data).unwrap();
    let packing = most_memory(
        &folder,
        &["pack", "scene.hdr", "s.cube", "--split", "1024", "-q"],
    );
    let parts: Vec<String> = (1..=8).map(|part| format!("s.000{part}.cube")).collect();
    let parts: Vec<&str> = parts.iter().map(String::as_str).collect();
    let joining = most_memory(
        &folder,
        &[&["open", "--join", "-q"], &parts[..], &["j.hdr"]].concat(),
    );
    assert!(folder.join("j.img").is_file() || packing == 0);
    for (what, most) in [("packing", packing), ("joining", joining)] {
        // Samples, the packed bytes, and the program itself.
        assert!(most < 14 << 10, "{what} took {most} KiB");
    }
}
