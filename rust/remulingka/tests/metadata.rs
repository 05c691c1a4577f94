//! The fields of an ENVI header are kept beside the cube and come back unasked; where
//! one is dropped, a line says so.

mod common;

use std::fs;

use common::*;

/// Fields of many kinds, one of them with bytes that are not UTF-8.
fn fields() -> Vec<u8> {
    let text = "; a remark = nothing\nwavelength units = Micrometers\nfwhm = {.1, .2, .3}\n\
        bbl = {1, 0, 1}\nband names = {first, second band, third}\nx start = 1\ny start = 11\n\
        map info = {UTM, 1.0, 1.0, 500000.0, 6700000.0, 2.0, 2.0, 33, North, WGS-84}\n\
        coordinate system string = {PROJCS[\"a\", GEOGCS[\"b\"]]}\ndata ignore value = -9999\n\
        default bands = {3, 2, 1}\nplace = D";
    [text.as_bytes(), b"\xfcsseldorf\n"].concat()
}

fn write_image(folder: &std::path::Path, layout: &Layout) -> Vec<u8> {
    layout.write(folder, "image", sample(layout.data_type == 2));
    let header = [layout.header().as_bytes(), &fields()].concat();
    fs::write(folder.join("image.hdr"), &header).unwrap();
    header
}

#[test]
fn header_and_data_come_back_byte_for_byte() {
    let folder = folder("back");
    for data_type in [1, 2, 3, 12, 13] {
        for interleave in ["bsq", "bil", "bip"] {
            for byte_order in [0, 1] {
                let layout = Layout {
                    data_type,
                    interleave,
                    byte_order,
                    offset: 0,
                };
                let header = write_image(&folder, &layout);
                let name = format!("{data_type}{interleave}{byte_order}");
                let named = |ending: &str| format!("{name}.{ending}");
                succeeds(&folder, &["pack", "image.hdr", &named("cube")]);
                let line = succeeds(&folder, &["open", &named("cube"), &named("hdr")]);
                assert_eq!(bytes(&folder, &named("img")), bytes(&folder, "image.img"));
                assert_eq!(bytes(&folder, &named("hdr")), header, "{layout:?}");
                assert!(line.contains("fields as in"), "{line}");
            }
        }
    }
}

#[test]
fn the_offset_is_not_kept_for_the_data_has_none() {
    let folder = folder("offset");
    let layout = Layout {
        offset: 17,
        ..USUAL
    };
    write_image(&folder, &layout);
    succeeds(&folder, &["pack", "image.hdr", "f.cube"]);
    succeeds(&folder, &["open", "f.cube", "again.hdr"]);
    assert_eq!(bytes(&folder, "again.img"), USUAL.data(sample(false)));
    let again = Envi::read(&folder, "again").unwrap();
    assert_eq!(again.field("header offset"), "0");
    assert_eq!(again.field("place"), "D\u{fc}sseldorf");
}

#[test]
fn a_part_has_its_own_wavelengths_and_its_own_place() {
    let folder = folder("part");
    write_image(&folder, &USUAL);
    let window = ["--rows", "1:3", "--columns", "2:5", "--take-bands", "1:3"];
    // Band 1 of the default bands is not in the part, so they are left out by name.
    let output = remulingka(
        &folder,
        &[&["pack", "image.hdr", "w.cube"], &window[..]].concat(),
    );
    let errors = String::from_utf8_lossy(&output.stderr).into_owned();
    assert_eq!(output.status.code(), Some(0), "{errors}");
    assert!(
        errors.ends_with("cut from them: default bands\n"),
        "{errors}"
    );
    succeeds(&folder, &["open", "w.cube", "w.hdr"]);
    let part = Envi::read(&folder, "w").unwrap();
    for (name, value) in [
        ("samples", "3"),
        ("lines", "2"),
        ("bands", "2"),
        ("wavelength", "{2.0, 3.0}"),
        ("fwhm", "{.2, .3}"),
        ("bbl", "{0, 1}"),
        ("band names", "{second band, third}"),
        ("x start", "3"),
        ("y start", "12"),
        (
            "map info",
            "{UTM, -1, 0, 500000.0, 6700000.0, 2.0, 2.0, 33, North, WGS-84}",
        ),
        ("data ignore value", "-9999"),
    ] {
        assert_eq!(part.field(name), value, "{name}");
    }
    assert_eq!(part.samples[0], sample(false)(1, 1, 2));
    assert_eq!(part.field("default bands"), "");
}

#[test]
fn a_line_says_what_is_dropped() {
    let folder = folder("dropped");
    write_image(&folder, &USUAL);
    for words in [
        &["pack", "image.hdr", "-"][..],
        &["pack", "image.hdr", "f.cube", "--bare"],
    ] {
        let output = remulingka(&folder, words);
        let errors = String::from_utf8_lossy(&output.stderr).into_owned();
        assert_eq!(output.status.code(), Some(0), "{errors}");
        for name in ["description", "wavelength", "map info", "band names"] {
            assert!(errors.contains(name), "{errors}");
        }
    }
    assert!(!folder.join("f.cube.envi").exists());
    let line = succeeds(&folder, &["open", "f.cube", "again.hdr"]);
    assert!(line.contains("no stored header"), "{line}");
}

#[test]
fn the_stored_header_is_no_header_of_the_packed_bytes() {
    // A file whose name ends with .hdr would make other programs read the cube as data.
    let folder = folder("no_trap");
    write_image(&folder, &USUAL);
    succeeds(&folder, &["pack", "image.hdr", "f.cube"]);
    let names: Vec<String> = contents(&folder)
        .into_iter()
        .map(|(name, _)| name)
        .collect();
    assert_eq!(names, ["f.cube", "f.cube.envi", "image.hdr", "image.img"]);
    // It is itself a header of the raw image.
    fs::copy(folder.join("f.cube.envi"), folder.join("raw.hdr")).unwrap();
    fs::copy(folder.join("image.img"), folder.join("raw.img")).unwrap();
    let raw = Envi::read(&folder, "raw").unwrap();
    assert_eq!(raw.samples, Envi::read(&folder, "image").unwrap().samples);
    succeeds(&folder, &["pack", "raw.hdr", "raw.cube"]);
    assert_eq!(bytes(&folder, "raw.cube"), bytes(&folder, "f.cube"));
    assert_eq!(
        bytes(&folder, "raw.cube.envi"),
        bytes(&folder, "f.cube.envi")
    );
}
