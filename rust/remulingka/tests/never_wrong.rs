//! Nothing leads in silence to wrong data: what exists is not replaced unasked, files
//! that do not belong together are never left under one name, and what could be read
//! in two ways is refused by name.

mod common;

use std::fs;
use std::os::unix::fs::{chown, symlink, MetadataExt, PermissionsExt};

use common::*;

/// Five columns, four rows and three bands, with fields of places and bands.
fn placed_header() -> String {
    USUAL.header()
        + "band names = {first, second, third}\nbbl = {1, 0, 1}\nx start = 1\ny start = 11\n\
           map info = {UTM, 1.0, 1.0, 500000.0, 6700000.0, 2.0, 2.0, 33, North, WGS-84}\n"
}

#[test]
fn nothing_that_exists_is_replaced_without_force() {
    let folder = folder("existing");
    USUAL.write(&folder, "image", sample(false));
    succeeds(&folder, &["pack", "image.hdr", "f.cube"]);
    let message = fails(&folder, FILE, &["pack", "image.hdr", "f.cube"]);
    assert!(
        message.contains("f.cube: this exists already; --force"),
        "{message}"
    );
    fs::remove_file(folder.join("f.cube")).unwrap();
    // A stored header without its cube is not replaced either, for it may be another's.
    let message = fails(&folder, FILE, &["pack", "image.hdr", "f.cube"]);
    assert!(
        message.contains("f.cube.envi: this exists already"),
        "{message}"
    );
    succeeds(&folder, &["pack", "image.hdr", "f.cube", "--force"]);
    for name in ["out.hdr", "out.img", "tables.txt", "p.png"] {
        fs::write(folder.join(name), "precious").unwrap();
    }
    fails(&folder, FILE, &["open", "f.cube", "out.hdr"]);
    fails(
        &folder,
        FILE,
        &["open", "f.cube", "new.hdr", "--data", "out.img"],
    );
    fails(
        &folder,
        FILE,
        &["open", "f.cube", "new.hdr", "--tables", "tables.txt"],
    );
    fails(&folder, FILE, &["picture", "f.cube", "p.png"]);
    succeeds(&folder, &["open", "f.cube", "out.hdr", "-f"]);
    succeeds(&folder, &["picture", "f.cube", "p.png", "--force"]);
    // The demonstration spares a folder of the user's own.
    fs::create_dir(folder.join("plot")).unwrap();
    fs::write(folder.join("plot/plot.hdr"), "mine").unwrap();
    fails(&folder, FILE, &["demo", "plot"]);
    assert_eq!(text(&folder, "plot/plot.hdr"), "mine");
    assert_eq!(fs::read_dir(folder.join("plot")).unwrap().count(), 1);
}

#[test]
fn read_only_files_are_not_replaced_and_modes_are_kept() {
    let folder = folder("modes");
    USUAL.write(&folder, "image", sample(false));
    fs::write(folder.join("f.cube"), "precious").unwrap();
    let mode = |mode| {
        let path = folder.join("f.cube");
        fs::set_permissions(path, fs::Permissions::from_mode(mode)).unwrap();
    };
    mode(0o444);
    fails(&folder, FILE, &["pack", "image.hdr", "f.cube"]);
    let message = fails(&folder, FILE, &["pack", "image.hdr", "f.cube", "--force"]);
    assert!(message.contains("f.cube: this is read-only"), "{message}");
    mode(0o640);
    succeeds(&folder, &["pack", "image.hdr", "f.cube", "--force"]);
    let metadata = fs::metadata(folder.join("f.cube")).unwrap();
    assert_eq!(metadata.permissions().mode() & 0o7777, 0o640);
    assert!(metadata.len() > 8);
}

#[test]
fn the_owner_is_kept() {
    let folder = folder("owner");
    USUAL.write(&folder, "image", sample(false));
    fs::write(folder.join("f.cube"), "another's").unwrap();
    // Only root can give files away.
    if chown(folder.join("f.cube"), Some(1234), Some(4321)).is_err() {
        return;
    }
    succeeds(&folder, &["pack", "image.hdr", "f.cube", "--force"]);
    let metadata = fs::metadata(folder.join("f.cube")).unwrap();
    assert_eq!((metadata.uid(), metadata.gid()), (1234, 4321));
}

#[test]
fn two_names_of_one_output_are_seen() {
    let folder = folder("one_output");
    USUAL.write(&folder, "image", sample(false));
    succeeds(&folder, &["pack", "image.hdr", "f.cube"]);
    fs::create_dir(folder.join("sub")).unwrap();
    for data in ["./a.hdr", "sub/../a.hdr", "a.hdr"] {
        let words = ["open", "f.cube", "a.hdr", "--data", data];
        assert!(
            fails(&folder, USAGE, &words).contains("two outputs"),
            "{data}"
        );
    }
    let message = fails(&folder, USAGE, &["pack", "image.hdr", "new.hdr"]);
    assert!(message.contains("does not end with .hdr"), "{message}");
}

#[test]
fn links_are_followed() {
    let folder = folder("links");
    USUAL.write(&folder, "image", sample(false));
    fs::create_dir(folder.join("far")).unwrap();
    symlink("far/nowhere.cube", folder.join("link.cube")).unwrap();
    succeeds(&folder, &["pack", "image.hdr", "link.cube"]);
    assert!(fs::symlink_metadata(folder.join("link.cube"))
        .unwrap()
        .is_symlink());
    succeeds(&folder, &["check", "far/nowhere.cube"]);
    // Now the link leads to something, which is not replaced unasked.
    fails(&folder, FILE, &["pack", "image.hdr", "link.cube"]);
    succeeds(
        &folder,
        &[
            "pack",
            "image.hdr",
            "link.cube",
            "--bare",
            "-q",
            "-f",
            "--user-data",
            "9",
        ],
    );
    assert!(fs::symlink_metadata(folder.join("link.cube"))
        .unwrap()
        .is_symlink());
    assert_eq!(bytes(&folder, "far/nowhere.cube")[0], 9);
    // The prover's gate refuses a checkout with a link in it, also below the target folder.
    fs::remove_file(folder.join("link.cube")).unwrap();
}

#[test]
fn the_original_is_never_put_under_another_header() {
    let folder = folder("original");
    // Data without an ending, as ENVI and AVIRIS have it.
    let layout = Layout {
        interleave: "bil",
        ..USUAL
    };
    fs::write(folder.join("A.hdr"), layout.header()).unwrap();
    fs::write(folder.join("A"), layout.data(sample(false))).unwrap();
    succeeds(&folder, &["pack", "A.hdr", "A.cube"]);
    fails(&folder, FILE, &["open", "A.cube", "A.hdr"]);
    let message = fails(&folder, FILE, &["open", "A.cube", "A.hdr", "--force"]);
    assert!(message.contains("other data lies beside it"), "{message}");
    assert!(message.contains(": A;"), "{message}");
    // The same data is its own, and may be replaced together with its header.
    let words = [
        "open",
        "A.cube",
        "A.hdr",
        "--data",
        "A",
        "--force",
        "--interleave",
        "bip",
    ];
    succeeds(&folder, &words);
    let by_pixel = Layout {
        interleave: "bip",
        ..USUAL
    };
    assert_eq!(bytes(&folder, "A"), by_pixel.data(sample(false)));
    assert!(text(&folder, "A.hdr").contains("nterleave = bip"));
}

#[test]
fn no_output_passes_for_the_data_of_another_header() {
    let folder = folder("passes");
    USUAL.write(&folder, "image", sample(false));
    USUAL.write(&folder, "other", |_, _, _| 7);
    succeeds(&folder, &["pack", "image.hdr", "f.cube"]);
    // New files beside a header that has data already.
    for output in ["other", "other.dat", "other.BIL"] {
        let message = fails(&folder, FILE, &["pack", "image.hdr", output]);
        assert!(
            message.contains("data of another header: other.hdr"),
            "{message}"
        );
        let words = ["open", "f.cube", "new.hdr", "--tables", output];
        fails(&folder, FILE, &words);
    }
    // Data of another header.
    let words = [
        "open",
        "f.cube",
        "new.hdr",
        "--data",
        "other.img",
        "--force",
    ];
    assert!(fails(&folder, FILE, &words).contains("data of another header: other.hdr"));
    // A header beside which other data lies, although its own goes elsewhere.
    let words = [
        "open",
        "f.cube",
        "other.hdr",
        "--data",
        "far.raw",
        "--force",
    ];
    assert!(fails(&folder, FILE, &words).contains("other data lies beside it"));
}

#[test]
fn two_files_that_could_be_the_data_are_refused() {
    let folder = folder("two");
    USUAL.write(&folder, "q", sample(false));
    fs::write(folder.join("q"), vec![0x55; 120]).unwrap();
    let message = fails(&folder, REFUSED, &["pack", "q.hdr", "q.cube"]);
    assert!(message.contains("more than one file"), "{message}");
    assert!(message.contains("q, q.img"), "{message}");
    fails(&folder, REFUSED, &["length", "q.hdr"]);
    succeeds(&folder, &["pack", "q.hdr", "q.cube", "--data", "q.img"]);
}

#[test]
fn data_that_is_too_long_is_refused() {
    let folder = folder("long");
    USUAL.write(&folder, "image", sample(false));
    let mut data = bytes(&folder, "image.img");
    data.push(0);
    fs::write(folder.join("image.img"), data).unwrap();
    let message = fails(&folder, REFUSED, &["pack", "image.hdr", "f.cube"]);
    assert!(
        message.contains("1 bytes more than its header says"),
        "{message}"
    );
    // Data that is named is taken, with a warning that --quiet does not silence.
    let words = [
        "pack",
        "image.hdr",
        "f.cube",
        "--data",
        "image.img",
        "--quiet",
    ];
    let output = remulingka(&folder, &words);
    assert_eq!(output.status.code(), Some(0));
    assert!(String::from_utf8_lossy(&output.stderr).contains("warning: image.img"));
}

#[test]
fn what_can_be_read_in_two_ways_is_refused_by_name() {
    let folder = folder("two_ways");
    USUAL.write(&folder, "image", sample(false));
    let with = |more: &str| {
        fs::write(folder.join("image.hdr"), USUAL.header() + more).unwrap();
        fails(&folder, REFUSED, &["pack", "image.hdr", "f.cube"])
    };
    let message = with("byte order = 1\n");
    assert!(
        message.contains("byte order is given twice, as 0 and as 1"),
        "{message}"
    );
    let message = with("Wavelength = {4, 5, 6}\n");
    assert!(message.contains("wavelength is given twice"), "{message}");
    let message = with("file compression = 1\n");
    assert!(message.contains("file compression = 1"), "{message}");
    let message = with("major frame offsets = {0, 16}\n");
    assert!(message.contains("major frame offsets"), "{message}");
    let header = USUAL.header().replace("ENVI Standard", "TIFF");
    fs::write(folder.join("image.hdr"), header).unwrap();
    let message = fails(&folder, REFUSED, &["pack", "image.hdr", "f.cube"]);
    assert!(message.contains("file type = TIFF"), "{message}");
    // By the first closing brace offset 2 is a field, by counting it is not.
    let inside = "remark = {a {b}\nheader offset = 0\n}\n";
    fs::write(
        folder.join("image.hdr"),
        USUAL.header().replace("header offset = 0\n", "") + &inside.replace("= 0", "= 2"),
    )
    .unwrap();
    let message = fails(&folder, REFUSED, &["pack", "image.hdr", "f.cube"]);
    assert!(message.contains("in two ways"), "{message}");
    // The same value twice, and braces that change nothing, are taken.
    let text = USUAL.header() + "byte order = 0\nfile compression = 0\n" + inside;
    fs::write(folder.join("image.hdr"), text).unwrap();
    succeeds(&folder, &["pack", "image.hdr", "f.cube"]);
}

#[test]
fn spellings_that_others_read_are_read() {
    let folder = folder("spellings");
    USUAL.write(&folder, "image", sample(false));
    let expected = {
        succeeds(&folder, &["pack", "image.hdr", "f.cube"]);
        bytes(&folder, "f.cube")
    };
    let header = USUAL.header();
    let spellings = [
        header.replace("samples = 5", "samples = 5 ; columns"),
        header.replace("wavelength = {", "wavelength =\n{"),
        header.replace("description = {", "description = {a {b} c"),
        header.replace('\n', "\r\n"),
        header.replace("data type", "DATA   Type"),
    ];
    for (index, changed) in spellings.iter().enumerate() {
        fs::write(folder.join("image.hdr"), changed).unwrap();
        let cube = format!("f{index}.cube");
        succeeds(&folder, &["pack", "image.hdr", &cube]);
        assert_eq!(bytes(&folder, &cube), expected, "{changed}");
    }
}

#[test]
fn tables_are_asked_for_and_given_together() {
    let folder = folder("asked");
    USUAL.write(&folder, "image", sample(false));
    let pack = |options: &[&str]| {
        fails(
            &folder,
            USAGE,
            &[&["pack", "image.hdr", "f"], options].concat(),
        )
    };
    assert!(pack(&["--weights", "7"]).contains("weights 7 takes its values from a table"));
    assert!(pack(&["--initial-k", "table"]).contains("initial-k table takes its values"));
    fs::write(folder.join("tables.txt"), "0 ".repeat(19)).unwrap();
    assert!(pack(&["--tables", "tables.txt"]).contains("no setting uses it"));
    fs::write(folder.join("same.txt"), "weights = 5\n").unwrap();
    assert!(pack(&["--settings", "same.txt"]).contains("--tables FILE"));
}

#[test]
fn like_refuses_other_sizes_and_cuts_a_window() {
    let folder = folder("like_window");
    USUAL.write(&folder, "image", sample(false));
    fs::write(folder.join("image.hdr"), placed_header()).unwrap();
    let window = ["--rows", "1:4", "--columns", "2:5", "--take-bands", "1:3"];
    let words = [&["pack", "image.hdr", "w.cube"], &window[..]].concat();
    succeeds(&folder, &words);
    let like = ["open", "w.cube", "w.hdr", "--like", "image.hdr"];
    let message = fails(&folder, REFUSED, &like);
    assert!(
        message.contains(
            "5 columns, 4 rows and 3 bands, and the cube has 3 columns, 3 rows and 2 bands"
        ),
        "{message}"
    );
    // A window of other sizes than the cube's is refused too.
    fails(&folder, REFUSED, &[&like[..], &["--rows", "1:4"]].concat());
    succeeds(&folder, &[&like[..], &window[..]].concat());
    let envi = Envi::read(&folder, "w").unwrap();
    assert_eq!(envi.field("wavelength"), "{2.0, 3.0}");
    assert_eq!(envi.field("band names"), "{second, third}");
    assert_eq!(envi.field("bbl"), "{0, 1}");
    assert_eq!((envi.field("x start"), envi.field("y start")), ("3", "12"));
    assert_eq!(
        envi.field("map info"),
        "{UTM, -1, 0, 500000.0, 6700000.0, 2.0, 2.0, 33, North, WGS-84}"
    );
    assert_eq!(envi.samples[0], sample(false)(1, 1, 2));
}

#[test]
fn a_cube_that_is_not_what_was_packed_is_noticed() {
    let folder = folder("changed");
    USUAL.write(&folder, "image", sample(false));
    succeeds(&folder, &["pack", "image.hdr", "f.cube"]);
    let file = bytes(&folder, "f.cube");
    let mut opened = 0;
    for bit in 0..8 * file.len() {
        let mut changed = file.clone();
        changed[bit / 8] ^= 1 << (bit % 8);
        fs::write(folder.join("f.cube"), &changed).unwrap();
        let output = remulingka(&folder, &["check", "f.cube"]);
        assert_eq!(output.status.code(), Some(REFUSED), "bit {bit}");
        opened += u32::from(output.stdout.starts_with(b"CHANGED f.cube: opens"));
    }
    // The format alone does not notice a good part of them.
    assert!(opened > 100, "{opened}");
    let mut changed = file.clone();
    // A bit of the user's byte, which every file may have otherwise.
    changed[0] ^= 1;
    fs::write(folder.join("f.cube"), &changed).unwrap();
    let message = fails(&folder, REFUSED, &["open", "f.cube", "again.hdr"]);
    assert!(message.contains("not those that were packed"), "{message}");
    fails(&folder, REFUSED, &["picture", "f.cube", "p.png"]);
    succeeds(&folder, &["open", "f.cube", "again.hdr", "--no-stored"]);
    // The stored header of another cube is not taken for this one's.
    USUAL.write(&folder, "other", |band, _, _| band as i32);
    succeeds(&folder, &["pack", "other.hdr", "g.cube"]);
    fs::copy(folder.join("f.cube.envi"), folder.join("g.cube.envi")).unwrap();
    fails(&folder, REFUSED, &["open", "g.cube", "other_again.hdr"]);
    fs::write(folder.join("g.cube.envi"), "ENVI\nsamples = 5\n").unwrap();
    let message = fails(&folder, REFUSED, &["open", "g.cube", "other_again.hdr"]);
    assert!(
        message.contains("g.cube.envi: ") && message.contains("--no-stored"),
        "{message}"
    );
    let output = remulingka(&folder, &["check", "g.cube"]);
    assert!(String::from_utf8_lossy(&output.stdout).starts_with("REFUSED g.cube.envi"));
}

#[test]
fn a_bare_cube_takes_an_older_stored_header_away() {
    let folder = folder("bare");
    USUAL.write(&folder, "image", sample(false));
    succeeds(&folder, &["pack", "image.hdr", "f.cube"]);
    assert!(folder.join("f.cube.envi").is_file());
    succeeds(
        &folder,
        &[
            "pack",
            "image.hdr",
            "f.cube",
            "--bare",
            "-f",
            "-q",
            "--user-data",
            "3",
        ],
    );
    assert!(!folder.join("f.cube.envi").exists());
    assert!(succeeds(&folder, &["check", "f.cube"]).contains("no sum is stored"));
}
