//! The command line end to end, on ENVI images of every layout.

mod common;

use std::fs;

use remulingka::limits::house_limits;
use remulingka::MOST_SAMPLES;

use common::{folder, remulingka, sample, Layout, BANDS, FILE, REFUSED, USAGE, USUAL};

/// The words with `--force` where a command writes: these tests write to one name
/// after another time, and what happens without it has tests of its own.
fn forced<'a>(words: &[&'a str]) -> Vec<&'a str> {
    let mut words = words.to_vec();
    if ["pack", "open", "picture"].contains(words.first().unwrap_or(&"")) {
        words.insert(1, "--force");
    }
    words
}

fn succeeds(folder: &std::path::Path, words: &[&str]) -> String {
    common::succeeds(folder, &forced(words))
}

fn fails(folder: &std::path::Path, status: i32, words: &[&str]) -> String {
    common::fails(folder, status, &forced(words))
}

#[test]
fn every_layout_packs_and_opens() {
    let folder = folder("layouts");
    for (data_type, is_signed) in [(1, false), (2, true), (3, true), (12, false), (13, false)] {
        let mut first_file = None;
        for interleave in ["bsq", "bil", "bip"] {
            for (byte_order, offset) in [(0, 0), (1, 0), (0, 7), (1, 512)] {
                let layout = Layout {
                    data_type,
                    interleave,
                    byte_order,
                    offset,
                };
                layout.write(&folder, "image", sample(is_signed));
                succeeds(&folder, &["pack", "image.hdr", "image.cube"]);
                // The packed file does not depend on how the image lay.
                let file = fs::read(folder.join("image.cube")).unwrap();
                assert_eq!(&file, first_file.get_or_insert(file.clone()), "{layout:?}");
                succeeds(
                    &folder,
                    &[
                        "open",
                        "image.cube",
                        "again.hdr",
                        "--interleave",
                        interleave,
                        "--type",
                        &data_type.to_string(),
                        &format!("--byte-order={byte_order}"),
                    ],
                );
                let again = fs::read(folder.join("again.img")).unwrap();
                assert_eq!(again, layout.data(sample(is_signed)), "{layout:?}");
                // And the header that was written says the same.
                succeeds(&folder, &["pack", "again.hdr", "again.cube"]);
                assert_eq!(fs::read(folder.join("again.cube")).unwrap(), file);
            }
        }
    }
}

#[test]
fn open_like_another_header_keeps_its_fields() {
    let folder = folder("like");
    let layout = Layout {
        interleave: "bip",
        byte_order: 1,
        data_type: 3,
        ..USUAL
    };
    layout.write(&folder, "image", sample(true));
    succeeds(&folder, &["pack", "image.hdr", "image.cube"]);
    let words = ["open", "image.cube", "again.hdr", "--like", "image.hdr"];
    succeeds(&folder, &words);
    let again = fs::read(folder.join("again.img")).unwrap();
    assert_eq!(again, layout.data(sample(true)));
    let header = fs::read_to_string(folder.join("again.hdr")).unwrap();
    assert!(
        header.contains("wavelength = {\n 1.0,\n 2.0, 3.0}"),
        "{header}"
    );
    assert!(header.contains("Interleave = bip"), "{header}");
    assert_eq!(header.matches("file type").count(), 1, "{header}");
}

#[test]
fn the_usual_data_type_is_the_smallest() {
    let folder = folder("types");
    for (data_type, depth, is_signed, expected) in [
        (12, "8", false, 1),
        (12, "9", false, 12),
        (2, "9", true, 2),
        (3, "16", true, 2),
    ] {
        let layout = Layout { data_type, ..USUAL };
        layout.write(&folder, "image", sample(is_signed));
        succeeds(&folder, &["pack", "image.hdr", "f", "--depth", depth]);
        succeeds(&folder, &["open", "f", "again.hdr", "--no-stored"]);
        let header = fs::read_to_string(folder.join("again.hdr")).unwrap();
        assert!(
            header.contains(&format!("data type = {expected}\n")),
            "{header}"
        );
        assert!(header.contains("file type = ENVI Standard\n"), "{header}");
    }
}

#[test]
fn depth_and_sign_by_option() {
    let folder = folder("depth");
    USUAL.write(&folder, "image", sample(false));
    // The greatest sample is 120 + 39 + 8 = 167.
    succeeds(&folder, &["pack", "image.hdr", "f", "--depth", "least"]);
    assert!(succeeds(&folder, &["look", "f"]).contains("depth                   D     8\n"));
    let words = [
        "pack",
        "image.hdr",
        "f",
        "--depth",
        "least",
        "--signed",
        "yes",
    ];
    succeeds(&folder, &words);
    assert!(succeeds(&folder, &["look", "f"]).contains("depth                   D     9\n"));
    Layout {
        data_type: 2,
        ..USUAL
    }
    .write(&folder, "image", sample(true));
    let message = fails(
        &folder,
        REFUSED,
        &["pack", "image.hdr", "f", "--signed", "no"],
    );
    assert!(message.contains("refusal 2"), "{message}");
    assert!(
        message.contains("-37 at band 0, row 0, column 0"),
        "{message}"
    );
}

#[test]
fn windows_are_packed_as_images_of_their_own() {
    let folder = folder("windows");
    for interleave in ["bsq", "bil", "bip"] {
        let layout = Layout {
            interleave,
            ..USUAL
        };
        layout.write(&folder, "image", sample(false));
        let window = [
            "--rows=1:3",
            "--columns=2:5",
            "--take-bands=1:3",
            "--depth=12",
        ];
        succeeds(
            &folder,
            &[&["pack", "image.hdr", "f"], &window[..]].concat(),
        );
        succeeds(&folder, &["open", "f", "part.hdr", "--interleave", "bsq"]);
        let data = fs::read(folder.join("part.img")).unwrap();
        let mut expected = Vec::new();
        for band in 1..3 {
            for row in 1..3 {
                for column in 2..5 {
                    expected.extend((sample(false)(band, row, column) as u16).to_le_bytes());
                }
            }
        }
        assert_eq!(data, expected);
    }
    let message = fails(&folder, USAGE, &["pack", "image.hdr", "g", "--rows", "2:5"]);
    assert!(
        message.contains("--rows 2:5: there are only 4"),
        "{message}"
    );
}

#[test]
fn settings_by_option_by_file_and_from_a_file() {
    let folder = folder("settings");
    USUAL.write(&folder, "image", sample(false));
    let options = "--user-data 7 --depth 9 --order 2 --word-size 4 --prediction-bands 2 \
                   --mode reduced --sums column --register-size 40 --weight-resolution 10 \
                   --change-interval 256 --exponent-initial -3 --exponent-final 5 \
                   --unary-limit 20 --rescaling-counter-size 8 --initial-count-exponent 2 \
                   --initial-k 3";
    let options: Vec<&str> = options.split_whitespace().collect();
    succeeds(
        &folder,
        &[&["pack", "image.hdr", "f"], &options[..]].concat(),
    );
    let text = succeeds(&folder, &["look", "f", "--as-settings"]);
    for pair in options.chunks(2) {
        let line = format!("{} = {}\n", &pair[0][2..], pair[1]);
        assert!(text.contains(&line), "{line} is not in\n{text}");
    }
    fs::write(folder.join("same.txt"), &text).unwrap();
    let words = ["pack", "image.hdr", "g", "--settings", "same.txt"];
    succeeds(&folder, &words);
    assert_eq!(
        fs::read(folder.join("f")).unwrap(),
        fs::read(folder.join("g")).unwrap()
    );
    // Options come after the file.
    succeeds(&folder, &[&words[..], &["--user-data", "8"]].concat());
    assert_eq!(fs::read(folder.join("g")).unwrap()[0], 8);
    fs::write(folder.join("bad.txt"), "# a remark\nword-size 4\n").unwrap();
    let message = fails(
        &folder,
        USAGE,
        &["pack", "image.hdr", "h", "--settings", "bad.txt"],
    );
    assert!(message.contains("bad.txt, line 2"), "{message}");
    fs::write(folder.join("bad.txt"), "wordsize = 4\n").unwrap();
    let message = fails(
        &folder,
        USAGE,
        &["pack", "image.hdr", "h", "--settings", "bad.txt"],
    );
    assert!(message.contains("no setting wordsize"), "{message}");
}

#[test]
fn tables_go_in_and_come_out() {
    let folder = folder("tables");
    USUAL.write(&folder, "image", sample(false));
    let mut text = String::from("# weights, then k'\n");
    for band in 0..BANDS {
        let weight = |component| match component < 3 + band {
            true => (component as i32 - 2).to_string(),
            false => "0".to_string(),
        };
        let mut words: Vec<String> = (0..18).map(weight).collect();
        words.push((band + 1).to_string());
        text.push_str(&(words.join(" ") + "\n"));
    }
    fs::write(folder.join("tables.txt"), &text).unwrap();
    let pack = ["pack", "image.hdr", "f", "--weights", "4", "--initial-k"];
    let words = [&pack[..], &["table", "--tables", "tables.txt"]].concat();
    succeeds(&folder, &words);
    succeeds(&folder, &["open", "f", "again.hdr", "--tables", "out.txt"]);
    let numbers = |text: &str| -> Vec<i32> {
        let lines = text.lines().filter(|line| !line.starts_with('#'));
        lines
            .flat_map(str::split_whitespace)
            .map(|word| word.parse().unwrap())
            .collect()
    };
    let out = fs::read_to_string(folder.join("out.txt")).unwrap();
    assert_eq!(numbers(&out), numbers(&text));
    // Too few bands, a value out of range, a line too short.
    let two: String = text
        .lines()
        .take(3)
        .map(|line| format!("{line}\n"))
        .collect();
    fs::write(folder.join("tables.txt"), two).unwrap();
    assert!(fails(&folder, REFUSED, &words).contains("refusal 5"));
    fs::write(folder.join("tables.txt"), text.replace("-2 -1", "-9 -1")).unwrap();
    let message = fails(&folder, REFUSED, &words);
    assert!(message.contains("weight 0 of band 0 is -9"), "{message}");
    fs::write(folder.join("tables.txt"), "1 2 3\n").unwrap();
    assert!(fails(&folder, REFUSED, &words).contains("line 1"));
}

#[test]
fn length_is_the_length_of_the_file() {
    let folder = folder("length");
    USUAL.write(&folder, "image", sample(false));
    for options in [&[][..], &["--word-size", "8"], &["--prediction-bands", "0"]] {
        let counted = succeeds(&folder, &[&["length", "image.hdr"], options].concat());
        succeeds(&folder, &[&["pack", "image.hdr", "f"], options].concat());
        let length = fs::read(folder.join("f")).unwrap().len();
        assert_eq!(counted, format!("{length}\n"));
    }
}

#[test]
fn refusals_of_pack_leave_nothing_behind() {
    let folder = folder("refusals");
    USUAL.write(&folder, "image", sample(false));
    fs::write(folder.join("old"), "an older file").unwrap();
    for (options, number, words) in [
        // 60 · 2 + 13 · row + 2 · column is over 127 first at row 0, column 4.
        (&["--depth", "7"][..], 2, "128 at band 2, row 0, column 4"),
        (&["--depth", "17"], 1, "depth is 17 and must be 2 to 16"),
        (&["--prediction-bands", "16"], 1, "prediction-bands is 16"),
        (&["--order", "4"], 1, "must be 1 to 3"),
        (&["--word-size", "-1"], 1, "word-size is -1"),
        (&["--initial-k", "15"], 1, "initial-k is 15"),
        (&["--user-data", "256"], 1, "user-data is 256"),
    ] {
        let message = fails(
            &folder,
            REFUSED,
            &[&["pack", "image.hdr", "old"], options].concat(),
        );
        assert!(
            message.contains(&format!("refusal {number}: ")),
            "{message}"
        );
        assert!(message.contains("image.img"), "{message}");
        assert!(message.contains(words), "{message}");
        fails(
            &folder,
            REFUSED,
            &[&["pack", "image.hdr", "new"], options].concat(),
        );
        fails(
            &folder,
            REFUSED,
            &[&["length", "image.hdr"], options].concat(),
        );
    }
}

#[test]
fn an_image_over_the_house_limits_is_refused_and_can_be_packed_in_parts() {
    let folder = folder("large");
    let rows = MOST_SAMPLES / 65_536 + 1;
    let header = format!("ENVI\nsamples = 65536\nlines = {rows}\nbands = 1\ndata type = 1\n");
    fs::write(folder.join("large.hdr"), header).unwrap();
    // Zeros that take no room on the disk.
    let data = fs::File::create(folder.join("large.dat")).unwrap();
    data.set_len(65_536 * rows as u64).unwrap();
    let message = fails(&folder, REFUSED, &["pack", "large.hdr", "f"]);
    assert!(message.contains("refusal 4"), "{message}");
    let sizes = format!("{} samples in 1 band;", 65_536 * rows);
    assert!(message.contains(&sizes), "{message}");
    assert!(message.contains(&house_limits()), "{message}");
    assert!(message.contains("--split"), "{message}");
    assert!(message.contains("--rows"), "{message}");
    succeeds(&folder, &["pack", "large.hdr", "f", "--rows", "0:1"]);
    succeeds(&folder, &["check", "f"]);
}

#[test]
fn faults_of_images_and_words() {
    let folder = folder("faults");
    USUAL.write(&folder, "image", sample(false));
    let edited = |from: &str, to: &str| {
        let text = USUAL.header();
        assert!(text.contains(from));
        fs::write(folder.join("edited.hdr"), text.replace(from, to)).unwrap();
        fails(
            &folder,
            REFUSED,
            &["pack", "edited.hdr", "f", "--data", "image.img"],
        )
    };
    assert!(edited("ENVI\n", "ENVY\n").contains("no ENVI header"));
    assert!(edited("data type = 12", "data type = 4").contains("data type 4"));
    assert!(edited("bands = 3", "bands = three").contains("bands = three"));
    assert!(edited("bands = 3\n", "").contains("field bands is missing"));
    assert!(edited("= bsq", "= bsk").contains("bsk"));
    assert!(edited("byte order = 0", "byte order = 2").contains("byte order = 2"));
    assert!(edited("bands = 3", "bands = 4").contains("120 bytes, and by its header 160"));
    let sizes = edited("bands = 3", "bands = 99999999999999999999");
    assert!(sizes.contains("bands = 99999999999999999999"), "{sizes}");
    fs::write(folder.join("alone.hdr"), USUAL.header()).unwrap();
    assert!(fails(&folder, FILE, &["pack", "alone.hdr", "f"]).contains("no data was found"));
    assert!(fails(&folder, FILE, &["pack", "none.hdr", "f"]).contains("none.hdr"));
    assert!(
        fails(&folder, USAGE, &["pack", "image.hdr"]).contains("takes IMAGE.hdr... FILE|FOLDER")
    );
    assert!(fails(&folder, USAGE, &["pack", "image.hdr", "f", "--dept", "8"]).contains("--dept"));
    assert!(
        fails(&folder, USAGE, &["pack", "image.hdr", "f", "--depth"]).contains("needs a value")
    );
    assert!(fails(
        &folder,
        USAGE,
        &["pack", "image.hdr", "f", "--mode", "half"]
    )
    .contains("half"));
    assert!(fails(&folder, FILE, &["pack", "image.hdr", "image.img"]).contains("is an input"));
    assert!(fails(&folder, USAGE, &["pack", "image.hdr", "image.hdr"]).contains(".hdr"));
    assert!(fails(&folder, FILE, &["pack", "image.hdr", "no/such/folder/f"]).contains("no/such"));
    fs::create_dir(folder.join("sub")).unwrap();
    let words = ["open", "f", "g.hdr", "--data", "sub"];
    assert!(fails(&folder, FILE, &words).contains("no ordinary file"));
    assert!(fails(&folder, USAGE, &["unpack"]).contains("there is no command unpack"));
    assert!(fails(&folder, USAGE, &[]).contains("no command is given"));
}

#[test]
fn unsigned_samples_over_31_bits_are_refused() {
    let folder = folder("wide");
    let layout = Layout {
        data_type: 13,
        ..USUAL
    };
    layout.write(
        &folder,
        "image",
        |band, _, _| if band == 1 { -1 } else { 5 },
    );
    let message = fails(&folder, REFUSED, &["pack", "image.hdr", "f"]);
    assert!(message.contains("refusal 2"), "{message}");
    assert!(message.contains("band 1, row 0, column 0"), "{message}");
    layout.write(&folder, "image", |_, _, _| 65_535);
    succeeds(&folder, &["pack", "image.hdr", "f"]);
    layout.write(&folder, "image", |_, _, _| 65_536);
    fails(&folder, REFUSED, &["pack", "image.hdr", "g"]);
}

#[test]
fn damaged_files_are_named_with_what_is_wrong() {
    let folder = folder("damage");
    USUAL.write(&folder, "image", sample(false));
    succeeds(&folder, &["pack", "image.hdr", "whole"]);
    let file = fs::read(folder.join("whole")).unwrap();
    let damage = |name: &str, change: fn(&mut Vec<u8>)| {
        let mut bytes = file.clone();
        change(&mut bytes);
        fs::write(folder.join(name), bytes).unwrap();
    };
    damage("cut", |bytes| bytes.truncate(21));
    damage("head", |bytes| bytes.truncate(11));
    damage("long", |bytes| bytes.push(0));
    damage("field", |bytes| bytes[7] |= 0x40);
    damage("coder", |bytes| bytes[10] |= 4);
    assert!(succeeds(&folder, &["check", "whole", "whole"]).contains("2 files, and all open"));
    let names = ["cut", "head", "long", "field", "coder", "gone"];
    for (name, number) in names.iter().zip([9, 7, 11, 8, 12]) {
        let message = fails(&folder, REFUSED, &["open", name, "out.hdr"]);
        assert!(
            message.contains(&format!("{name}: refusal {number}: ")),
            "{message}"
        );
        fails(&folder, REFUSED, &["picture", name, "out.png"]);
    }
    let output = remulingka(&folder, &[&["check", "whole"], &names[..]].concat());
    assert_eq!(output.status.code(), Some(1));
    let text = String::from_utf8(output.stdout).unwrap();
    assert!(
        text.contains("whole: opens, 5 columns, 4 rows, 3 bands of 16 bits; as it was packed"),
        "{text}"
    );
    assert_eq!(text.matches("REFUSED").count(), 5, "{text}");
    assert!(text.contains("UNREADABLE gone: "), "{text}");
    // 21 bytes are the header's 19 and 16 bits: the first value and no more.
    assert!(
        text.contains(
            "cut: refusal 9: the file ends too soon, at value 1: band 0, row 0, column 1"
        ),
        "{text}"
    );
    let errors = String::from_utf8(output.stderr).unwrap();
    assert!(
        errors.contains("5 of 7 files refused or changed, 1 unreadable"),
        "{errors}"
    );
}

#[test]
fn open_writes_beside_and_never_over_its_input() {
    let folder = folder("beside");
    USUAL.write(&folder, "image", sample(false));
    succeeds(&folder, &["pack", "image.hdr", "cube.img"]);
    assert!(fails(&folder, FILE, &["open", "cube.img", "cube.hdr"]).contains("is an input"));
    assert!(fails(&folder, USAGE, &["open", "cube.img", "cube.txt"]).contains(".hdr"));
    let words = ["open", "cube.img", "a.hdr", "--type", "1"];
    USUAL.write(&folder, "image", |_, _, _| 256);
    succeeds(&folder, &["pack", "image.hdr", "cube.img"]);
    assert!(fails(&folder, USAGE, &words).contains("does not hold the sample 256"));
    let words = ["open", "cube.img", "a.hdr", "--data", "a.hdr"];
    assert!(fails(&folder, USAGE, &words).contains("two outputs"));
    succeeds(&folder, &["open", "cube.img", "a.hdr", "--data", "b.raw"]);
    assert!(folder.join("b.raw").is_file());
}

#[test]
fn pictures_of_three_bands_and_of_one() {
    let folder = folder("pictures");
    USUAL.write(&folder, "image", sample(false));
    succeeds(&folder, &["pack", "image.hdr", "f"]);
    succeeds(&folder, &["picture", "f", "colour.png"]);
    // Five columns are enlarged by 102 to fill 512 points.
    let picture = common::read_png(&common::bytes(&folder, "colour.png"));
    assert_eq!(
        (picture.width, picture.height, picture.channels),
        (510, 408, 3)
    );
    succeeds(&folder, &["picture", "f", "small.png", "--zoom", "1"]);
    let picture = common::read_png(&common::bytes(&folder, "small.png"));
    assert_eq!((picture.width, picture.height, picture.channels), (5, 4, 3));
    // The first sample of every band is its least, the last its greatest; between them
    // each pixel is as the stretch makes it.
    for (pixel, colour) in picture.bytes.chunks(3).enumerate() {
        let (row, column) = (pixel as i32 / 5, pixel as i32 % 5);
        let grey = ((13 * row + 2 * column) * 255 / (39 + 8)) as u8;
        assert_eq!(colour, [grey; 3]);
    }
    succeeds(
        &folder,
        &["picture", "f", "grey.png", "--bands", "2", "--zoom", "3"],
    );
    let picture = common::read_png(&common::bytes(&folder, "grey.png"));
    assert_eq!(
        (picture.width, picture.height, picture.channels),
        (15, 12, 1)
    );
    assert_eq!((picture.bytes[0], picture.bytes[15 * 12 - 1]), (0, 255));
    let message = fails(&folder, USAGE, &["picture", "f", "no.png", "--bands", "3"]);
    assert!(message.contains("3 is no band from 0 to 2"), "{message}");
    fails(
        &folder,
        USAGE,
        &["picture", "f", "no.png", "--bands", "0,1"],
    );
}

#[test]
fn every_command_has_help_with_examples() {
    let folder = folder("help");
    let overview = succeeds(&folder, &["--help"]);
    for command in ["pack", "open", "look", "length", "check", "picture", "demo"] {
        let text = succeeds(&folder, &[command, "--help"]);
        assert!(text.contains("Examples:"), "{text}");
        assert!(overview.contains(&format!("remulingka {command} ")));
        assert_eq!(succeeds(&folder, &["help", command]), text);
    }
}

#[test]
fn the_demonstration_runs_and_its_files_are_good() {
    let folder = folder("demo");
    assert!(succeeds(&folder, &["demo"]).contains("every sample and every setting as before"));
    succeeds(&folder, &["demo", "plot"]);
    let plot = folder.join("plot");
    succeeds(&plot, &["check", "plot.cube"]);
    succeeds(&plot, &["pack", "plot.hdr", "again.cube", "--depth", "12"]);
    assert_eq!(
        fs::read(plot.join("plot.cube")).unwrap(),
        fs::read(plot.join("again.cube")).unwrap()
    );
    let picture = common::read_png(&common::bytes(&plot, "plot.png"));
    assert_eq!(
        (picture.width, picture.height, picture.channels),
        (512 + 560, 512, 3)
    );
    // A second time it finds its files, and says so.
    assert!(common::succeeds(&folder, &["demo", "plot"]).contains("are there already"));
    fs::write(plot.join("plot.hdr"), "another").unwrap();
    assert!(common::fails(&plot, FILE, &["demo", "."]).contains("--force replaces it"));
}
