//! The manners of the field: statuses, standard input and output, many files, names of
//! every kind, and messages that say what to do.

mod common;

use std::ffi::{OsStr, OsString};
use std::fs;
use std::io::Write;
use std::os::unix::ffi::OsStrExt;
use std::path::Path;
use std::process::{Command, Stdio};

use common::*;

/// Runs the program with these bytes on its input.
fn with_input(folder: &Path, words: &[&str], input: &[u8]) -> std::process::Output {
    let mut child = command(folder, words)
        .stdin(Stdio::piped())
        .stdout(Stdio::piped())
        .stderr(Stdio::piped())
        .spawn()
        .unwrap();
    let _ = child.stdin.take().unwrap().write_all(input);
    child.wait_with_output().unwrap()
}

#[test]
fn versions_and_short_options() {
    let folder = folder("short");
    let version = format!("remulingka {}\n", env!("CARGO_PKG_VERSION"));
    for words in [
        &["--version"][..],
        &["-V"],
        &["pack", "--version"],
        &["check", "-V"],
    ] {
        assert_eq!(succeeds(&folder, words), version);
    }
    assert!(succeeds(&folder, &["-h"]).contains("remulingka pack"));
    assert!(fails(&folder, USAGE, &["check", "-x", "f"]).contains("there is no option -x"));
    assert!(fails(&folder, USAGE, &["demo", "-x"]).contains("there is no option -x"));
    assert!(fails(&folder, USAGE, &["pack", "-z", "a", "b"]).contains("there is no option -z"));
    assert!(fails(&folder, USAGE, &["--verson"]).contains("there is no option --verson"));
    let message = fails(&folder, USAGE, &["look", "f", "--as-settings=yes"]);
    assert!(
        message.contains("option --as-settings takes no value"),
        "{message}"
    );
    assert!(fails(&folder, USAGE, &["help", "nothing"]).contains("see remulingka help"));
    // Behind -- a name may begin with a dash.
    assert!(fails(&folder, FILE, &["look", "--", "-x"]).contains("-x: No such file"));
}

#[test]
fn statuses_tell_damage_from_a_missing_disk() {
    let folder = folder("statuses");
    USUAL.write(&folder, "image", sample(false));
    succeeds(&folder, &["pack", "image.hdr", "f.cube"]);
    let file = bytes(&folder, "f.cube");
    fs::write(folder.join("cut.cube"), &file[..30]).unwrap();
    let status = |words: &[&str]| remulingka(&folder, words).status.code();
    assert_eq!(status(&["check", "f.cube"]), Some(0));
    assert_eq!(status(&["check", "cut.cube"]), Some(REFUSED));
    assert_eq!(status(&["check", "gone.cube"]), Some(FILE));
    assert_eq!(status(&["check", "gone.cube", "cut.cube"]), Some(REFUSED));
    assert_eq!(status(&["check"]), Some(USAGE));
    assert_eq!(status(&["open", "cut.cube", "a.hdr"]), Some(REFUSED));
    assert_eq!(status(&["open", "gone.cube", "a.hdr"]), Some(FILE));
    assert_eq!(status(&["pack", "image.hdr", "no/such/f.cube"]), Some(FILE));
    // A full error output is no reason for another status, a full output is one.
    let full = |words: &[&str], to: &str| {
        let text = format!("exec \"$0\" {} {to}/dev/full", words.join(" "));
        let shell = Command::new("sh")
            .args(["-c", &text])
            .arg(program())
            .current_dir(&folder)
            .output();
        shell.unwrap().status.code()
    };
    assert_eq!(full(&["check", "cut.cube"], "2>"), Some(REFUSED));
    assert_eq!(full(&["nothing"], "2>"), Some(USAGE));
    assert_eq!(full(&["look", "f.cube"], ">"), Some(FILE));
    assert_eq!(full(&["pack", "image.hdr", "-"], ">"), Some(FILE));
}

#[test]
fn a_dash_is_standard_input_and_output() {
    let folder = folder("dash");
    USUAL.write(&folder, "image", sample(false));
    succeeds(&folder, &["pack", "image.hdr", "f.cube"]);
    let file = bytes(&folder, "f.cube");
    let output = with_input(&folder, &["pack", "image.hdr", "-"], b"");
    assert_eq!(
        (output.status.code(), output.stdout),
        (Some(0), file.clone())
    );
    assert!(String::from_utf8_lossy(&output.stderr).contains("not kept"));
    let output = with_input(&folder, &["pack", "image.hdr", "-", "--quiet"], b"");
    assert_eq!((output.stdout, output.stderr), (file.clone(), Vec::new()));
    // Data and header from the input.
    let data = bytes(&folder, "image.img");
    let words = ["pack", "image.hdr", "-", "--data", "-", "-q"];
    assert_eq!(with_input(&folder, &words, &data).stdout, file);
    let header = bytes(&folder, "image.hdr");
    let words = ["pack", "-", "-", "--data", "image.img", "-q"];
    assert_eq!(with_input(&folder, &words, &header).stdout, file);
    // Data that is too short or too long on the input is refused.
    for wrong in [&data[..119], &[&data[..], b"x"].concat()] {
        let output = with_input(&folder, &["length", "image.hdr", "--data", "-"], wrong);
        assert_eq!(output.status.code(), Some(REFUSED));
    }
    // A window of the input, which is read forwards only.
    let window = ["--rows", "1:3", "--take-bands", "1:2", "-q"];
    let named = remulingka(
        &folder,
        &[&["pack", "image.hdr", "-"], &window[..]].concat(),
    );
    let words = [&["pack", "image.hdr", "-", "--data", "-"], &window[..]].concat();
    assert_eq!(with_input(&folder, &words, &data).stdout, named.stdout);
    // Cubes from the input.
    assert_eq!(
        with_input(&folder, &["check", "-"], &file).status.code(),
        Some(0)
    );
    assert_eq!(
        with_input(&folder, &["check", "-"], &file[1..])
            .status
            .code(),
        Some(REFUSED)
    );
    assert!(!with_input(&folder, &["look", "-"], &file).stdout.is_empty());
    let output = with_input(&folder, &["open", "-", "-"], &file);
    assert_eq!(output.stdout, USUAL.data(sample(false)));
    assert!(String::from_utf8_lossy(&output.stderr).contains("type 12, bsq, byte order 0"));
    let output = with_input(&folder, &["open", "f.cube", "a.hdr", "--data", "-"], b"");
    assert_eq!(output.stdout, data);
    assert!(folder.join("a.hdr").is_file() && !folder.join("a.img").exists());
    let output = with_input(&folder, &["picture", "f.cube", "-"], b"");
    assert_eq!(read_png(&output.stdout).channels, 3);
    assert!(!folder.join("-").exists());
}

#[test]
fn names_need_not_be_utf_8() {
    let folder = folder("latin");
    USUAL.write(&folder, "image", sample(false));
    let name =
        |ending: &str| OsString::from(OsStr::from_bytes(&[b"caf\xe9", ending.as_bytes()].concat()));
    let run = |words: &[OsString]| {
        let output = remulingka(&folder, words);
        assert_eq!(
            output.status.code(),
            Some(0),
            "{}",
            String::from_utf8_lossy(&output.stderr)
        );
        output.stdout
    };
    let word = OsString::from;
    run(&[word("pack"), word("image.hdr"), name(".cube")]);
    run(&[word("open"), name(".cube"), name(".hdr")]);
    assert_eq!(
        fs::read(folder.join(name(".img"))).unwrap(),
        bytes(&folder, "image.img")
    );
    run(&[word("pack"), name(".hdr"), name("2.cube")]);
    let list = [name(".cube").as_bytes(), b"\n"].concat();
    fs::write(folder.join("list"), list).unwrap();
    run(&[word("check"), word("--list"), word("list")]);
    let json = run(&[word("check"), word("--json"), name(".cube")]);
    assert!(String::from_utf8(json)
        .unwrap()
        .contains("\"file_hex\": \"636166e92e63756265\""));
}

#[test]
fn endings_may_be_in_capitals() {
    let folder = folder("capitals");
    USUAL.write(&folder, "image", sample(false));
    fs::rename(folder.join("image.hdr"), folder.join("P.HDR")).unwrap();
    fs::rename(folder.join("image.img"), folder.join("P.IMG")).unwrap();
    succeeds(&folder, &["pack", "P.HDR", "P.cube"]);
    succeeds(&folder, &["open", "P.cube", "Q.HDR"]);
    assert!(folder.join("Q.img").is_file());
    succeeds(&folder, &["picture", "P.cube", "P.PNG"]);
    assert!(fails(&folder, USAGE, &["picture", "P.cube", "p.jpg"]).contains("a picture is a PNG"));
}

#[test]
fn no_more_is_read_than_is_needed() {
    let folder = folder("needed");
    USUAL.write(&folder, "image", sample(false));
    succeeds(&folder, &["pack", "image.hdr", "f.cube"]);
    let long = |name: &str, start: &[u8]| {
        let mut file = fs::File::create(folder.join(name)).unwrap();
        file.write_all(start).unwrap();
        file.set_len(1 << 40).unwrap();
    };
    // A terabyte of nothing: to read it would take hours.
    long("long.cube", &bytes(&folder, "f.cube"));
    succeeds(&folder, &["look", "long.cube"]);
    let output = remulingka(&folder, &["check", "long.cube"]);
    assert!(String::from_utf8_lossy(&output.stdout).contains("refusal 11"));
    long("empty.cube", &[]);
    let look = remulingka(&folder, &["look", "empty.cube"]);
    assert_eq!(look.status.code(), Some(REFUSED));
    long("d.img", &[]);
    let message =
        String::from_utf8(remulingka(&folder, &["pack", "d.img", "x.cube"]).stderr).unwrap();
    assert!(
        message.contains("d.img: this is no ENVI header"),
        "{message}"
    );
    fs::write(folder.join("d.hdr"), USUAL.header()).unwrap();
    let message =
        String::from_utf8(remulingka(&folder, &["pack", "d.img", "x.cube"]).stderr).unwrap();
    assert!(message.contains("its header is d.hdr"), "{message}");
    long("h.hdr", b"ENVI\n");
    let output = remulingka(&folder, &["pack", "h.hdr", "x.cube"]);
    assert!(String::from_utf8_lossy(&output.stderr).contains("too long for a text"));
    for name in ["long.cube", "empty.cube", "d.img", "h.hdr"] {
        fs::remove_file(folder.join(name)).unwrap();
    }
}

#[test]
fn folders_lists_and_several_at_a_time() {
    let folder = folder("many");
    for name in ["a", "b", "c"] {
        USUAL.write(&folder, name, sample(false));
    }
    fs::create_dir(folder.join("archive")).unwrap();
    let line = succeeds(
        &folder,
        &["pack", "a.hdr", "b.hdr", "c.hdr", "archive/", "--jobs", "3"],
    );
    assert_eq!(line.lines().count(), 3);
    assert!(line.starts_with("archive/a.cube: "), "{line}");
    // One that fails does not keep the others from being packed.
    fs::create_dir(folder.join("second")).unwrap();
    let words = ["pack", "a.hdr", "gone.hdr", "c.hdr", "second"];
    let output = remulingka(&folder, &words);
    assert_eq!(output.status.code(), Some(FILE));
    assert!(String::from_utf8_lossy(&output.stderr).contains("1 of 3 images were not packed"));
    assert!(folder.join("second/c.cube").is_file());
    fails(&folder, USAGE, &["pack", "a.hdr", "b.hdr", "nothing"]);
    fails(&folder, FILE, &["pack", "a.hdr", "nothing/"]);
    assert!(fails(&folder, USAGE, &["pack", "a.hdr", "./a.hdr", "second"]).contains("both become"));
    // Folders are gone through, the capitals of an ending too.
    fs::create_dir(folder.join("archive/deep")).unwrap();
    fs::copy(
        folder.join("archive/a.cube"),
        folder.join("archive/deep/D.CUBE"),
    )
    .unwrap();
    fs::write(folder.join("archive/note.txt"), "no cube").unwrap();
    let text = succeeds(&folder, &["check", "archive", "-j", "4"]);
    assert_eq!(text.lines().count(), 5, "{text}");
    assert!(text.contains("4 files, and all open"), "{text}");
    assert_eq!(succeeds(&folder, &["check", "archive", "--quiet"]), "");
    // The stored headers that a shell's star names are passed over.
    let named = [
        "check",
        "archive/a.cube",
        "archive/a.cube.envi",
        "archive/b.cube",
    ];
    assert!(succeeds(&folder, &named).contains("2 files, and all open"));
    fs::write(folder.join("archive/b.cube"), "short").unwrap();
    let output = remulingka(&folder, &["check", "archive", "-q"]);
    let text = String::from_utf8(output.stdout).unwrap();
    assert_eq!(text.lines().count(), 1, "{text}");
    assert!(
        text.starts_with("REFUSED archive/b.cube: refusal 7: "),
        "{text}"
    );
    let list = "archive/a.cube\narchive/b.cube\ngone.cube\n";
    let output = with_input(
        &folder,
        &["check", "--list", "-", "--json"],
        list.as_bytes(),
    );
    assert_eq!(output.status.code(), Some(REFUSED));
    let text = String::from_utf8(output.stdout).unwrap();
    let lines: Vec<&str> = text.lines().collect();
    assert!(
        lines[0].contains("\"verdict\": \"opens\", \"sum\": \"as packed\""),
        "{text}"
    );
    assert!(
        lines[0].contains("\"columns\": 5, \"rows\": 4, \"bands\": 3, \"depth\": 16"),
        "{text}"
    );
    assert!(lines[1].contains("\"verdict\": \"refused\"") && lines[1].contains("\"refusal\": 7"));
    assert!(lines[2].contains("\"verdict\": \"unreadable\""), "{text}");
    let text = succeeds(&folder, &["check", "archive/a.cube"]);
    assert!(text.ends_with("1 file, and it opens\n"), "{text}");
    fs::create_dir(folder.join("nothing")).unwrap();
    fails(&folder, FILE, &["check", "nothing"]);
}

#[test]
fn messages_say_what_to_do() {
    let folder = folder("messages");
    USUAL.write(&folder, "image", sample(false));
    let typed = |number: &str| {
        let header = USUAL
            .header()
            .replace("data type = 12", &format!("data type = {number}"));
        fs::write(folder.join("image.hdr"), header).unwrap();
        fails(&folder, REFUSED, &["pack", "image.hdr", "f"])
    };
    let message = typed("4");
    assert!(message.contains("32-bit floating point") && message.contains("gdal_translate"));
    assert!(typed("5").contains("64-bit floating point"));
    assert!(typed("6").contains("complex"));
    assert!(typed("99").contains("data type 99 is not known"));
    // Depths that do not fit.
    let wide = Layout {
        data_type: 3,
        ..USUAL
    };
    let pack = ["pack", "image.hdr", "f", "--depth", "least"];
    wide.write(
        &folder,
        "image",
        |band, _, _| if band == 2 { 40_000 } else { 1 },
    );
    let message = fails(&folder, REFUSED, &pack);
    assert!(
        message.contains("40000 at band 2, row 0, column 0"),
        "{message}"
    );
    assert!(message.contains("--signed no and --depth 16"), "{message}");
    let message = fails(&folder, REFUSED, &pack[..3]);
    assert!(message.contains("--signed no and --depth 16"), "{message}");
    wide.write(
        &folder,
        "image",
        |band, _, _| if band == 1 { 70_000 } else { -1 },
    );
    assert!(fails(&folder, REFUSED, &pack).contains("no depth holds all samples"));
    wide.write(
        &folder,
        "image",
        |_, row, _| if row == 3 { 900 } else { -1 },
    );
    let message = fails(
        &folder,
        REFUSED,
        &["pack", "image.hdr", "f", "--depth", "8"],
    );
    assert!(message.contains("set --depth 11 or more"), "{message}");
    let unsigned = Layout {
        data_type: 13,
        ..USUAL
    };
    unsigned.write(&folder, "image", |_, _, _| -1);
    assert!(fails(&folder, REFUSED, &pack).contains("2147483647 or more at band 0"));
    // Windows.
    USUAL.write(&folder, "image", sample(false));
    for (rows, words) in [
        ("10", "wanted is FIRST:END"),
        ("3:2", "FIRST must be below END"),
        ("0:9", "there are only 4"),
        ("x:2", "wanted is FIRST:END"),
    ] {
        let message = fails(&folder, USAGE, &["length", "image.hdr", "--rows", rows]);
        assert!(message.contains(words), "{message}");
    }
    for (open, closed) in [(":2", "0:2"), ("1:", "1:4"), (":", "0:4")] {
        let lengths =
            [open, closed].map(|rows| succeeds(&folder, &["length", "image.hdr", "--rows", rows]));
        assert_eq!(lengths[0], lengths[1]);
    }
    let header = USUAL.header().replace("samples = 5", "samples = 5.0");
    fs::write(folder.join("image.hdr"), header).unwrap();
    assert!(fails(&folder, REFUSED, &["length", "image.hdr"])
        .contains("samples = 5.0 is not a whole number"));
    let output = remulingka(&folder, &["check", "image.hdr"]);
    assert!(String::from_utf8_lossy(&output.stdout)
        .contains("REFUSED image.hdr: this is an ENVI header"));
}

#[test]
fn settings_of_one_cube_serve_another_of_fewer_bands() {
    let folder = folder("pixel");
    USUAL.write(&folder, "image", sample(false));
    for (order, shown) in [
        ("pixel", "pixel"),
        ("3", "pixel"),
        ("line", "line"),
        ("2", "2"),
        ("band", "band"),
    ] {
        succeeds(
            &folder,
            &["pack", "image.hdr", "f.cube", "--order", order, "-f"],
        );
        let settings = succeeds(&folder, &["look", "f.cube", "--as-settings"]);
        assert!(
            settings.contains(&format!("order = {shown}\n")),
            "{settings}"
        );
        fs::write(folder.join("same.txt"), settings).unwrap();
        let words = [
            "pack",
            "image.hdr",
            "g.cube",
            "--settings",
            "same.txt",
            "-f",
        ];
        succeeds(&folder, &[&words[..], &["--take-bands", "0:2"]].concat());
    }
}

#[test]
fn wide_types_are_taken_where_their_samples_fit() {
    let folder = folder("wide");
    for (data_type, number) in [("14", -300_i64), ("15", 60_000)] {
        let header = USUAL
            .header()
            .replace("data type = 12", &format!("data type = {data_type}"));
        fs::write(folder.join("image.hdr"), header).unwrap();
        let data: Vec<u8> = (0..60)
            .flat_map(|index| (number + index).to_le_bytes())
            .collect();
        fs::write(folder.join("image.img"), &data).unwrap();
        succeeds(&folder, &["pack", "image.hdr", "f.cube", "-f"]);
        succeeds(&folder, &["open", "f.cube", "again.hdr", "-f"]);
        assert_eq!(bytes(&folder, "again.img"), data);
    }
}

#[test]
fn a_spectrum_is_drawn_beside_the_picture() {
    let folder = folder("spectrum");
    USUAL.write(&folder, "image", sample(false));
    succeeds(&folder, &["pack", "image.hdr", "f.cube"]);
    let line = succeeds(
        &folder,
        &[
            "picture",
            "f.cube",
            "p.png",
            "--spectrum",
            "4,3",
            "--zoom",
            "20",
        ],
    );
    assert!(line.contains("the spectrum at column 4, row 3"), "{line}");
    let picture = read_png(&bytes(&folder, "p.png"));
    assert_eq!((picture.width, picture.height), (5 * 20 + 560, 320));
    let red = picture
        .bytes
        .chunks(3)
        .filter(|pixel| *pixel == [200, 30, 40])
        .count();
    assert!(red > 300, "{red}");
    for wrong in ["5,0", "0,4", "1", "a,b"] {
        fails(
            &folder,
            USAGE,
            &["picture", "f.cube", "q.png", "--spectrum", wrong],
        );
    }
}

#[test]
fn completions_and_the_manual_have_every_option() {
    let folder = folder("texts");
    let texts = [
        succeeds(&folder, &["completion", "bash"]),
        succeeds(&folder, &["completion", "zsh"]),
        succeeds(&folder, &["completion", "fish"]),
        succeeds(&folder, &["manual"]).replace("\\-", "-"),
    ];
    fails(&folder, USAGE, &["completion", "tcsh"]);
    for command in ["pack", "open", "look", "length", "check", "picture", "demo"] {
        let help = succeeds(&folder, &[command, "--help"]);
        for word in help
            .split_whitespace()
            .filter(|word| word.starts_with("--"))
        {
            let name: String = word[2..]
                .chars()
                .take_while(|letter| letter.is_alphanumeric() || *letter == '-')
                .collect();
            for text in &texts {
                assert!(text.contains(&name), "{command} --{name}");
            }
        }
    }
    // The shell takes its completion.
    fs::write(folder.join("c.bash"), &texts[0]).unwrap();
    let script = "source ./c.bash; COMP_WORDS=(remulingka open --inter); COMP_CWORD=2; _remulingka; echo ${COMPREPLY[@]}";
    let bash = Command::new("bash")
        .args(["-c", script])
        .current_dir(&folder)
        .output()
        .unwrap();
    assert_eq!(String::from_utf8_lossy(&bash.stdout), "--interleave\n");
}
