//! Files are replaced whole, and pairs together: a failure of each call that changes a
//! file, and a kill before, behind and in the midst of each, leave a pair that belongs
//! together or none.

mod common;

use std::fs::{self, File};
use std::os::unix::process::ExitStatusExt;
use std::path::{Path, PathBuf};
use std::process::Command;
use std::time::{Duration, SystemTime};

use common::*;

const MODES: [&str; 5] = ["fail", "fail-on", "kill", "kill-behind", "half"];

/// A second fault while the first is being put right.
const TWICE: [&str; 8] = [
    "fail-again-1",
    "fail-again-2",
    "fail-again-3",
    "fail-again-4",
    "fail-kill-1",
    "fail-kill-2",
    "fail-kill-3",
    "fail-kill-4",
];

/// Compiles what stands between the program and the system.
fn shim(folder: &Path) -> PathBuf {
    let library = folder.join("faults.so");
    let source = Path::new(env!("CARGO_MANIFEST_DIR")).join("tests/faults.c");
    let compiled = Command::new("cc")
        .args(["-shared", "-fPIC", "-O1", "-Wall", "-Werror", "-o"])
        .args([&library, &source])
        .arg("-ldl")
        .status()
        .expect("cc runs");
    assert!(compiled.success());
    library
}

/// How a run under a fault ended.
struct Ended {
    was_killed: bool,
    succeeded: bool,
    calls: u64,
}

fn run_with(shim: &Path, folder: &Path, words: &[&str], fault: &str) -> Ended {
    let count = shim.with_file_name("count");
    let _ = fs::remove_file(&count);
    let output = command(folder, words)
        .env("LD_PRELOAD", shim)
        .env("FAULT", fault)
        .env("FAULT_COUNT", &count)
        .output()
        .unwrap();
    let calls = fs::read_to_string(&count).unwrap_or_default();
    Ended {
        was_killed: output.status.signal() == Some(9),
        succeeded: output.status.success(),
        calls: calls.trim().parse().unwrap_or(0),
    }
}

/// Makes a folder be as another one.
fn restore(from: &Path, to: &Path) {
    let _ = fs::remove_dir_all(to);
    fs::create_dir_all(to).unwrap();
    for (name, bytes) in contents(from) {
        fs::write(to.join(name), bytes).unwrap();
    }
}

/// Runs the words from one and the same start with every fault there is, and looks at
/// what each leaves. Gives the count of runs.
fn every_fault(
    name: &str,
    modes: &[&str],
    prepare: impl Fn(&Path),
    words: &[&str],
    look: impl Fn(&Path, &Ended),
) -> u64 {
    let base = folder(name);
    let shim = shim(&base);
    let (start, work) = (base.join("start"), base.join("work"));
    fs::create_dir(&start).unwrap();
    prepare(&start);
    restore(&start, &work);
    let whole = run_with(&shim, &work, words, "0:count");
    assert!(whole.succeeded && whole.calls > 4, "{} calls", whole.calls);
    look(&work, &whole);
    let (mut runs, mut killed, mut failed) = (0, 0, 0);
    for call in 1..=whole.calls {
        for mode in modes {
            restore(&start, &work);
            let ended = run_with(&shim, &work, words, &format!("{call}:{mode}"));
            look(&work, &ended);
            runs += 1;
            killed += u64::from(ended.was_killed);
            failed += u64::from(!ended.was_killed && !ended.succeeded);
            // Whatever is left, the same words then do their work.
            let forced = [words, &["--force"]].concat();
            assert!(remulingka(&work, &forced).status.success(), "{call}:{mode}");
        }
    }
    println!("{name}: {} calls, {runs} runs with a fault", whole.calls);
    assert!(
        killed >= 2 * whole.calls,
        "{killed} kills of {} calls",
        whole.calls
    );
    assert!(
        failed >= whole.calls,
        "{failed} failures of {} calls",
        whole.calls
    );
    runs
}

fn all(sample: impl Fn(usize, usize, usize) -> i32) -> Vec<i32> {
    let mut samples = Vec::new();
    for band in 0..BANDS {
        for row in 0..ROWS {
            for column in 0..COLUMNS {
                samples.push(sample(band, row, column));
            }
        }
    }
    samples
}

/// The older image's samples.
fn older(band: usize, row: usize, column: usize) -> i32 {
    1000 + (100 * band + 10 * row + column) as i32
}

/// The cube of one image, and another image, by pixel, at `o.hdr` and `o.img`.
fn pair_and_cube(folder: &Path) {
    USUAL.write(folder, "new", sample(false));
    succeeds(folder, &["pack", "new.hdr", "new.cube"]);
    let layout = Layout {
        interleave: "bip",
        ..USUAL
    };
    layout.write(folder, "o", older);
}

#[test]
fn a_header_and_its_data_belong_together_after_every_fault() {
    let words = ["open", "new.cube", "o.hdr", "--force"];
    let modes = [&MODES[..], &TWICE].concat();
    let runs = every_fault("pair", &modes, pair_and_cube, &words, |folder, ended| {
        let pair = Envi::read(folder, "o");
        let (new, old) = (all(sample(false)), all(older));
        if let Some(pair) = &pair {
            assert!(pair.samples == new || pair.samples == old, "a mixed pair");
            assert!(!ended.succeeded || pair.samples == new);
        }
        assert!(!ended.succeeded || pair.is_some());
        // A header without data is no pair, but data is never without any header's name
        // and under another's: what lies there is one of the two images.
        if let Ok(data) = fs::read(folder.join("o.img")) {
            let by_pixel = Layout {
                interleave: "bip",
                ..USUAL
            };
            assert!(data == USUAL.data(sample(false)) || data == by_pixel.data(older));
        }
    });
    assert!(runs > 200, "{runs}");
}

#[test]
fn one_failure_puts_the_old_pair_back() {
    let words = ["open", "new.cube", "o.hdr", "--force"];
    let base = folder("put_back");
    let shim = shim(&base);
    let (start, work) = (base.join("start"), base.join("work"));
    fs::create_dir(&start).unwrap();
    pair_and_cube(&start);
    let mut failed = 0;
    for call in 1.. {
        restore(&start, &work);
        let ended = run_with(&shim, &work, &words, &format!("{call}:fail"));
        if ended.calls < call {
            break;
        }
        // Where only the removal of an old file failed, the new pair stands.
        if !ended.succeeded {
            failed += 1;
            let pair = Envi::read(&work, "o").expect("a pair");
            assert_eq!(pair.samples, all(older), "call {call}");
        }
    }
    assert!(failed > 8, "{failed}");
}

#[test]
fn new_names_get_both_files_or_none_that_says_anything() {
    let words = ["open", "new.cube", "fresh.hdr"];
    every_fault("fresh", &MODES, pair_and_cube, &words, |folder, ended| {
        let pair = Envi::read(folder, "fresh");
        assert!(!ended.succeeded || pair.is_some());
        if let Some(pair) = pair {
            assert_eq!(pair.samples, all(sample(false)));
        } else {
            assert!(
                !folder.join("fresh.hdr").exists(),
                "a header without its data"
            );
        }
    });
}

#[test]
fn a_cube_is_old_or_new_and_its_stored_header_its_own() {
    let prepare = |folder: &Path| {
        pair_and_cube(folder);
        succeeds(folder, &["pack", "o.hdr", "f.cube"]);
    };
    let words = ["pack", "new.hdr", "f.cube", "--force", "--user-data", "7"];
    every_fault("cube", &MODES, prepare, &words, |folder, ended| {
        // At every moment the name has one of the two cubes.
        let cube = bytes(folder, "f.cube");
        assert!(!ended.succeeded || cube[0] == 7);
        let line = succeeds(folder, &["check", "f.cube"]);
        let has_stored = folder.join("f.cube.envi").exists();
        assert_eq!(line.contains("as it was packed"), has_stored, "{line}");
        assert!(!ended.succeeded || has_stored);
    });
}

#[test]
fn parts_are_each_in_order_after_every_fault() {
    let prepare = |folder: &Path| {
        pair_and_cube(folder);
        succeeds(folder, &["pack", "o.hdr", "s.cube", "--split", "2"]);
    };
    let words = ["pack", "new.hdr", "s.cube", "--split", "2", "--force"];
    every_fault("parts", &MODES, prepare, &words, |folder, _| {
        for name in ["s.0001.cube", "s.0002.cube"] {
            let line = succeeds(folder, &["check", name]);
            let has_stored = folder.join(format!("{name}.envi")).exists();
            assert_eq!(line.contains("as it was packed"), has_stored, "{line}");
        }
        // What joins is one of the two images.
        let words = ["open", "--join", "s.0002.cube", "s.0001.cube", "joined.hdr"];
        if remulingka(folder, &words).status.success() {
            let joined = Envi::read(folder, "joined").unwrap().samples;
            assert!(joined == all(sample(false)) || joined == all(older));
        }
    });
}

#[test]
fn a_program_killed_at_any_time_leaves_the_old_file_or_the_new_one() {
    let folder = folder("killed");
    // Large enough to be killed in the reading, the packing and the writing.
    let header = "ENVI\nsamples = 1024\nlines = 256\nbands = 1\ndata type = 1\n";
    fs::write(folder.join("image.hdr"), header).unwrap();
    let data: Vec<u8> = (0..1024 * 256_u32)
        .map(|index| ((index * index) >> 7) as u8)
        .collect();
    fs::write(folder.join("image.img"), data).unwrap();
    succeeds(&folder, &["pack", "image.hdr", "new"]);
    let new = bytes(&folder, "new");
    let mut killed = 0;
    for turn in 0..40 {
        fs::write(folder.join("file"), "old").unwrap();
        let mut child = command(&folder, &["pack", "image.hdr", "file", "--force"])
            .stdout(std::process::Stdio::null())
            .spawn()
            .unwrap();
        std::thread::sleep(Duration::from_micros(turn * 700));
        let _ = child.kill();
        killed += u32::from(!child.wait().unwrap().success());
        let file = bytes(&folder, "file");
        assert!(
            file == b"old" || file == new,
            "half a file after {turn} turns"
        );
    }
    assert!(killed > 0, "no turn was short enough");
}

#[test]
fn a_stopped_program_takes_its_temporary_files_with_it() {
    let base = folder("stopped");
    // A named pipe that nobody fills holds the program up once its data file is open.
    let header = "ENVI\nsamples = 64\nlines = 64\nbands = 2\ndata type = 1\n";
    fs::write(base.join("image.hdr"), header).unwrap();
    fs::write(base.join("image.img"), vec![5; 64 * 64 * 2]).unwrap();
    succeeds(&base, &["pack", "image.hdr", "s.cube", "--split", "32"]);
    fs::remove_file(base.join("s.0002.cube")).unwrap();
    let pipe = Command::new("mkfifo")
        .arg(base.join("s.0002.cube"))
        .status()
        .unwrap();
    assert!(pipe.success());
    // Started in the background or under nohup, a run inherits ignored signals, and so does the
    // program, which leaves them ignored: those cannot stop it.
    let status = fs::read_to_string("/proc/self/status").unwrap();
    let mask = status.lines().find_map(|line| line.strip_prefix("SigIgn:"));
    let ignored = u64::from_str_radix(mask.unwrap().trim(), 16).unwrap();
    let heard = [("INT", 2), ("TERM", 15), ("HUP", 1)]
        .into_iter()
        .filter(|(_, number)| ignored >> (number - 1) & 1 == 0);
    for (signal, _) in heard {
        let words = ["open", "--join", "s.0001.cube", "s.0002.cube", "joined.hdr"];
        let mut child = command(&base, &words).spawn().unwrap();
        let is_part = |name: &str| name.starts_with(".remulingka-");
        let names = || -> Vec<String> {
            let entries = fs::read_dir(&base).unwrap();
            entries
                .map(|entry| entry.unwrap().file_name().into_string().unwrap())
                .collect()
        };
        for _ in 0..20_000 {
            if names().iter().any(|name| is_part(name)) {
                break;
            }
            std::thread::sleep(Duration::from_millis(1));
        }
        assert!(
            names().iter().any(|name| is_part(name)),
            "it never began to write"
        );
        let id = child.id().to_string();
        assert!(Command::new("kill")
            .args(["-s", signal, &id])
            .status()
            .unwrap()
            .success());
        assert!(child.wait().unwrap().signal().is_some());
        assert!(
            !names().iter().any(|name| is_part(name)),
            "{signal}: {:?}",
            names()
        );
    }
}

#[test]
fn files_of_killed_runs_are_removed_by_later_ones() {
    let folder = folder("stale");
    USUAL.write(&folder, "image", sample(false));
    let old = SystemTime::now() - Duration::from_secs(48 * 3600);
    let make = |name: &str, age: SystemTime| {
        let file = File::create(folder.join(name)).unwrap();
        file.set_modified(age).unwrap();
        file
    };
    make(".remulingka-1-0.part", old);
    make(".remulingka-1-1.part", SystemTime::now());
    make(".remulingka-1-2.old", old);
    let held = make(".remulingka-1-3.part", old);
    held.lock().unwrap();
    succeeds(&folder, &["pack", "image.hdr", "f.cube"]);
    let left: Vec<String> = contents(&folder)
        .into_iter()
        .map(|(name, _)| name)
        .filter(|name| name.starts_with('.'))
        .collect();
    // One that is young, one that is kept for the user, and one that is being written.
    let names = [
        ".remulingka-1-1.part",
        ".remulingka-1-2.old",
        ".remulingka-1-3.part",
    ];
    assert_eq!(left, names);
}

#[test]
fn long_names_and_limits_on_files() {
    let folder = folder("names");
    let header = "ENVI\nsamples = 256\nlines = 256\nbands = 1\ndata type = 1\n";
    fs::write(folder.join("image.hdr"), header).unwrap();
    let data: Vec<u8> = (0..65_536_u32)
        .map(|index| ((index * index) >> 7) as u8)
        .collect();
    fs::write(folder.join("image.img"), data).unwrap();
    let name = "n".repeat(250);
    succeeds(&folder, &["pack", "image.hdr", &name]);
    assert!(folder.join(&name).is_file());
    assert!(folder.join(name + ".envi").is_file());
    // A file that may not grow so large is an error like a full disk.
    let limited = Command::new("sh")
        .args(["-c", "ulimit -f 8; exec \"$0\" pack image.hdr small.cube"])
        .arg(program())
        .current_dir(&folder)
        .output()
        .unwrap();
    let message = String::from_utf8_lossy(&limited.stderr);
    assert_eq!(limited.status.code(), Some(FILE), "{message}");
    assert!(message.contains("small.cube: File too large"), "{message}");
    let hidden = contents(&folder)
        .into_iter()
        .filter(|(name, _)| name.starts_with('.'));
    assert_eq!(hidden.count(), 0);
}
