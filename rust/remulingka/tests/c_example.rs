//! The C example, compiled with every warning an error and run.

use std::path::Path;
use std::process::Command;

#[test]
fn the_c_example_packs_and_opens() {
    let root = Path::new(env!("CARGO_MANIFEST_DIR")).join("../..");
    let program = Path::new(env!("CARGO_TARGET_TMPDIR")).join("pack_open");
    let compiled = Command::new("cc")
        .args(["-std=c99", "-Wall", "-Wextra", "-Wpedantic", "-Werror"])
        .arg("-I")
        .arg(root.join("include"))
        .arg(root.join("examples/c/pack_open.c"))
        .arg(env!("REMULINGKA_ARCHIVE"))
        .arg("-o")
        .arg(&program)
        .status()
        .expect("cc runs");
    assert!(compiled.success());
    let run = Command::new(&program).output().expect("the example runs");
    let expected = "packed: 20 bytes: \
                    00 00 01 00 01 00 01 11 00 00 08 00 02 A0 00 59 00 40 20 04\n\
                    opened: 1 sample, 130\n";
    assert_eq!(String::from_utf8_lossy(&run.stdout), expected);
    assert!(run.status.success());
}
