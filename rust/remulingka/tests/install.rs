//! `make install` puts everything where it belongs, and a C program finds it there.

use std::fs;
use std::path::Path;
use std::process::Command;

#[test]
fn everything_is_installed_and_can_be_used() {
    if Command::new("make").arg("--version").output().is_err() {
        return;
    }
    let root = Path::new(env!("CARGO_MANIFEST_DIR")).join("../..");
    let folder = Path::new(env!("CARGO_TARGET_TMPDIR")).join("installed");
    let _ = fs::remove_dir_all(&folder);
    fs::create_dir_all(&folder).unwrap();
    let make = |goal: &str| {
        // The program that is tested here is installed; it is not built again.
        let run = Command::new("make")
            .arg(goal)
            .arg("CARGO=true")
            .arg(format!("program={}", env!("CARGO_BIN_EXE_remulingka")))
            .arg(format!("archive={}", env!("REMULINGKA_ARCHIVE")))
            .arg(format!("built={}", folder.join("built").display()))
            .arg(format!("DESTDIR={}", folder.display()))
            .arg("PREFIX=/usr")
            .current_dir(&root)
            .output()
            .unwrap();
        assert!(
            run.status.success(),
            "{}",
            String::from_utf8_lossy(&run.stderr)
        );
    };
    make("install");
    let installed = folder.join("usr");
    for name in [
        "bin/remulingka",
        "include/remulingka.h",
        "lib/libremulingka.a",
        "lib/libremulingka.so",
        "lib/pkgconfig/remulingka.pc",
        "share/man/man1/remulingka.1",
        "share/bash-completion/completions/remulingka",
        "share/zsh/site-functions/_remulingka",
        "share/fish/vendor_completions.d/remulingka.fish",
    ] {
        assert!(installed.join(name).is_file(), "{name}");
    }
    let described = fs::read_to_string(installed.join("lib/pkgconfig/remulingka.pc")).unwrap();
    let version = format!("Version: {}\n", env!("CARGO_PKG_VERSION"));
    assert!(described.contains(&version), "{described}");
    // The example links the shared library.
    let program = folder.join("pack_open");
    let compiled = Command::new("cc")
        .arg("-I")
        .arg(installed.join("include"))
        .arg(root.join("examples/c/pack_open.c"))
        .arg("-L")
        .arg(installed.join("lib"))
        .args(["-lremulingka", "-o"])
        .arg(&program)
        .status()
        .unwrap();
    assert!(compiled.success());
    let libraries = installed.join("lib");
    let run = Command::new(&program)
        .env("LD_LIBRARY_PATH", libraries)
        .output()
        .unwrap();
    assert!(run.status.success());
    assert!(String::from_utf8_lossy(&run.stdout).ends_with("opened: 1 sample, 130\n"));
    make("uninstall");
    assert!(!installed.join("bin/remulingka").exists());
    assert_eq!(
        fs::read_dir(installed.join("lib")).unwrap().count(),
        1,
        "pkgconfig alone"
    );
}
