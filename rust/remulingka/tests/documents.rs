//! What the documents say runs as it stands, after the first command.

mod common;

use std::path::Path;
use std::process::Command;

use common::*;

/// Runs the command lines of a document, one after the other, where `demo plot` ran.
fn run_lines(document: &str, least: usize) {
    let root = Path::new(env!("CARGO_MANIFEST_DIR")).join("../..");
    let document_text = std::fs::read_to_string(root.join(document)).unwrap();
    let folder = folder(&document.replace('/', "_"));
    succeeds(&folder, &["demo", "plot"]);
    let program = program();
    let path = format!(
        "{}:{}",
        program.parent().unwrap().display(),
        std::env::var("PATH").unwrap()
    );
    let lines = document_text.lines();
    let lines: Vec<&str> = lines
        .filter(|line| line.starts_with("    remulingka "))
        .collect();
    assert!(lines.len() >= least, "{} lines", lines.len());
    for line in lines {
        let run = Command::new("sh")
            .args(["-c", line])
            .env("PATH", &path)
            .current_dir(&folder)
            .output()
            .unwrap();
        let errors = String::from_utf8_lossy(&run.stderr).into_owned();
        assert!(run.status.success(), "{line}: {errors}");
    }
}

#[test]
fn the_lines_of_the_first_page_run() {
    run_lines("README.md", 8);
}

#[test]
fn the_lines_of_the_users_page_run() {
    run_lines("docs/USE.md", 10);
}

#[test]
fn the_documents_have_the_limits_and_versions_that_hold() {
    let root = Path::new(env!("CARGO_MANIFEST_DIR")).join("../..");
    let read = |name: &str| std::fs::read_to_string(root.join(name)).unwrap();
    for name in ["README.md", "docs/USE.md"] {
        let text = read(name);
        assert!(
            text.contains(&remulingka::limits::house_limits()),
            "{name} has other limits"
        );
        let oldest = format!("Rust {}", env!("CARGO_PKG_RUST_VERSION"));
        assert!(text.contains(&oldest), "{name} names another Rust");
    }
    let version = format!("\n## {}\n", remulingka::VERSION);
    assert!(read("CHANGELOG.md").contains(&version));
}
