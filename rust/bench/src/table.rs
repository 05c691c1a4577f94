//! The figures as lines and as a document.

use std::process::Command;

use crate::measure::Row;

/// The heading of the lines printed during the run.
pub fn heading() -> String {
    format!(
        "{:<6}{:<7}{:<8}{:>3}{:>4}{:>10}{:>10}{:>8}",
        "call", "order", "image", "P", "D", "ours", "plain", "ratio"
    )
}

/// One line.
pub fn line(row: &Row) -> String {
    format!(
        "{:<6}{:<7}{:<8}{:>3}{:>4}{:>10.2}{:>10.2}{:>8.2}",
        row.call,
        row.order,
        row.kind,
        row.prediction_bands,
        row.depth,
        row.ours,
        row.plain,
        row.ratio
    )
}

/// The mean of ratios is the geometric one: twice and half make one.
fn mean_ratio<'a>(rows: impl Iterator<Item = &'a Row>) -> f64 {
    let (sum, count) = rows.fold((0.0, 0), |(sum, count), row| {
        (sum + row.ratio.ln(), count + 1)
    });
    (sum / f64::from(count.max(1))).exp()
}

/// The mean and the worst ratio of each call.
pub fn summary(rows: &[Row]) -> String {
    let of_call = |call| {
        let of_call = || rows.iter().filter(move |row| row.call == call);
        let worst = of_call().map(|row| row.ratio).fold(f64::INFINITY, f64::min);
        let mean = mean_ratio(of_call());
        format!("{call}: ratio {mean:.2} in the mean, {worst:.2} at worst")
    };
    format!("{}; {}", of_call("pack"), of_call("open"))
}

/// The processor's name where the system tells it, its kind, and its cores.
fn machine() -> String {
    let information = std::fs::read_to_string("/proc/cpuinfo").unwrap_or_default();
    let model = information
        .lines()
        .find_map(|line| line.strip_prefix("model name"))
        .map_or("unnamed processor", |rest| {
            rest.trim_start_matches([' ', '\t', ':'])
        });
    let cores = std::thread::available_parallelism().map_or(0, |count| count.get());
    format!("{model}, {}, {cores} cores", std::env::consts::ARCH)
}

/// What git calls the edition, with a mark if there are changes.
fn commit_of_git() -> Option<String> {
    let output = Command::new("git")
        .args(["describe", "--always", "--dirty"])
        .output()
        .ok()?;
    let name = String::from_utf8(output.stdout).ok()?.trim().to_string();
    (output.status.success() && !name.is_empty()).then_some(name)
}

/// The command, without where its output lies and what the edition is called.
fn command() -> String {
    let mut command = String::from("rust/target/release/bench");
    let mut words = std::env::args().skip(1);
    while let (Some(option), Some(value)) = (words.next(), words.next()) {
        if option == "--seconds" {
            command.push_str(&format!(" {option} {value}"));
        }
    }
    command
}

/// The document.
pub fn document(rows: &[Row], commit: Option<&str>) -> String {
    let commit = commit
        .map(str::to_string)
        .or_else(commit_of_git)
        .unwrap_or("unknown".to_string());
    let mut text = format!(
        "# Speed\n\n\
         Millions of samples a second, the archive (ours) beside the plain program, in one run, \
         turn by turn: the best turn of each, and the middle one of the turns' ratios. Lent memory \
         is cleared before each turn. A ratio of 1 is the same speed, 2 is twice as fast as the \
         plain program. On a shared machine only the ratios mean something.\n\n\
         - machine: {}\n- commit: {commit}\n- command: `{}`\n- cube: 32 × 32 × 64, unsigned, the \
         command line's usual settings\n\n\
         **{}**\n\n\
         | call | order | image | P | D | ours | plain | ratio |\n\
         |---|---|---|---|---|---|---|---|\n",
        machine(),
        command(),
        summary(rows)
    );
    for row in rows {
        text.push_str(&format!(
            "| {} | {} | {} | {} | {} | {:.2} | {:.2} | {:.2} |\n",
            row.call,
            row.order,
            row.kind,
            row.prediction_bands,
            row.depth,
            row.ours,
            row.plain,
            row.ratio
        ));
    }
    text
}
