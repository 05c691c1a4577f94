//! Scenes larger than one cube: `remulingka pack --split`.

use std::io::Write;
use std::ops::Range;
use std::path::{Path, PathBuf};

use remulingka::MOST_SAMPLES;

use super::arguments::Arguments;
use super::console::Progress;
use super::envi::Window;
use super::failure::Failure;
use super::files::is_dash;
use super::image::{counted, Image};
use super::pack::{guard_output, pack_rows, say_dropped, Job};
use super::replace::Replacement;
use super::stored::{stored_path, Scene};
use super::sum::sum_of;

/// The standard's limit on the rows of an image.
const MOST_ROWS: usize = 1 << 16;

/// The name of a part: its number before the ending.
fn part_name(output: &Path, number: usize) -> PathBuf {
    let stem = output.file_stem().unwrap_or_default();
    let mut name = stem.to_os_string();
    name.push(format!(".{number:04}"));
    if let Some(ending) = output.extension() {
        name.push(".");
        name.push(ending);
    }
    output.with_file_name(name)
}

/// The most rows of a window that one cube holds; one where it holds none, which is
/// then refused.
fn most_rows(window: &Window) -> usize {
    let [columns, _, bands] = window.sizes();
    let of_row = columns.saturating_mul(bands).max(1);
    (MOST_SAMPLES / of_row).clamp(1, MOST_ROWS)
}

/// The rows of each part.
fn part_rows(arguments: &Arguments, window: &Window) -> Result<Vec<Range<usize>>, Failure> {
    let size = match arguments.text("split").as_deref() {
        Some("most") => most_rows(window),
        _ => match arguments.number("split")? {
            Some(size @ 1..) => size,
            _ => return Err(arguments.usage("--split: a count of rows, or most")),
        },
    };
    let starts = window.rows.clone().step_by(size);
    let end_of = |start: usize| start.saturating_add(size).min(window.rows.end);
    Ok(starts.map(|start| start..end_of(start)).collect())
}

/// Packs an image in parts of some rows. Each stored header says which rows its part
/// has, and all have in common a sum over all parts' sums, so that parts of two scenes
/// are never joined.
pub fn pack_parts(
    arguments: &Arguments,
    progress: &Progress,
    image: &Image,
    job: &Job,
) -> Result<String, Failure> {
    if is_dash(&job.output) || is_dash(&image.data) || arguments.flag("bare") {
        return Err(arguments.usage("--split is not for standard input or output, nor for --bare"));
    }
    let rows = part_rows(arguments, &image.window)?.into_iter();
    let parts: Vec<(PathBuf, Range<usize>)> = rows
        .enumerate()
        .map(|(index, rows)| (part_name(&job.output, index + 1), rows))
        .collect();
    for (name, _) in &parts {
        guard_output(arguments, image, &job.image, name)?;
    }
    let (Some((first, _)), Some((last, _))) = (parts.first(), parts.last()) else {
        return Err(Failure::refused(&job.image, "this image has no rows"));
    };
    let mut files = Replacement::new(arguments.flag("force"));
    let bytes = add_parts(&mut files, progress, image, &parts)?;
    files.finish()?;
    let samples = image.window.sample_count();
    Ok(format!(
        "{} to {}: {}, {bytes} bytes for {samples} samples, {:.3} bits a sample; headers kept \
         beside them",
        first.display(),
        last.display(),
        counted(parts.len() as u64, "part"),
        8.0 * bytes as f64 / samples as f64,
    ))
}

/// Packs one part after the other, and then adds their stored headers; the bytes of all
/// cubes.
fn add_parts(
    files: &mut Replacement,
    progress: &Progress,
    image: &Image,
    parts: &[(PathBuf, Range<usize>)],
) -> Result<usize, Failure> {
    let (mut labels, mut bytes) = (Vec::new(), 0);
    for (index, (name, rows)) in parts.iter().enumerate() {
        let shown = name.display();
        let (number, count) = (index + 1, parts.len());
        let mut packed = pack_rows(image, rows.clone(), |stage| {
            progress.show(&format!("{shown}: {number} of {count}, {stage}"));
        })?;
        files.add(name, |writer| writer.write_all(&packed.cube))?;
        bytes += packed.cube.len();
        if index == 0 {
            say_dropped(image, &packed, false);
        }
        let sum = sum_of(&packed.cube);
        // The cube is on the disk; memory need not hold it too.
        packed.cube = Vec::new();
        labels.push((name, packed, sum));
    }
    let sums: String = labels.iter().map(|(_, _, sum)| sum.as_str()).collect();
    let scene = Scene {
        identity: sum_of(sums.as_bytes()),
        rows: image.window.rows.clone(),
    };
    for (name, packed, sum) in labels {
        files.add_label(&stored_path(name), &packed.stored_text(Some(&scene), &sum))?;
    }
    Ok(bytes)
}

#[cfg(test)]
mod tests {
    use super::{most_rows, part_name, Path, Window, MOST_ROWS, MOST_SAMPLES};

    #[test]
    fn the_most_rows_are_the_most_that_a_cube_holds() {
        for [columns, bands] in [[1024, 1], [320, 100], [614, 224], [3, 7]] {
            let rows = most_rows(&Window::whole([columns, 1_000_000, bands]));
            assert!(rows * columns * bands <= MOST_SAMPLES && rows <= MOST_ROWS);
            assert!((rows + 1) * columns * bands > MOST_SAMPLES || rows == MOST_ROWS);
        }
        // A row that no cube holds is a part of its own, and is refused.
        assert_eq!(most_rows(&Window::whole([MOST_SAMPLES, 5, 2])), 1);
    }

    #[test]
    fn the_number_stands_before_the_ending() {
        let name = |output: &str, number| part_name(Path::new(output), number);
        assert_eq!(name("a/scene.cube", 3), Path::new("a/scene.0003.cube"));
        assert_eq!(name("scene", 12345), Path::new("scene.12345"));
    }
}
