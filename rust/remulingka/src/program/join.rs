//! `remulingka open --join`: the parts of a scene become one image.

use std::ffi::OsString;
use std::io;
use std::path::{Path, PathBuf};

use super::arguments::Arguments;
use super::console::Progress;
use super::envi::{write_rows, Header};
use super::failure::Failure;
use super::files::is_dash;
use super::image::counted;
use super::open::{output_header, refuse_unheld, Target};
use super::replace::Replacement;
use super::stored::{open_cube, Part, Scene, Stored};
use super::sum::sum_of;

/// A part of a scene that is joined.
struct ScenePart {
    file: PathBuf,
    stored: Stored,
    part: Part,
    scene: Scene,
}

/// `remulingka open --join FILE... IMAGE.hdr`
pub fn join(arguments: &Arguments) -> Result<(), Failure> {
    let Some((image, files)) = arguments.operands().split_last() else {
        return Err(arguments.wrong_operands());
    };
    let inputs: Vec<&Path> = files.iter().map(Path::new).collect();
    if inputs.is_empty() || arguments.flag("no-stored") || arguments.path("tables").is_some() {
        let what = "open --join takes FILE... and IMAGE.hdr, and neither --no-stored nor --tables";
        return Err(arguments.usage(what));
    }
    let target = Target::of(arguments, Path::new(image), &inputs)?;
    let (Some(header_path), false) = (target.header, is_dash(&target.data)) else {
        return Err(arguments.usage("--join writes files, not standard output"));
    };
    let parts = scene_parts(files)?;
    let first = &parts[0];
    let [columns, _, bands] = first.part.window.sizes();
    let sizes = [columns, first.scene.rows.len(), bands];
    let usual = first.stored.header.sample_type;
    let (header, origin) =
        output_header(arguments, sizes, usual, Some(&first.stored), &first.file)?;
    let mut files = Replacement::new(arguments.flag("force"));
    add_data(arguments, &mut files, &target.data, &header, &parts)?;
    files.add_label(header_path, &header.text())?;
    files.finish()?;
    let count = counted(parts.len() as u64, "part");
    target.report(&header, &format!("{count} joined; {origin}"))
}

/// Writes the data: one part after the other is opened and written to its rows, so
/// that memory holds but one.
fn add_data(
    arguments: &Arguments,
    files: &mut Replacement,
    path: &Path,
    header: &Header,
    parts: &[ScenePart],
) -> Result<(), Failure> {
    let progress = Progress::new();
    let opened = |part: &ScenePart| {
        let (cube, _) = open_cube(&part.file, true)?;
        refuse_unheld(arguments, header, &cube.samples)?;
        Ok(cube)
    };
    let mut failed = None;
    let added = files.add(path, |writer| {
        for (index, part) in parts.iter().enumerate() {
            let shown = part.file.display();
            progress.show(&format!("{shown}: {} of {}", index + 1, parts.len()));
            let cube = opened(part).map_err(|failure| {
                failed = Some(failure);
                io::Error::from(io::ErrorKind::Other)
            })?;
            let row = part.part.window.rows.start - part.scene.rows.start;
            write_rows(writer, header, row, &cube.samples)?;
        }
        Ok(())
    });
    // What went wrong with a part says more than that the data was not written.
    failed.map_or(added, Err)
}

/// The parts in the order of their rows, at least one. They must be of one scene, and
/// none may be missing.
fn scene_parts(files: &[OsString]) -> Result<Vec<ScenePart>, Failure> {
    let parts = files.iter().map(scene_part);
    let mut parts = parts.collect::<Result<Vec<ScenePart>, Failure>>()?;
    parts.sort_by_key(|part| part.part.window.rows.start);
    for pair in parts.windows(2) {
        refuse_apart(&pair[0], &pair[1])?;
    }
    refuse_missing_ends(&parts)?;
    let sums = parts.iter().filter_map(|part| part.stored.sum.as_deref());
    let sums: String = sums.collect();
    let first = &parts[0];
    if sum_of(sums.as_bytes()) != first.scene.identity {
        let what = "these parts were not packed together, by the sums stored beside them";
        return Err(Failure::refused(&first.file, what));
    }
    Ok(parts)
}

/// A part, by what is stored beside it.
fn scene_part(file: &OsString) -> Result<ScenePart, Failure> {
    let file = PathBuf::from(file);
    let lacking = |what: &str| Failure::refused(&file, format!("{what}, so it cannot be joined"));
    let stored = Stored::read(&file)?.ok_or_else(|| lacking("it has no stored header"))?;
    let Some(part) = stored.part.clone() else {
        return Err(lacking("its stored header does not say which part it is"));
    };
    let Some(scene) = stored.scene.clone() else {
        return Err(lacking("it is no part that pack --split made"));
    };
    Ok(ScenePart {
        file,
        stored,
        part,
        scene,
    })
}

/// Refuses two parts of which the one does not begin where the other ends.
fn refuse_apart(before: &ScenePart, after: &ScenePart) -> Result<(), Failure> {
    let refused = |what: String| Err(Failure::refused(&after.file, what));
    if before.scene != after.scene {
        let other = before.file.display();
        return refused(format!("this is of another scene than {other}"));
    }
    let (end, start) = (before.part.window.rows.end, after.part.window.rows.start);
    if start > end {
        return refused(format!("rows {end}:{start} before it are missing"));
    }
    if start < end {
        let end = end.min(after.part.window.rows.end);
        return refused(format!("rows {start}:{end} before it are there twice"));
    }
    Ok(())
}

/// Refuses parts of which the first or the last is missing.
fn refuse_missing_ends(parts: &[ScenePart]) -> Result<(), Failure> {
    let (Some(first), Some(last)) = (parts.first(), parts.last()) else {
        return Ok(());
    };
    let (start, end) = (first.part.window.rows.start, last.part.window.rows.end);
    let (scene_start, scene_end) = (first.scene.rows.start, first.scene.rows.end);
    if start != scene_start {
        let what = format!("rows {scene_start}:{start} before it are missing");
        return Err(Failure::refused(&first.file, what));
    }
    if end != scene_end {
        let what = format!("rows {end}:{scene_end} behind it are missing");
        return Err(Failure::refused(&last.file, what));
    }
    Ok(())
}
