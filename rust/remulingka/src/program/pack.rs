//! `remulingka pack` and `remulingka length`.

use std::ffi::OsString;
use std::io::{IsTerminal, Write};
use std::ops::Range;
use std::os::unix::ffi::{OsStrExt, OsStringExt};
use std::path::{Path, PathBuf};

use remulingka::limits::grouped;
use remulingka::Settings;

use super::arguments::Arguments;
use super::console::{complain, note, print, print_bytes, report, Progress};
use super::envi::{guard_data_name, is_header_name, Header, Window};
use super::failure::Failure;
use super::files::{is_dash, keep_apart};
use super::image::Image;
use super::jobs::in_order;
use super::replace::{may_write, Replacement};
use super::split::pack_parts;
use super::stored::{stored_path, stored_text, Part, Scene};
use super::sum::sum_of;

/// One image and where it goes.
pub struct Job {
    pub image: PathBuf,
    pub output: PathBuf,
}

/// `remulingka pack IMAGE.hdr... FILE|FOLDER`
pub fn pack(arguments: &Arguments) -> Result<(), Failure> {
    let jobs = jobs_of(arguments)?;
    let progress = Progress::new();
    if let [job] = jobs.as_slice() {
        let line = pack_one(arguments, &progress, job)?;
        drop(progress);
        return report(&line, is_dash(&job.output));
    }
    let mut failures = Vec::new();
    let work = |job: &Job| pack_one(arguments, &progress, job);
    in_order(arguments.jobs()?, &jobs, work, |_, done| {
        progress.show("");
        match done {
            Ok(line) => report(&line, false),
            Err(failure) => {
                complain(&format!("remulingka: {failure}"));
                failures.push(failure);
                Ok(())
            }
        }
    })?;
    let what = format!(
        "{} of {} images were not packed",
        failures.len(),
        jobs.len()
    );
    match failures.first() {
        None => Ok(()),
        Some(Failure::Refused(_)) => Err(Failure::Refused(what)),
        Some(Failure::Usage(_)) => Err(Failure::Usage(what)),
        Some(Failure::File(_)) => Err(Failure::File(what)),
    }
}

/// The images and their outputs.
fn jobs_of(arguments: &Arguments) -> Result<Vec<Job>, Failure> {
    let Some((output, images)) = arguments.operands().split_last() else {
        return Err(arguments.wrong_operands());
    };
    if images.is_empty() {
        return Err(arguments.wrong_operands());
    }
    let images = images.iter().map(PathBuf::from);
    let output = Path::new(output);
    if !output.is_dir() {
        if output.as_os_str().as_bytes().ends_with(b"/") {
            return Err(Failure::file(output, "there is no such folder"));
        }
        if images.len() > 1 {
            return Err(arguments.usage(&format!(
                "{} images go into a FOLDER, and {} is none",
                images.len(),
                output.display()
            )));
        }
        let output = output.to_path_buf();
        return Ok(images
            .map(|image| Job {
                image,
                output: output.clone(),
            })
            .collect());
    }
    if images.len() > 1 && arguments.path("data").is_some() {
        return Err(arguments.usage("--data is for one image alone"));
    }
    let mut jobs: Vec<Job> = Vec::new();
    for image in images {
        let output = output.join(cube_name(&image));
        if let Some(other) = jobs.iter().find(|job| job.output == output) {
            return Err(arguments.usage(&format!(
                "{} and {} would both become {}",
                other.image.display(),
                image.display(),
                output.display()
            )));
        }
        jobs.push(Job { image, output });
    }
    Ok(jobs)
}

/// The name of a header's cube in a folder.
fn cube_name(image: &Path) -> OsString {
    let name = image.file_name().map_or(b"".as_slice(), OsStrExt::as_bytes);
    let stem = match is_header_name(image) {
        true => &name[..name.len() - ".hdr".len()],
        false => name,
    };
    OsString::from_vec([stem, b".cube"].concat())
}

/// Packs one image; what is to be said of it.
fn pack_one(arguments: &Arguments, progress: &Progress, job: &Job) -> Result<String, Failure> {
    let Job {
        image: path,
        output,
    } = job;
    let image = Image::find(arguments, path)?;
    if arguments.path("split").is_some() {
        return pack_parts(arguments, progress, &image, job);
    }
    if is_dash(output) {
        return pack_to_output(arguments, progress, &image);
    }
    let is_bare = arguments.flag("bare");
    guard_output(arguments, &image, path, output)?;
    let mut files = Replacement::new(arguments.flag("force"));
    let packed = pack_rows(&image, image.window.rows.clone(), |stage| {
        progress.show(&format!("{}: {stage}", path.display()));
    })?;
    progress.show(&format!("{}: writing", output.display()));
    files.add(output, |writer| writer.write_all(&packed.cube))?;
    let stored = stored_path(output);
    if is_bare {
        // An older one is not this cube's.
        files.remove_label(&stored)?;
    } else {
        let text = packed.stored_text(None, &sum_of(&packed.cube));
        files.add_label(&stored, &text)?;
    }
    files.finish()?;
    say_dropped(&image, &packed, is_bare);
    let kept = match is_bare {
        true => String::new(),
        false => format!("; header kept in {}", stored.display()),
    };
    Ok(size_line(output, &packed.settings, packed.cube.len()) + &kept)
}

/// Refuses an output that may not be written, before any work is done.
pub fn guard_output(
    arguments: &Arguments,
    image: &Image,
    path: &Path,
    output: &Path,
) -> Result<(), Failure> {
    if is_header_name(output) {
        return Err(arguments.usage(&format!(
            "{}: a cube's name does not end with .hdr, for it is no ENVI header",
            output.display()
        )));
    }
    let is_forced = arguments.flag("force");
    let stored = stored_path(output);
    for output in [output, stored.as_path()] {
        keep_apart(output, &[path, &image.data])?;
        may_write(output, is_forced)?;
    }
    guard_data_name(output, None)
}

/// A packed cube, and the header to be stored with it.
pub struct Packed {
    pub settings: Settings,
    pub cube: Vec<u8>,
    header: Header,
    part: Part,
    /// Fields that the stored header could not keep.
    left_out: Vec<String>,
}

/// Packs some rows of an image's window, and shows each stage before it begins.
pub fn pack_rows(
    image: &Image,
    rows: Range<usize>,
    show: impl Fn(&str),
) -> Result<Packed, Failure> {
    let window = Window {
        rows: rows.clone(),
        ..image.window.clone()
    };
    show("reading");
    let input = image.input(rows)?;
    let count = grouped(input.settings.sample_count());
    show(&format!("packing {count} samples"));
    let (header, left_out) = image.header.cut(&window);
    let whole = image.header.sizes();
    Ok(Packed {
        settings: input.settings,
        cube: input.pack()?,
        header,
        part: Part { window, whole },
        left_out,
    })
}

impl Packed {
    /// The text to be stored beside the cube of this sum.
    pub fn stored_text(&self, scene: Option<&Scene>, sum: &str) -> Vec<u8> {
        stored_text(&self.header, &self.part, scene, sum)
    }
}

/// Says which fields of the header are not kept.
pub fn say_dropped(image: &Image, packed: &Packed, is_bare: bool) {
    let further = image.header.further();
    if is_bare && !further.is_empty() {
        note(&format!(
            "not kept, for no header is stored: {}",
            further.join(", ")
        ));
    } else if !packed.left_out.is_empty() {
        let names = packed.left_out.join(", ");
        note(&format!(
            "not kept, for this part cannot be cut from them: {names}"
        ));
    }
}

/// Packs to standard output, where no header can be stored.
fn pack_to_output(
    arguments: &Arguments,
    progress: &Progress,
    image: &Image,
) -> Result<String, Failure> {
    if std::io::stdout().is_terminal() {
        return Err(arguments.usage("a cube is not for the terminal; send it to a file or a pipe"));
    }
    let packed = pack_rows(image, image.window.rows.clone(), |stage| {
        progress.show(stage)
    })?;
    print_bytes(&packed.cube)?;
    say_dropped(image, &packed, true);
    let name = Path::new("standard output");
    Ok(size_line(name, &packed.settings, packed.cube.len()))
}

/// The line that says what was packed into how much.
fn size_line(output: &Path, settings: &Settings, length: usize) -> String {
    let count = settings.sample_count();
    format!(
        "{}: {length} bytes for {count} samples, {:.3} bits a sample of {}",
        output.display(),
        8.0 * length as f64 / count as f64,
        settings.depth
    )
}

/// `remulingka length IMAGE.hdr`
pub fn length(arguments: &Arguments) -> Result<(), Failure> {
    let [path] = arguments.exactly()?;
    let image = Image::find(arguments, path)?;
    let length = image.input(image.window.rows.clone())?.length()?;
    print(&format!("{length}\n"))
}
