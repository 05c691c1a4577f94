//! `remulingka open` and `remulingka look`.

use std::io::{self, IsTerminal, Write};
use std::path::{Path, PathBuf};

use remulingka::{Cube, Settings};

use super::arguments::Arguments;
use super::console::{note, print, report, Progress};
use super::envi::{
    guard_data_name, guard_header_name, is_header_name, write_samples, Header, Interleave,
    SampleType,
};
use super::failure::Failure;
use super::files::{is_dash, keep_apart, read_cube_start};
use super::image::{refused_file, window_of};
use super::join::join;
use super::names::{tables_text, SETTINGS};
use super::replace::{may_write, Replacement};
use super::stored::{open_cube, stored_path, without_ours, Stored};

/// `remulingka open FILE IMAGE.hdr`
pub fn open(arguments: &Arguments) -> Result<(), Failure> {
    if arguments.flag("join") {
        return join(arguments);
    }
    let [file, image] = arguments.exactly()?;
    let target = Target::of(arguments, image, &[file])?;
    let progress = Progress::new();
    progress.show("opening");
    let (cube, stored) = open_cube(file, !arguments.flag("no-stored"))?;
    let settings = &cube.settings;
    let sizes = sizes_of(settings);
    let usual = SampleType::of_depth(settings.signed, settings.depth);
    let (header, origin) = output_header(arguments, sizes, usual, stored.as_ref(), file)?;
    refuse_unheld(arguments, &header, &cube.samples)?;
    progress.show("writing");
    write_image(arguments, &target, &header, &cube)?;
    drop(progress);
    target.report(&header, &origin)
}

fn sizes_of(settings: &Settings) -> [usize; 3] {
    [settings.columns, settings.rows, settings.bands].map(|size| size as usize)
}

/// Where the header and the data go; nothing for a header that is not written.
pub struct Target<'a> {
    pub header: Option<&'a Path>,
    pub data: PathBuf,
}

impl<'a> Target<'a> {
    /// The outputs, and a failure if one of them may not be written.
    pub fn of(
        arguments: &Arguments,
        image: &'a Path,
        inputs: &[&Path],
    ) -> Result<Target<'a>, Failure> {
        let header = (!is_dash(image)).then_some(image);
        if header.is_some_and(|header| !is_header_name(header)) {
            return Err(Failure::Usage(format!(
                "{}: an ENVI header's name ends with .hdr",
                image.display()
            )));
        }
        let data = match (arguments.path("data"), header) {
            (Some(data), _) => data.to_path_buf(),
            (None, Some(header)) => header.with_extension("img"),
            (None, None) => image.to_path_buf(),
        };
        let target = Target { header, data };
        if is_dash(&target.data) && io::stdout().is_terminal() {
            return Err(
                arguments.usage("data is not for the terminal; send it to a file or a pipe")
            );
        }
        let is_forced = arguments.flag("force");
        let tables = arguments.path("tables");
        let named = [header, Some(target.data.as_path()), tables];
        for output in named
            .into_iter()
            .flatten()
            .filter(|output| !is_dash(output))
        {
            keep_apart(output, inputs)?;
            may_write(output, is_forced)?;
        }
        if let Some(header) = header {
            guard_header_name(header, &target.data)?;
        }
        if !is_dash(&target.data) {
            guard_data_name(&target.data, header)?;
        }
        if let Some(tables) = tables {
            guard_data_name(tables, None)?;
        }
        Ok(target)
    }

    pub fn report(&self, header: &Header, origin: &str) -> Result<(), Failure> {
        let Header {
            columns,
            rows,
            bands,
            ..
        } = header;
        let (name, data) = match self.header {
            Some(name) => (name.display().to_string(), self.data.display().to_string()),
            None => {
                let order = u8::from(header.big_endian);
                let layout = format!(
                    "type {}, {}, byte order {order}",
                    header.sample_type.number,
                    header.interleave.name()
                );
                (layout, "standard output".to_string())
            }
        };
        let line = format!(
            "{name}: {columns} columns, {rows} rows, {bands} bands; data in {data}; {origin}"
        );
        report(&line, is_dash(&self.data))
    }
}

/// Writes the data, the tables if they are asked for, and last the header.
fn write_image(
    arguments: &Arguments,
    target: &Target,
    header: &Header,
    cube: &Cube,
) -> Result<(), Failure> {
    let mut files = Replacement::new(arguments.flag("force"));
    if is_dash(&target.data) {
        let mut output = io::stdout().lock();
        let written = write_samples(&mut output, header, &cube.samples);
        written
            .and_then(|()| output.flush())
            .map_err(|error| Failure::File(format!("standard output: {error}")))?;
    } else {
        files.add(&target.data, |writer| {
            write_samples(writer, header, &cube.samples)
        })?;
    }
    if let Some(tables) = arguments.path("tables") {
        files.add(tables, |writer| {
            writer.write_all(tables_text(&cube.tables).as_bytes())
        })?;
    }
    if let Some(path) = target.header {
        files.add_label(path, &header.text())?;
    }
    files.finish()
}

/// The header of the image that is written, and where its fields are from.
pub fn output_header(
    arguments: &Arguments,
    sizes: [usize; 3],
    usual: SampleType,
    stored: Option<&Stored>,
    file: &Path,
) -> Result<(Header, String), Failure> {
    let like = arguments.path("like");
    let (mut header, origin) = match (like, stored) {
        (Some(like), _) => (like_header(arguments, like, sizes)?, like.to_path_buf()),
        (None, Some(stored)) => (stored.header.clone(), stored_path(file)),
        (None, None) => (Header::plain(usual), PathBuf::new()),
    };
    let origin = match origin.as_os_str().is_empty() {
        true => "no stored header, so sizes and type alone are known".to_string(),
        false => format!("fields as in {}", origin.display()),
    };
    [header.columns, header.rows, header.bands] = sizes;
    header.offset = 0;
    if let Some(number) = arguments.number("type")? {
        header.sample_type = SampleType::of_number(number)
            .map_err(|_| arguments.usage("--type: 1, 2, 3, 12, 13, 14 or 15"))?;
    }
    if let Some(name) = arguments.text("interleave") {
        header.interleave = Interleave::of_name(&name)
            .ok_or_else(|| arguments.usage("--interleave: bsq, bil or bip"))?;
    }
    match arguments.number("byte-order")? {
        None => {}
        Some(order @ 0..=1) => header.big_endian = order == 1,
        Some(_) => return Err(arguments.usage("--byte-order: 0 or 1")),
    }
    Ok((header, origin))
}

/// Another image's header, cut to the window that options give. Its sizes must then be
/// the cube's, or its wavelengths and places would be wrong.
fn like_header(arguments: &Arguments, like: &Path, sizes: [usize; 3]) -> Result<Header, Failure> {
    let whole = Header::read(like)?;
    let window = window_of(arguments, &whole)?;
    let (mut header, left_out) = whole.cut(&window);
    without_ours(&mut header);
    if header.sizes() != sizes {
        let words = |[columns, rows, bands]: [usize; 3]| {
            format!("{columns} columns, {rows} rows and {bands} bands")
        };
        let what = format!(
            "this header is of {}, and the cube has {}; where the cube is a part of that image, \
             say which with --rows, --columns and --take-bands",
            words(header.sizes()),
            words(sizes)
        );
        return Err(Failure::refused(like, what));
    }
    if !left_out.is_empty() {
        let names = left_out.join(", ");
        note(&format!(
            "not kept, for this part cannot be cut from them: {names}"
        ));
    }
    Ok(header)
}

pub fn refuse_unheld(
    arguments: &Arguments,
    header: &Header,
    samples: &[i32],
) -> Result<(), Failure> {
    let mut samples = samples.iter();
    match samples.find(|&&sample| !header.sample_type.holds(sample)) {
        None => Ok(()),
        Some(sample) => Err(arguments.usage(&format!(
            "data type {} does not hold the sample {sample}; choose another with --type",
            header.sample_type.number
        ))),
    }
}

/// `remulingka look FILE`
pub fn look(arguments: &Arguments) -> Result<(), Failure> {
    let [path] = arguments.exactly()?;
    let bytes = read_cube_start(path)?;
    let settings =
        remulingka::look(&bytes).map_err(|refusal| refused_file(path, &bytes, refusal))?;
    let sizes = [
        ("columns", "Nx", settings.columns),
        ("rows", "Ny", settings.rows),
        ("bands", "Nz", settings.bands),
    ];
    let mut text = String::new();
    if arguments.flag("as-settings") {
        for (name, _, size) in sizes {
            text.push_str(&format!("# {name} = {size}\n"));
        }
        for setting in &SETTINGS {
            text.push_str(&format!(
                "{} = {}\n",
                setting.name,
                (setting.show)(&settings)
            ));
        }
    } else {
        for (name, symbol, size) in sizes {
            text.push_str(&format!("{name:<24}{symbol:<6}{size}\n"));
        }
        for setting in &SETTINGS {
            let value = (setting.show)(&settings);
            text.push_str(&format!(
                "{:<24}{:<6}{value}\n",
                setting.name, setting.symbol
            ));
        }
    }
    print(&text)
}
