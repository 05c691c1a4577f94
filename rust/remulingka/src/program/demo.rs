//! A small synthetic forage plot, packed, opened and compared.

use std::fs;
use std::io::Write;
use std::path::{Path, PathBuf};

use remulingka::{Cube, Settings};

use super::arguments::Arguments;
use super::console::report;
use super::envi::{wavelengths, write_samples, Header, Window};
use super::failure::Failure;
use super::picture::{composed, usual_zoom};
use super::png::encode;
use super::replace::Replacement;
use super::stored::{stored_path, stored_text, Part};
use super::sum::sum_of;

const COLUMNS: usize = 64;
const ROWS: usize = 64;
const BANDS: usize = 32;
const DEPTH: i32 = 12;
/// The shortest wavelength in nanometres, and that from band to band.
const SHORTEST: usize = 430;
const STEP: usize = 16;
/// The bands of the picture: infrared as red, red as green and green as blue, the
/// colours in which leaves are told from soil.
const SHOWN: [usize; 3] = [27, 14, 8];
/// The pixel whose spectrum is shown: in a sown strip.
const PIXEL: [usize; 2] = [2, 60];

/// `remulingka demo [FOLDER]`
pub fn demo(arguments: &Arguments) -> Result<(), Failure> {
    let folder = match arguments.operands() {
        [] => None,
        [folder] => Some(Path::new(folder)),
        _ => return Err(arguments.wrong_operands()),
    };
    let refused = |refusal: remulingka::Refusal| Failure::Refused(refusal.to_string());
    let samples = forage_plot();
    let settings = Settings::for_image(COLUMNS as i32, ROWS as i32, BANDS as i32, false, DEPTH);
    let count = remulingka::length(&settings, None, &samples).map_err(refused)?;
    let file = remulingka::pack(&settings, None, &samples).map_err(refused)?;
    let cube = remulingka::open(&file).map_err(refused)?;
    if cube.samples != samples || cube.settings != settings || count != file.len() as u64 {
        let what = "the plot came back otherwise than it was packed";
        return Err(Failure::Refused(what.to_string()));
    }
    let plain_bits = samples.len() * DEPTH as usize;
    let text = format!(
        "a forage plot of {COLUMNS} columns, {ROWS} rows and {BANDS} bands of {DEPTH} bits\n\
         in 16-bit words     {:>8} bytes\n\
         in {DEPTH}-bit words     {:>8} bytes\n\
         packed              {:>8} bytes, {:.3} bits a sample\n\
         opened again: every sample and every setting as before",
        2 * samples.len(),
        plain_bits / 8,
        file.len(),
        8.0 * file.len() as f64 / samples.len() as f64,
    );
    report(&text, false)?;
    match folder {
        Some(folder) => write_files(arguments, folder, &cube, &file),
        None => Ok(()),
    }
}

/// The plot's header, with wavelengths.
fn plot_header() -> Result<Header, Failure> {
    let lengths = (0..BANDS).map(|band| (SHORTEST + STEP * band).to_string());
    let lengths: Vec<String> = lengths.collect();
    let text = format!(
        "ENVI\ndescription = {{a made forage plot}}\nsamples = {COLUMNS}\nlines = {ROWS}\n\
         bands = {BANDS}\nheader offset = 0\nfile type = ENVI Standard\ndata type = 12\n\
         interleave = bil\nbyte order = 0\nwavelength units = Nanometers\nwavelength = {{{}}}\n",
        lengths.join(", ")
    );
    Header::parse(text.as_bytes()).map_err(Failure::Refused)
}

/// Writes the plot as an ENVI image, its cube file with its stored header, and a
/// picture. Where they all are already, as they would be, there is nothing to do.
fn write_files(
    arguments: &Arguments,
    folder: &Path,
    cube: &Cube,
    file: &[u8],
) -> Result<(), Failure> {
    fs::create_dir_all(folder).map_err(|error| Failure::file(folder, error))?;
    let header = plot_header()?;
    let mut data = Vec::new();
    write_samples(&mut data, &header, &cube.samples)
        .map_err(|error| Failure::file(folder, error))?;
    let lengths = wavelengths(&header);
    let (zoom, pixel) = (usual_zoom(cube), Some(PIXEL));
    let picture = encode(&composed(cube, &SHOWN, zoom, pixel, lengths.as_deref()));
    let whole = header.sizes();
    let window = Window::whole(whole);
    let stored = stored_text(&header, &Part { window, whole }, None, &sum_of(file));
    let cube_path = folder.join("plot.cube");
    let outputs: [(PathBuf, &[u8], bool); 5] = [
        (folder.join("plot.img"), &data, false),
        (folder.join("plot.hdr"), &header.text(), true),
        (stored_path(&cube_path), &stored, true),
        (cube_path, file, false),
        (folder.join("plot.png"), &picture, false),
    ];
    let names = "plot.hdr, plot.img, plot.cube, plot.cube.envi and plot.png";
    let is_same = |(path, bytes, _): &(PathBuf, &[u8], bool)| {
        fs::read(path).is_ok_and(|there| there == *bytes)
    };
    if outputs.iter().all(is_same) {
        return report(
            &format!("{}: {names} are there already", folder.display()),
            false,
        );
    }
    let mut files = Replacement::new(arguments.flag("force"));
    for (path, bytes, is_label) in outputs {
        match is_label {
            true => files.add_label(&path, bytes)?,
            false => files.add(&path, |writer| writer.write_all(bytes))?,
        }
    }
    files.finish()?;
    report(&format!("{}: {names} written", folder.display()), false)
}

/// A small generator, so that the plot is the same everywhere.
struct Noise(u64);

impl Noise {
    /// A number from −1 to 1 whose middle values are the likelier ones.
    fn next(&mut self) -> f64 {
        let mut uniform = || {
            let factor = 6_364_136_223_846_793_005;
            self.0 = self
                .0
                .wrapping_mul(factor)
                .wrapping_add(1_442_695_040_888_963_407);
            (self.0 >> 33) as f64 / (1_u64 << 31) as f64
        };
        uniform() + uniform() - 1.0
    }
}

/// The reflectance of soil at a place of the spectrum from 0 (blue) to 1.
fn soil(wavelength: f64) -> f64 {
    0.12 + 0.25 * wavelength
}

/// The reflectance of leaves: a green hump, the red dip, and the red edge up to
/// the bright infrared.
fn leaves(wavelength: f64) -> f64 {
    let green = 0.08 * (-((wavelength - 0.25) / 0.08).powi(2)).exp();
    let edge = 1.0 / (1.0 + (-(wavelength - 0.55) / 0.03).exp());
    0.04 + green + 0.45 * edge
}

/// The samples of the plot: sown strips of growing cover under a slow change of
/// light, with a sensor's noise.
fn forage_plot() -> Vec<i32> {
    let mut noise = Noise(2012);
    let mut samples = Vec::with_capacity(COLUMNS * ROWS * BANDS);
    for band in 0..BANDS {
        let wavelength = band as f64 / (BANDS - 1) as f64;
        for row in 0..ROWS {
            for column in 0..COLUMNS {
                let (across, along) = (column as f64 / 64.0, row as f64 / 64.0);
                let strip = (across * 50.0).sin().max(0.0);
                let cover = (strip * (0.3 + 0.7 * along)).clamp(0.0, 1.0);
                let light = 0.9 + 0.1 * (3.0 * along + across).cos();
                let reflectance =
                    light * (cover * leaves(wavelength) + (1.0 - cover) * soil(wavelength));
                let sample = 4095.0 * reflectance + 6.0 * noise.next();
                samples.push(sample.round().clamp(0.0, 4095.0) as i32);
            }
        }
    }
    samples
}
