//! A quick look at a cube: one band in grey or three in colour, and the spectrum of a
//! pixel beside it.

use std::io::{IsTerminal, Write};
use std::path::Path;

use remulingka::Cube;

use super::arguments::Arguments;
use super::console::{print_bytes, report};
use super::envi::{guard_data_name, wavelengths};
use super::failure::Failure;
use super::files::{is_dash, keep_apart};
use super::plot::{beside, Spectrum};
use super::png::{encode, Raster};
use super::replace::{may_write, Replacement};
use super::stored::open_cube;

/// The part of the samples, in hundredths, that each end of the stretch cuts off.
const CUT: usize = 2;
/// A small image is enlarged up to this many points.
const LARGE: usize = 512;

/// `remulingka picture FILE OUT.png`
pub fn picture(arguments: &Arguments) -> Result<(), Failure> {
    let [file, output] = arguments.exactly()?;
    guard_output(arguments, file, output)?;
    let (cube, stored) = open_cube(file, !arguments.flag("no-stored"))?;
    let lengths = stored.and_then(|stored| wavelengths(&stored.header));
    let count = cube.settings.bands as usize;
    let bands = match arguments.text("bands") {
        Some(list) => {
            bands_of(&list, count).map_err(|error| arguments.usage(&format!("--bands: {error}")))?
        }
        None => usual_bands(count, lengths.as_deref()),
    };
    let zoom = match arguments.number("zoom")? {
        Some(0) => return Err(arguments.usage("--zoom: 1 or more")),
        Some(zoom) => zoom,
        None => usual_zoom(&cube),
    };
    let pixel = arguments.text("spectrum");
    let pixel = pixel
        .map(|text| pixel_of(arguments, &text, &cube))
        .transpose()?;
    let picture = encode(&composed(&cube, &bands, zoom, pixel, lengths.as_deref()));
    if is_dash(output) {
        print_bytes(&picture)?;
    } else {
        let mut files = Replacement::new(arguments.flag("force"));
        files.add(output, |writer| writer.write_all(&picture))?;
        files.finish()?;
    }
    let shown: Vec<String> = bands.iter().map(usize::to_string).collect();
    let noun = if shown.len() == 1 { "band" } else { "bands" };
    let spectrum = pixel.map_or(String::new(), |[column, row]| {
        format!(", and the spectrum at column {column}, row {row}")
    });
    let line = format!(
        "{}: a picture of {noun} {} (from 0){spectrum}",
        output.display(),
        shown.join(", ")
    );
    report(&line, is_dash(output))
}

fn guard_output(arguments: &Arguments, file: &Path, output: &Path) -> Result<(), Failure> {
    if is_dash(output) {
        if std::io::stdout().is_terminal() {
            return Err(arguments.usage("a picture is not for the terminal"));
        }
        return Ok(());
    }
    let ending = output.extension().map(|ending| ending.to_ascii_lowercase());
    if ending.is_none_or(|ending| ending != "png") {
        return Err(arguments.usage(&format!(
            "{}: a picture is a PNG, and its name ends with .png",
            output.display()
        )));
    }
    keep_apart(output, &[file])?;
    may_write(output, arguments.flag("force"))?;
    guard_data_name(output, None)
}

/// The column and the row of `X,Y`.
fn pixel_of(arguments: &Arguments, text: &str, cube: &Cube) -> Result<[usize; 2], Failure> {
    let settings = &cube.settings;
    let (columns, rows) = (settings.columns as usize, settings.rows as usize);
    let parsed = text
        .split_once(',')
        .and_then(|(column, row)| Some([column.trim().parse().ok()?, row.trim().parse().ok()?]));
    match parsed {
        Some([column, row]) if column < columns && row < rows => Ok([column, row]),
        _ => Err(arguments.usage(&format!(
            "--spectrum {text}: wanted is X,Y with X below {columns} and Y below {rows}"
        ))),
    }
}

/// The picture, with the spectrum of a pixel beside it if there is one.
pub fn composed(
    cube: &Cube,
    bands: &[usize],
    zoom: usize,
    pixel: Option<[usize; 2]>,
    lengths: Option<&[f64]>,
) -> Raster {
    let picture = enlarged(&raster(cube, bands), zoom);
    let Some([column, row]) = pixel else {
        return picture;
    };
    let settings = &cube.settings;
    let of_band = settings.columns as usize * settings.rows as usize;
    let place = row * settings.columns as usize + column;
    let samples = cube
        .samples
        .chunks(of_band)
        .map(|band| f64::from(band[place]));
    let spectrum = Spectrum {
        values: samples.collect(),
        lengths: lengths.map(<[f64]>::to_vec),
        centre: [column * zoom + zoom / 2, row * zoom + zoom / 2],
        mark: (zoom / 2).max(3),
    };
    beside(&picture, &spectrum)
}

/// Red, green and blue: by wavelength where it is known and the bands reach so far, or
/// else at five sixths, a half and a sixth of the bands. Under three, the first.
fn usual_bands(count: usize, lengths: Option<&[f64]>) -> Vec<usize> {
    if count < 3 {
        return vec![0];
    }
    let nearest = |lengths: &[f64], wanted: f64| {
        let distance = |band: &usize| (lengths[*band] - wanted).abs();
        let band = (0..count).min_by(|one, other| distance(one).total_cmp(&distance(other)))?;
        (distance(&band) < 50.0).then_some(band)
    };
    let seen = lengths.and_then(|lengths| {
        let colours = [650.0, 550.0, 450.0].map(|wanted| nearest(lengths, wanted));
        colours.into_iter().collect::<Option<Vec<usize>>>()
    });
    seen.unwrap_or(vec![count * 5 / 6, count / 2, count / 6])
}

/// As large as `LARGE` points hold.
pub fn usual_zoom(cube: &Cube) -> usize {
    let longest = cube.settings.columns.max(cube.settings.rows) as usize;
    (LARGE / longest.max(1)).max(1)
}

/// One band or three, parted by commas.
fn bands_of(list: &str, count: usize) -> Result<Vec<usize>, String> {
    let bands: Result<Vec<usize>, String> = list
        .split(',')
        .map(|word| match word.trim().parse() {
            Ok(band) if band < count => Ok(band),
            _ => Err(format!("{word} is no band from 0 to {}", count - 1)),
        })
        .collect();
    match bands? {
        bands if bands.len() == 1 || bands.len() == 3 => Ok(bands),
        bands => Err(format!("one band or three, not {}", bands.len())),
    }
}

/// The picture of the bands, each stretched by itself.
fn raster(cube: &Cube, bands: &[usize]) -> Raster {
    let (width, height) = (cube.settings.columns as usize, cube.settings.rows as usize);
    let mut bytes = vec![0; width * height * bands.len()];
    for (channel, &band) in bands.iter().enumerate() {
        let samples = &cube.samples[band * width * height..][..width * height];
        let (low, high) = stretch_ends(samples);
        for (pixel, &sample) in samples.iter().enumerate() {
            bytes[pixel * bands.len() + channel] = stretched(sample, low, high);
        }
    }
    Raster {
        width,
        height,
        channels: bands.len(),
        bytes,
    }
}

/// Each pixel `zoom` by `zoom`.
fn enlarged(raster: &Raster, zoom: usize) -> Raster {
    let (channels, width) = (raster.channels, raster.width);
    let mut bytes = Vec::with_capacity(raster.bytes.len() * zoom * zoom);
    for row in raster.bytes.chunks(width * channels) {
        let pixels = row.chunks(channels);
        let wide: Vec<u8> = pixels.flat_map(|pixel| pixel.repeat(zoom)).collect();
        for _ in 0..zoom {
            bytes.extend(&wide);
        }
    }
    Raster {
        width: width * zoom,
        height: raster.height * zoom,
        channels,
        bytes,
    }
}

/// The samples that become black and white: a few outliers should not leave all
/// others in one grey.
fn stretch_ends(samples: &[i32]) -> (i32, i32) {
    let mut sorted = samples.to_vec();
    sorted.sort_unstable();
    let last = sorted.len() - 1;
    (sorted[last * CUT / 100], sorted[last - last * CUT / 100])
}

fn stretched(sample: i32, low: i32, high: i32) -> u8 {
    if low == high {
        return 128;
    }
    let sample = sample.clamp(low, high);
    ((sample - low) * 255 / (high - low)) as u8
}
