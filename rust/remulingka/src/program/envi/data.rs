//! The raw data, read and written in pieces: no second copy of an image is made.

use std::fs::File;
use std::io::{self, BufReader, Read, Seek, SeekFrom, Write};
use std::path::Path;

use super::super::console::warn;
use super::super::failure::Failure;
use super::super::files::is_dash;
use super::cut::Window;
use super::header::Header;
use super::types::Interleave;

/// Samples of one piece.
const PIECE: usize = 1 << 15;

/// Where data comes from. It is only ever read forwards.
enum Source {
    File(BufReader<File>),
    Input(BufReader<io::Stdin>),
}

impl Source {
    fn skip(&mut self, count: u64) -> io::Result<()> {
        match self {
            // Within the buffer this costs no call.
            Source::File(file) => file.seek_relative(count as i64),
            Source::Input(input) => {
                let skipped = io::copy(&mut input.take(count), &mut io::sink())?;
                if skipped < count {
                    return Err(io::ErrorKind::UnexpectedEof.into());
                }
                Ok(())
            }
        }
    }

    fn read_exact(&mut self, bytes: &mut [u8]) -> io::Result<()> {
        match self {
            Source::File(file) => file.read_exact(bytes),
            Source::Input(input) => input.read_exact(bytes),
        }
    }
}

/// Reads the samples of a window, band by band and row by row. Data that is longer
/// than its header says is refused unless the user named it.
pub fn read_samples(
    path: &Path,
    is_named: bool,
    header: &Header,
    window: &Window,
) -> Result<Vec<i32>, Failure> {
    let source = open_source(path, is_named, header)?;
    gather(source, header, window).map_err(|error| match error.kind() {
        io::ErrorKind::UnexpectedEof => {
            Failure::refused(path, "the data ends before its header says")
        }
        io::ErrorKind::InvalidData => Failure::refused(path, error),
        _ => Failure::file(path, error),
    })
}

fn open_source(path: &Path, is_named: bool, header: &Header) -> Result<Source, Failure> {
    if is_dash(path) && header.data_bytes().is_some() {
        return Ok(Source::Input(BufReader::new(io::stdin())));
    }
    let file = File::open(path).map_err(|error| Failure::file(path, error))?;
    let metadata = file.metadata();
    let there = metadata.map_err(|error| Failure::file(path, error))?.len();
    match header.data_bytes() {
        Some(wanted) if there == wanted => {}
        Some(wanted) if there > wanted => {
            let more = there - wanted;
            let what = format!("the data has {more} bytes more than its header says");
            if !is_named {
                let what = format!("{what}; if it is right all the same, name it with --data");
                return Err(Failure::refused(path, what));
            }
            warn(&format!("{}: {what}", path.display()));
        }
        wanted => {
            let wanted = wanted.map_or("far more".to_string(), |wanted| wanted.to_string());
            let what = format!("the data has {there} bytes, and by its header {wanted}");
            return Err(Failure::refused(path, what));
        }
    }
    Ok(Source::File(BufReader::with_capacity(1 << 18, file)))
}

/// The index in the data of the sample at a place.
fn data_index(header: &Header, [band, row, column]: [usize; 3]) -> u64 {
    let [columns, rows, bands] = header.sizes().map(|size| size as u64);
    let [band, row, column] = [band, row, column].map(|place| place as u64);
    match header.interleave {
        Interleave::Band => (band * rows + row) * columns + column,
        Interleave::Line => (row * bands + band) * columns + column,
        Interleave::Pixel => (row * columns + column) * bands + band,
    }
}

/// The band and the row of each run of a window, in the order of the data. A run is
/// the window's part of a row of one band or, with bands interleaved by pixel, of all.
/// They are not listed: where columns are few there are as many as samples.
fn runs(interleave: Interleave, window: &Window) -> Box<dyn Iterator<Item = [usize; 2]>> {
    let (bands, rows) = (window.bands.clone(), window.rows.clone());
    match interleave {
        Interleave::Band => {
            Box::new(bands.flat_map(move |band| rows.clone().map(move |row| [band, row])))
        }
        Interleave::Line => {
            Box::new(rows.flat_map(move |row| bands.clone().map(move |band| [band, row])))
        }
        Interleave::Pixel => Box::new(rows.map(|row| [0, row])),
    }
}

fn gather(mut source: Source, header: &Header, window: &Window) -> io::Result<Vec<i32>> {
    let mut samples = vec![0; window.sample_count()];
    let size = header.sample_type.bytes;
    let [columns, rows, _] = window.sizes();
    let bands_of_run = match header.interleave {
        Interleave::Pixel => header.bands,
        _ => 1,
    };
    let mut piece = vec![0; PIECE * size];
    let mut position = 0;
    for [band, row] in runs(header.interleave, window) {
        let first = data_index(header, [band, row, window.columns.start]);
        let start = header.offset + first * size as u64;
        source.skip(start - position)?;
        let count = columns * bands_of_run;
        position = start + (count * size) as u64;
        let mut done = 0;
        while done < count {
            let now = PIECE.min(count - done);
            let piece = &mut piece[..now * size];
            source.read_exact(piece)?;
            for (index, bytes) in piece.chunks_exact_mut(size).enumerate() {
                let in_run = done + index;
                let band = band + in_run % bands_of_run;
                if !header.big_endian {
                    bytes.reverse();
                }
                if window.bands.contains(&band) {
                    let (z, y) = (band - window.bands.start, row - window.rows.start);
                    let place = (z * rows + y) * columns + in_run / bands_of_run;
                    samples[place] = header.sample_type.read(bytes);
                }
            }
            done += now;
        }
    }
    finish_input(source, header, position)?;
    Ok(samples)
}

/// Sees that standard input ends where the header says.
fn finish_input(source: Source, header: &Header, position: u64) -> io::Result<()> {
    if let Source::Input(mut input) = source {
        let all = header.data_bytes().unwrap_or(u64::MAX);
        let rest = io::copy(&mut input, &mut io::sink())?;
        if position + rest != all {
            let what = format!(
                "there are {} bytes, and by the header {all}",
                position + rest
            );
            return Err(io::Error::new(io::ErrorKind::InvalidData, what));
        }
    }
    Ok(())
}

/// Samples on their way out.
struct Sink<'a, W> {
    to: &'a mut W,
    header: &'a Header,
    bytes: Vec<u8>,
}

impl<W: Write> Sink<'_, W> {
    fn put(&mut self, sample: i32) -> io::Result<()> {
        let mut bytes = [0; 8];
        let bytes = &mut bytes[..self.header.sample_type.bytes];
        self.header.sample_type.write(sample, bytes);
        if !self.header.big_endian {
            bytes.reverse();
        }
        self.bytes.extend_from_slice(bytes);
        if self.bytes.len() >= PIECE {
            self.flush()?;
        }
        Ok(())
    }

    fn flush(&mut self) -> io::Result<()> {
        self.to.write_all(&self.bytes)?;
        self.bytes.clear();
        Ok(())
    }
}

/// Writes samples, band by band and row by row, as the data of their header.
pub fn write_samples(to: &mut impl Write, header: &Header, samples: &[i32]) -> io::Result<()> {
    let [columns, rows, bands] = header.sizes();
    let sample =
        |band: usize, row: usize, column: usize| samples[(band * rows + row) * columns + column];
    let mut sink = Sink {
        to,
        header,
        bytes: Vec::with_capacity(PIECE + 8),
    };
    match header.interleave {
        Interleave::Band => {
            for &sample in samples {
                sink.put(sample)?;
            }
        }
        Interleave::Line => {
            for row in 0..rows {
                for band in 0..bands {
                    for column in 0..columns {
                        sink.put(sample(band, row, column))?;
                    }
                }
            }
        }
        Interleave::Pixel => {
            for row in 0..rows {
                for column in 0..columns {
                    for band in 0..bands {
                        sink.put(sample(band, row, column))?;
                    }
                }
            }
        }
    }
    sink.flush()
}

/// Writes the samples of some rows of an image to their places in its data.
pub fn write_rows<W: Write + Seek>(
    to: &mut W,
    whole: &Header,
    first_row: usize,
    samples: &[i32],
) -> io::Result<()> {
    let mut part = whole.clone();
    part.rows = samples.len() / (whole.columns * whole.bands).max(1);
    let size = whole.sample_type.bytes as u64;
    let mut write_at = |place: [usize; 3], part: &Header, samples: &[i32]| {
        to.seek(SeekFrom::Start(data_index(whole, place) * size))?;
        write_samples(to, part, samples)
    };
    if whole.interleave != Interleave::Band {
        return write_at([0, first_row, 0], &part, samples);
    }
    let of_band = part.rows * part.columns;
    part.bands = 1;
    for (band, samples) in samples.chunks(of_band).enumerate() {
        write_at([band, first_row, 0], &part, samples)?;
    }
    Ok(())
}
