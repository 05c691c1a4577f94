//! What the tests of the command line share. Images are written here, by code of its
//! own, so that a mistake of the program's reader is not made twice.

#![allow(dead_code)]

use std::ffi::OsStr;
use std::fs;
use std::path::{Path, PathBuf};
use std::process::{Command, Output};

pub const COLUMNS: usize = 5;
pub const ROWS: usize = 4;
pub const BANDS: usize = 3;

/// The program that is tested; another one can be named, to see which tests it fails.
pub fn program() -> PathBuf {
    let named = std::env::var_os("REMULINGKA_PROGRAM");
    let program = named.map_or(env!("CARGO_BIN_EXE_remulingka").into(), PathBuf::from);
    // A program that is not there fails every test, and says nothing about any.
    assert!(
        program.is_file(),
        "there is no program {}",
        program.display()
    );
    program
}

/// The statuses of the program.
pub const REFUSED: i32 = 1;
pub const USAGE: i32 = 2;
pub const FILE: i32 = 3;

/// A fresh folder for one test.
pub fn folder(name: &str) -> PathBuf {
    let folder = Path::new(env!("CARGO_TARGET_TMPDIR")).join(name);
    let _ = fs::remove_dir_all(&folder);
    fs::create_dir_all(&folder).unwrap();
    folder
}

/// The program in a folder, with these words.
pub fn command<Word: AsRef<OsStr>>(folder: &Path, words: &[Word]) -> Command {
    let mut command = Command::new(program());
    command.args(words).current_dir(folder);
    command
}

/// Runs the program in a folder.
pub fn remulingka<Word: AsRef<OsStr>>(folder: &Path, words: &[Word]) -> Output {
    command(folder, words).output().unwrap()
}

/// Runs the program, which must succeed and say nothing on the error output.
pub fn succeeds(folder: &Path, words: &[&str]) -> String {
    let output = remulingka(folder, words);
    let errors = String::from_utf8_lossy(&output.stderr);
    assert!(output.status.success(), "{words:?}: {errors}");
    assert_eq!(errors, "", "{words:?}");
    String::from_utf8(output.stdout).unwrap()
}

/// Runs the program, which must end with this status and leave the folder's files as
/// they were, and gives its message.
pub fn fails(folder: &Path, status: i32, words: &[&str]) -> String {
    let before = contents(folder);
    let output = remulingka(folder, words);
    let message = String::from_utf8(output.stderr).unwrap();
    assert_eq!(output.status.code(), Some(status), "{words:?}: {message}");
    assert_eq!(contents(folder), before, "{words:?} changed the folder");
    assert!(message.starts_with("remulingka: "), "{message}");
    message
}

/// All names in a folder, hidden ones too, with the files' bytes.
pub fn contents(folder: &Path) -> Vec<(String, Vec<u8>)> {
    let entries = fs::read_dir(folder).unwrap().map(|entry| entry.unwrap());
    let mut contents: Vec<(String, Vec<u8>)> = entries
        .map(|entry| {
            let name = entry.file_name().to_string_lossy().into_owned();
            (name, fs::read(entry.path()).unwrap_or_default())
        })
        .collect();
    contents.sort();
    contents
}

/// The bytes of a file in a folder.
pub fn bytes(folder: &Path, name: &str) -> Vec<u8> {
    fs::read(folder.join(name)).unwrap_or_else(|error| panic!("{name}: {error}"))
}

/// The text of a file in a folder.
pub fn text(folder: &Path, name: &str) -> String {
    String::from_utf8(bytes(folder, name)).unwrap()
}

/// One way to lay an image out.
#[derive(Clone, Copy, Debug)]
pub struct Layout {
    pub data_type: u32,
    pub interleave: &'static str,
    pub byte_order: u32,
    pub offset: usize,
}

/// The layout of most tests.
pub const USUAL: Layout = Layout {
    data_type: 12,
    interleave: "bsq",
    byte_order: 0,
    offset: 0,
};

impl Layout {
    pub fn header(&self) -> String {
        format!(
            "ENVI\ndescription = {{\n  a test = not a field }}\nsamples = {COLUMNS}\n\
             lines   = {ROWS}\nbands = {BANDS}\nheader offset = {}\nfile type = ENVI Standard\n\
             data type = {}\nInterleave = {}\nbyte order = {}\nwavelength = {{\n 1.0,\n 2.0, 3.0}}\n",
            self.offset, self.data_type, self.interleave, self.byte_order
        )
    }

    fn sample_bytes(&self, sample: i32) -> Vec<u8> {
        let big = self.byte_order == 1;
        match (self.data_type, big) {
            (1, _) => vec![sample as u8],
            (2, true) => (sample as i16).to_be_bytes().to_vec(),
            (2, false) => (sample as i16).to_le_bytes().to_vec(),
            (12, true) => (sample as u16).to_be_bytes().to_vec(),
            (12, false) => (sample as u16).to_le_bytes().to_vec(),
            (3, true) => sample.to_be_bytes().to_vec(),
            (3, false) => sample.to_le_bytes().to_vec(),
            (13, true) => (sample as u32).to_be_bytes().to_vec(),
            (13, false) => (sample as u32).to_le_bytes().to_vec(),
            _ => panic!("no such type"),
        }
    }

    /// The data of samples given by band, row and column; without the offset.
    pub fn data(&self, sample: impl Fn(usize, usize, usize) -> i32) -> Vec<u8> {
        let mut data = Vec::new();
        let sizes = match self.interleave {
            "bsq" => [BANDS, ROWS, COLUMNS],
            "bil" => [ROWS, BANDS, COLUMNS],
            _ => [ROWS, COLUMNS, BANDS],
        };
        for first in 0..sizes[0] {
            for second in 0..sizes[1] {
                for third in 0..sizes[2] {
                    let value = match self.interleave {
                        "bsq" => sample(first, second, third),
                        "bil" => sample(second, first, third),
                        _ => sample(third, first, second),
                    };
                    data.extend(self.sample_bytes(value));
                }
            }
        }
        data
    }

    /// Writes `name`.hdr and `name`.img.
    pub fn write(&self, folder: &Path, name: &str, sample: impl Fn(usize, usize, usize) -> i32) {
        fs::write(folder.join(format!("{name}.hdr")), self.header()).unwrap();
        let data = [vec![0xEE; self.offset], self.data(sample)].concat();
        fs::write(folder.join(format!("{name}.img")), data).unwrap();
    }
}

/// Samples that differ at every place and, where signed, lie on both sides of 0.
pub fn sample(is_signed: bool) -> impl Fn(usize, usize, usize) -> i32 {
    let start = if is_signed { -37 } else { 0 };
    move |band, row, column| start + (60 * band + 13 * row + 2 * column) as i32
}

/// What an ENVI header beside data says, as any reader of ENVI images takes it: fields
/// by name, and the samples by band, row and column.
pub struct Envi {
    pub fields: Vec<(String, String)>,
    pub samples: Vec<i32>,
}

impl Envi {
    /// Reads `name`.hdr and its data; nothing if one of them is not there.
    pub fn read(folder: &Path, name: &str) -> Option<Envi> {
        let header = fs::read(folder.join(format!("{name}.hdr"))).ok()?;
        let data = fs::read(folder.join(format!("{name}.img"))).ok()?;
        let header: String = header.iter().map(|&byte| byte as char).collect();
        let mut fields: Vec<(String, String)> = Vec::new();
        let mut lines = header.lines().skip(1);
        while let Some(line) = lines.next() {
            let Some((name, value)) = line.split_once('=') else {
                continue;
            };
            let mut value = value.trim().to_string();
            while value.starts_with('{') && !value.ends_with('}') {
                value += lines.next().expect("a closing brace");
            }
            fields.push((name.trim().to_lowercase(), value));
        }
        let mut envi = Envi {
            fields,
            samples: Vec::new(),
        };
        envi.samples = envi.taken_apart(&data);
        Some(envi)
    }

    pub fn field(&self, name: &str) -> &str {
        let mut fields = self.fields.iter();
        let field = fields.find(|(known, _)| known == name);
        field.map_or("", |(_, value)| value.as_str())
    }

    fn number(&self, name: &str) -> usize {
        self.field(name).parse().unwrap_or(0)
    }

    fn taken_apart(&self, data: &[u8]) -> Vec<i32> {
        let [columns, rows, bands] = ["samples", "lines", "bands"].map(|name| self.number(name));
        let size = match self.number("data type") {
            1 => 1,
            2 | 12 => 2,
            3 | 13 => 4,
            _ => 8,
        };
        let is_signed = [2, 3, 14].contains(&self.number("data type"));
        let mut samples = Vec::new();
        for band in 0..bands {
            for row in 0..rows {
                for column in 0..columns {
                    let index = match self.field("interleave") {
                        "bsq" => (band * rows + row) * columns + column,
                        "bil" => (row * bands + band) * columns + column,
                        _ => (row * columns + column) * bands + band,
                    };
                    let start = self.number("header offset") + size * index;
                    let Some(bytes) = data.get(start..start + size) else {
                        return Vec::new();
                    };
                    let mut bytes = bytes.to_vec();
                    if self.number("byte order") == 0 {
                        bytes.reverse();
                    }
                    let sample = bytes
                        .iter()
                        .fold(0_i64, |all, &byte| all << 8 | i64::from(byte));
                    let unused = 64 - 8 * size;
                    let sample = if is_signed {
                        sample << unused >> unused
                    } else {
                        sample
                    };
                    samples.push(sample as i32);
                }
            }
        }
        samples
    }
}

/// A picture.
pub struct Picture {
    pub width: usize,
    pub height: usize,
    pub channels: usize,
    pub bytes: Vec<u8>,
}

/// Reads a PNG file of one IDAT chunk with filters 0 and 2.
pub fn read_png(file: &[u8]) -> Picture {
    assert_eq!(&file[..8], b"\x89PNG\r\n\x1a\n");
    let word = |at: usize| u32::from_be_bytes(file[at..at + 4].try_into().unwrap()) as usize;
    assert_eq!(&file[12..16], b"IHDR");
    let (width, height) = (word(16), word(20));
    let channels = if file[25] == 2 { 3 } else { 1 };
    assert_eq!(&file[37..41], b"IDAT");
    let stream = &file[41..41 + word(33)];
    assert_eq!(&file[file.len() - 8..file.len() - 4], b"IEND");
    let rows = inflate(&stream[2..stream.len() - 4]);
    assert_eq!(rows.len(), height * (1 + width * channels));
    let mut bytes: Vec<u8> = Vec::new();
    for row in rows.chunks(1 + width * channels) {
        assert!([0, 2].contains(&row[0]));
        for &byte in &row[1..] {
            let above = bytes
                .len()
                .checked_sub(width * channels)
                .map_or(0, |at| bytes[at]);
            bytes.push(byte.wrapping_add(if row[0] == 2 { above } else { 0 }));
        }
    }
    Picture {
        width,
        height,
        channels,
        bytes,
    }
}

/// Unpacks a block of deflate's fixed code (RFC 1951) in which all repeats are of the
/// byte before.
fn inflate(stream: &[u8]) -> Vec<u8> {
    let mut at = 0;
    let mut bit = || {
        at += 1;
        u32::from(stream[(at - 1) / 8] >> ((at - 1) % 8) & 1)
    };
    assert_eq!(
        [bit(), bit(), bit()],
        [1, 1, 0],
        "one block of the fixed code"
    );
    let mut bytes: Vec<u8> = Vec::new();
    loop {
        let mut code = (0..7).fold(0, |code, _| code << 1 | bit());
        let symbol = if code < 24 {
            256 + code
        } else {
            code = code << 1 | bit();
            match code {
                0x30..=0xBF => code - 0x30,
                0xC0..=0xC7 => code - 0xC0 + 280,
                _ => (code << 1 | bit()) - 0x190 + 144,
            }
        };
        match symbol {
            0..=255 => bytes.push(symbol as u8),
            256 => return bytes,
            _ => {
                let base = [
                    3, 4, 5, 6, 7, 8, 9, 10, 11, 13, 15, 17, 19, 23, 27, 31, 35, 43, 51,
                ];
                let base = [&base[..], &[59, 67, 83, 99, 115, 131, 163, 195, 227, 258]].concat();
                let index = symbol as usize - 257;
                let extra = if (8..28).contains(&index) {
                    index / 4 - 1
                } else {
                    0
                };
                let more = (0..extra).fold(0, |more, place| more | (bit() as usize) << place);
                assert_eq!(
                    (0..5).fold(0, |code, _| code << 1 | bit()),
                    0,
                    "the distance is 1"
                );
                let last = *bytes.last().unwrap();
                bytes.extend(vec![last; base[index] + more]);
            }
        }
    }
}
