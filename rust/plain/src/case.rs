//! Recorded calls: one `key value` line after another, the inputs first and the
//! answer behind them (README.md has the format).

use std::collections::HashMap;
use std::fmt::Write;

use crate::cube::{length, look, open, pack, Answer};
use crate::refusal::{Leaves, Refusal};
use crate::settings::{Settings, SLOT_NAMES, TABLE_STRIDE};

/// What every output byte holds before a call.
pub const BYTE_BEFORE: u8 = 0xA5;
/// What every slot of the table and image areas holds before a call.
pub const SLOT_BEFORE: i32 = -123_456_789;

/// What the writer is given.
#[derive(Clone, Debug, PartialEq, Eq)]
pub struct WriterInputs {
    pub settings: Settings,
    pub scratch: usize,
    pub tables: Vec<i32>,
    pub samples: Vec<i32>,
}

/// A call with its inputs.
#[derive(Clone, Debug, PartialEq, Eq)]
pub enum Call {
    Pack {
        inputs: WriterInputs,
        out: usize,
    },
    Length {
        inputs: WriterInputs,
    },
    Open {
        file: Vec<u8>,
        scratch: usize,
        table_area: usize,
        image_area: usize,
    },
    Look {
        file: Vec<u8>,
    },
}

/// A call with a remark.
#[derive(Clone, Debug, PartialEq, Eq)]
pub struct Case {
    pub note: String,
    pub call: Call,
}

/// Splits a text into its cases, which empty lines part.
pub fn split_cases(text: &str) -> Vec<String> {
    let mut cases = vec![String::new()];
    for line in text.lines() {
        match cases.last_mut() {
            Some(case) if !line.is_empty() => {
                case.push_str(line);
                case.push('\n');
            }
            _ => cases.push(String::new()),
        }
    }
    cases.retain(|case| !case.is_empty());
    cases
}

/// Reads one case and the answer recorded with it (empty if none is).
pub fn parse_case(text: &str) -> Result<(Case, String), String> {
    let mut fields = HashMap::new();
    let mut answer = String::new();
    for line in text.lines() {
        let (key, value) = line.split_once(' ').unwrap_or((line, ""));
        if !answer.is_empty() || key == "ok" || key == "refused" {
            answer.push_str(line);
            answer.push('\n');
        } else if fields.insert(key, value).is_some() {
            return Err(format!("{key} is given twice"));
        }
    }
    let fields = Fields(fields);
    let call = match fields.text("call")? {
        "pack" => Call::Pack {
            inputs: fields.writer_inputs()?,
            out: fields.number("out")?,
        },
        "length" => Call::Length {
            inputs: fields.writer_inputs()?,
        },
        "open" => Call::Open {
            file: fields.bytes("file")?,
            scratch: fields.number("scratch")?,
            table_area: fields.number("table_area")?,
            image_area: fields.number("image_area")?,
        },
        "look" => Call::Look {
            file: fields.bytes("file")?,
        },
        other => return Err(format!("there is no call {other}")),
    };
    let note = fields.text("note")?.to_string();
    Ok((Case { note, call }, answer))
}

/// The input lines of a case by their keys.
struct Fields<'a>(HashMap<&'a str, &'a str>);

impl Fields<'_> {
    fn text(&self, key: &str) -> Result<&str, String> {
        let value = self.0.get(key).ok_or(format!("{key} is missing"))?;
        Ok(value)
    }

    fn number<T: std::str::FromStr>(&self, key: &str) -> Result<T, String> {
        let text = self.text(key)?;
        text.parse()
            .map_err(|_| format!("{key}: {text} is no number of its kind"))
    }

    fn list(&self, key: &str) -> Result<Vec<i32>, String> {
        let words = self.text(key)?.split_ascii_whitespace();
        words
            .map(|word| {
                word.parse()
                    .map_err(|_| format!("{key}: {word} is no slot"))
            })
            .collect()
    }

    fn bytes(&self, key: &str) -> Result<Vec<u8>, String> {
        let digits = self.text(key)?.as_bytes();
        if digits.len() % 2 != 0 {
            return Err(format!("{key}: half a byte at the end"));
        }
        digits
            .chunks_exact(2)
            .map(|pair| {
                let text = std::str::from_utf8(pair).unwrap_or("");
                u8::from_str_radix(text, 16).map_err(|_| format!("{key}: {text} is no byte"))
            })
            .collect()
    }

    fn writer_inputs(&self) -> Result<WriterInputs, String> {
        let mut slots = Vec::new();
        for name in SLOT_NAMES {
            slots.push(self.number(name)?);
        }
        Ok(WriterInputs {
            settings: Settings::from_slots(&slots).map_err(|_| "too few settings")?,
            scratch: self.number("scratch")?,
            tables: self.list("tables")?,
            samples: self.list("samples")?,
        })
    }
}

/// Writes a `key value` line; an empty value leaves the key alone.
fn put_line(text: &mut String, key: &str, value: &str) {
    text.push_str(key);
    if !value.is_empty() {
        text.push(' ');
        text.push_str(value);
    }
    text.push('\n');
}

fn put_list(text: &mut String, key: &str, values: &[i32]) {
    let words: Vec<String> = values.iter().map(i32::to_string).collect();
    put_line(text, key, &words.join(" "));
}

fn put_bytes(text: &mut String, key: &str, bytes: &[u8]) {
    let mut digits = String::with_capacity(2 * bytes.len());
    for byte in bytes {
        // Writing to a string cannot fail.
        let _ = write!(digits, "{byte:02X}");
    }
    put_line(text, key, &digits);
}

fn put_settings(text: &mut String, settings: &Settings) {
    for (name, value) in SLOT_NAMES.iter().zip(settings.to_slots()) {
        put_line(text, name, &value.to_string());
    }
}

fn put_writer_inputs(text: &mut String, inputs: &WriterInputs) {
    put_settings(text, &inputs.settings);
    put_line(text, "scratch", &inputs.scratch.to_string());
    put_list(text, "tables", &inputs.tables);
    put_list(text, "samples", &inputs.samples);
}

/// The line of the answer: success with a number, or the refusal.
fn put_answer(text: &mut String, answer: Answer) {
    match answer {
        Ok(value) => put_line(text, "ok", &value.to_string()),
        Err(refusal) => {
            let answer = format!("{} {}", refusal.number(), refusal.value());
            put_line(text, "refused", &answer);
        }
    }
}

/// What an area of which `done` elements may change holds now. Should it hold
/// anything but what the answer promises, the word is `wrong`.
fn area_word<T: Copy + Default + PartialEq>(
    area: &[T],
    before: T,
    done: Result<usize, Refusal>,
) -> &'static str {
    let all = |part: &[T], value: T| part.iter().all(|&element| element == value);
    match done {
        Ok(count) => match area.get(count..) {
            Some(behind) if all(behind, before) => "done",
            _ => "wrong",
        },
        Err(refusal) => match refusal.leaves() {
            Leaves::Untouched if all(area, before) => "untouched",
            Leaves::Zero if all(area, T::default()) => "zero",
            _ => "wrong",
        },
    }
}

impl Case {
    /// The lines of the call and its inputs.
    pub fn inputs_text(&self) -> String {
        let mut text = String::new();
        let call = match self.call {
            Call::Pack { .. } => "pack",
            Call::Length { .. } => "length",
            Call::Open { .. } => "open",
            Call::Look { .. } => "look",
        };
        put_line(&mut text, "call", call);
        put_line(&mut text, "note", &self.note);
        match &self.call {
            Call::Pack { inputs, out } => {
                put_writer_inputs(&mut text, inputs);
                put_line(&mut text, "out", &out.to_string());
            }
            Call::Length { inputs } => put_writer_inputs(&mut text, inputs),
            Call::Open {
                file,
                scratch,
                table_area,
                image_area,
            } => {
                put_bytes(&mut text, "file", file);
                put_line(&mut text, "scratch", &scratch.to_string());
                put_line(&mut text, "table_area", &table_area.to_string());
                put_line(&mut text, "image_area", &image_area.to_string());
            }
            Call::Look { file } => put_bytes(&mut text, "file", file),
        }
        text
    }

    /// Makes the call and gives the lines of its answer.
    pub fn answer_text(&self) -> String {
        match &self.call {
            Call::Pack { inputs, out } => answer_pack(inputs, *out),
            Call::Length { inputs } => {
                let mut text = String::new();
                put_answer(&mut text, inputs.length());
                text
            }
            Call::Open {
                file,
                scratch,
                table_area,
                image_area,
            } => answer_open(file, *scratch, *table_area, *image_area),
            Call::Look { file } => answer_look(file),
        }
    }
}

impl WriterInputs {
    /// Packs these inputs into `out`.
    pub fn pack(&self, out: &mut [u8]) -> Answer {
        pack(
            &self.settings,
            &self.tables,
            &self.samples,
            self.scratch,
            out,
        )
    }

    /// Counts the length of the file of these inputs.
    pub fn length(&self) -> Answer {
        length(&self.settings, &self.tables, &self.samples, self.scratch)
    }
}

fn answer_pack(inputs: &WriterInputs, out: usize) -> String {
    let mut area = vec![BYTE_BEFORE; out];
    let answer = inputs.pack(&mut area);
    let done = answer.map(|length| length as usize);
    let mut text = String::new();
    put_answer(&mut text, answer);
    put_line(&mut text, "out_after", area_word(&area, BYTE_BEFORE, done));
    if let Ok(length) = done {
        put_bytes(&mut text, "file", &area[..length]);
    }
    text
}

fn answer_open(file: &[u8], scratch: usize, table_area: usize, image_area: usize) -> String {
    let mut tables = vec![SLOT_BEFORE; table_area];
    let mut image = vec![SLOT_BEFORE; image_area];
    let answer = open(file, scratch, &mut tables, &mut image);
    let table_count = answer.map(|settings| TABLE_STRIDE * settings.shape().bands);
    let sample_count = answer.map(|settings| settings.shape().sample_count());
    let mut text = String::new();
    put_answer(&mut text, sample_count.map(|count| count as u64));
    let table_word = area_word(&tables, SLOT_BEFORE, table_count);
    put_line(&mut text, "table_area_after", table_word);
    let image_word = area_word(&image, SLOT_BEFORE, sample_count);
    put_line(&mut text, "image_area_after", image_word);
    if let (Ok(settings), Ok(tabled), Ok(count)) = (answer, table_count, sample_count) {
        put_settings(&mut text, &settings);
        put_list(&mut text, "tables", &tables[..tabled]);
        put_list(&mut text, "samples", &image[..count]);
    }
    text
}

fn answer_look(file: &[u8]) -> String {
    let answer = look(file);
    let mut text = String::new();
    put_answer(&mut text, answer.map(|_| 0));
    if let Ok(settings) = answer {
        put_settings(&mut text, &settings);
    }
    text
}
