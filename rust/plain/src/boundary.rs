//! Calls at the C boundary: settings as a list of slots, which may have any length
//! and hold anything, areas by what is lent, and the answer in one word.

use crate::case::{self, WriterInputs};
use crate::cube;
use crate::refusal::Refusal;
use crate::settings::{Settings, SETTING_SLOTS};

/// What the writer and the length count are given.
#[derive(Clone, Debug, PartialEq, Eq)]
pub struct Writer {
    pub settings: Vec<i32>,
    pub tables: Vec<i32>,
    pub samples: Vec<i32>,
    /// Slots lent.
    pub scratch: usize,
}

/// A call with its inputs and the lengths of the areas it is lent.
#[derive(Clone, Debug, PartialEq, Eq)]
pub enum Call {
    Pack {
        writer: Writer,
        out: usize,
    },
    Length {
        writer: Writer,
    },
    Open {
        file: Vec<u8>,
        scratch: usize,
        tables: usize,
        image: usize,
        settings: usize,
    },
    Look {
        file: Vec<u8>,
        settings: usize,
    },
}

/// The calls' names, in the order of `Call::kind`.
pub const KINDS: [&str; 4] = ["pack", "length", "open", "look"];

/// The numbers that each call can answer, 0 for success.
pub const NUMBERS: [&[u8]; 4] = [
    &[0, 1, 2, 3, 4, 5, 6],
    &[0, 1, 2, 3, 4, 5],
    &[0, 3, 4, 5, 7, 8, 9, 10, 11, 12],
    &[0, 3, 4, 7, 8, 12],
];

impl From<&WriterInputs> for Writer {
    fn from(inputs: &WriterInputs) -> Writer {
        Writer {
            settings: inputs.settings.to_slots().to_vec(),
            tables: inputs.tables.clone(),
            samples: inputs.samples.clone(),
            scratch: inputs.scratch,
        }
    }
}

/// A recorded call, with just the slots that settings take.
impl From<&case::Call> for Call {
    fn from(call: &case::Call) -> Call {
        match call {
            case::Call::Pack { inputs, out } => Call::Pack {
                writer: inputs.into(),
                out: *out,
            },
            case::Call::Length { inputs } => Call::Length {
                writer: inputs.into(),
            },
            case::Call::Open {
                file,
                scratch,
                table_area,
                image_area,
            } => Call::Open {
                file: file.clone(),
                scratch: *scratch,
                tables: *table_area,
                image: *image_area,
                settings: SETTING_SLOTS,
            },
            case::Call::Look { file } => Call::Look {
                file: file.clone(),
                settings: SETTING_SLOTS,
            },
        }
    }
}

impl Writer {
    /// What a recorded call is given, if there are just the slots of settings.
    fn to_inputs(&self) -> Option<WriterInputs> {
        let slots: &[i32; SETTING_SLOTS] = self.settings.as_slice().try_into().ok()?;
        Some(WriterInputs {
            settings: Settings::from_slots(slots).ok()?,
            scratch: self.scratch,
            tables: self.tables.clone(),
            samples: self.samples.clone(),
        })
    }
}

impl Call {
    /// The call as one that can be recorded, if it is lent just the slots of settings.
    pub fn to_case(&self) -> Option<case::Call> {
        Some(match self {
            Call::Pack { writer, out } => case::Call::Pack {
                inputs: writer.to_inputs()?,
                out: *out,
            },
            Call::Length { writer } => case::Call::Length {
                inputs: writer.to_inputs()?,
            },
            Call::Open {
                file,
                scratch,
                tables,
                image,
                settings: SETTING_SLOTS,
            } => case::Call::Open {
                file: file.clone(),
                scratch: *scratch,
                table_area: *tables,
                image_area: *image,
            },
            Call::Look {
                file,
                settings: SETTING_SLOTS,
            } => case::Call::Look { file: file.clone() },
            _ => return None,
        })
    }

    /// The file that is read.
    pub fn file(&self) -> Option<&[u8]> {
        match self {
            Call::Open { file, .. } | Call::Look { file, .. } => Some(file),
            _ => None,
        }
    }

    /// The call with another file, if it reads one.
    pub fn with_file(&self, changed: Vec<u8>) -> Call {
        let mut call = self.clone();
        if let Call::Open { file, .. } | Call::Look { file, .. } = &mut call {
            *file = changed;
        }
        call
    }

    /// The name of the call.
    pub fn name(&self) -> &'static str {
        KINDS[self.kind()]
    }

    /// The place of the call in `KINDS`.
    pub fn kind(&self) -> usize {
        match self {
            Call::Pack { .. } => 0,
            Call::Length { .. } => 1,
            Call::Open { .. } => 2,
            Call::Look { .. } => 3,
        }
    }

    /// The call in words, long lists by their beginnings.
    pub fn describe(&self) -> String {
        match self {
            Call::Pack { writer, out } => format!("pack, output of {out}, {}", writer.describe()),
            Call::Length { writer } => format!("length, {}", writer.describe()),
            Call::Open {
                file,
                scratch,
                tables,
                image,
                settings,
            } => format!(
                "open, file {}, scratch {scratch}, tables {tables}, image {image}, settings \
                 {settings}",
                hexadecimal(file)
            ),
            Call::Look { file, settings } => {
                format!("look, file {}, settings {settings}", hexadecimal(file))
            }
        }
    }
}

impl Writer {
    fn describe(&self) -> String {
        format!(
            "settings {:?}, scratch {}, {} table slots from {:?}, {} samples from {:?}",
            self.settings,
            self.scratch,
            self.tables.len(),
            &self.tables[..self.tables.len().min(57)],
            self.samples.len(),
            &self.samples[..self.samples.len().min(64)]
        )
    }
}

fn hexadecimal(bytes: &[u8]) -> String {
    let shown = &bytes[..bytes.len().min(400)];
    let digits: Vec<String> = shown.iter().map(|byte| format!("{byte:02X}")).collect();
    format!("of {} bytes {}", bytes.len(), digits.concat())
}

/// Bits of an answer's value.
const VALUE_BITS: u32 = 56;

/// The number of an answer: 0 for success, or the refusal's.
pub fn number_of(answer: u64) -> u64 {
    answer >> VALUE_BITS
}

/// The value of an answer.
pub fn value_of(answer: u64) -> u64 {
    answer & ((1 << VALUE_BITS) - 1)
}

/// The answer as the boundary gives it: number · 2^56 + value.
fn encoded(answer: Result<u64, Refusal>) -> u64 {
    match answer {
        Ok(value) => value,
        Err(refusal) => u64::from(refusal.number()) << VALUE_BITS | refusal.value(),
    }
}

/// What packing answers; `out` is the output.
pub fn pack(slots: &[i32], tables: &[i32], samples: &[i32], scratch: usize, out: &mut [u8]) -> u64 {
    encoded(Settings::from_slots(slots).and_then(|s| cube::pack(&s, tables, samples, scratch, out)))
}

/// What the length count answers.
pub fn length(slots: &[i32], tables: &[i32], samples: &[i32], scratch: usize) -> u64 {
    encoded(Settings::from_slots(slots).and_then(|s| cube::length(&s, tables, samples, scratch)))
}

/// What opening answers; the settings go to `slots` on success.
pub fn open(
    file: &[u8],
    scratch: usize,
    tables: &mut [i32],
    image: &mut [i32],
    slots: &mut [i32],
) -> u64 {
    let Some(place) = slots.first_chunk_mut::<SETTING_SLOTS>() else {
        return encoded(Err(Refusal::WrongCount));
    };
    let opened = cube::open(file, scratch, tables, image);
    encoded(opened.map(|settings| {
        *place = settings.to_slots();
        settings.sample_count()
    }))
}

/// What the look answers; the settings go to `slots` on success.
pub fn look(file: &[u8], slots: &mut [i32]) -> u64 {
    let Some(place) = slots.first_chunk_mut::<SETTING_SLOTS>() else {
        return encoded(Err(Refusal::WrongCount));
    };
    encoded(cube::look(file).map(|settings| {
        *place = settings.to_slots();
        0
    }))
}
