//! The closed list of refusals.

use std::fmt;

use crate::boundary::Answer;
use crate::limits::{house_limits, SCRATCH_SLOTS, TABLE_SLOTS};

/// Why a call was refused. The cases stand in the order of their numbers.
#[derive(Clone, Copy, Debug, PartialEq, Eq)]
pub enum Refusal {
    /// 1: a setting, or a table value that the settings use, is illegal.
    IllegalSetting,
    /// 2: a sample is out of its range.
    SampleOutOfRange {
        /// The index of the first such sample.
        index: u64,
    },
    /// 3: the sample count is not Nx·Ny·Nz, or an area is too small for its list.
    WrongCount,
    /// 4: the image is larger than the house takes.
    HouseLimit,
    /// 5: scratch under [`SCRATCH_SLOTS`] a band, or the table area under
    /// [`TABLE_SLOTS`].
    ShortArea,
    /// 6: the file is longer than the output.
    NoRoom {
        /// The file's length.
        length: u64,
    },
    /// 7: the file ends inside its header.
    EndsInHeader,
    /// 8: a header field is illegal, or a bit that must be zero is set.
    IllegalField,
    /// 9: the body ends too soon.
    BodyEnds {
        /// The rank, in coding order, of the value that is not whole.
        rank: u64,
    },
    /// 10: a codeword that the writer would not choose.
    BadCodeword {
        /// The rank, in coding order, of its value.
        rank: u64,
    },
    /// 11: bytes after the end, or fill that is not zero.
    AfterEnd {
        /// The count of samples.
        count: u64,
    },
    /// 12: the file was packed with the block-adaptive coder.
    BlockCoder,
    /// 13: a file of no bytes, or one of too many blocks for a card's strip.
    UnfitFile,
    /// 14: a row after the last, or an end before it or a second time.
    RowOutOfTurn,
    /// 15: the second is not above those on the card.
    SecondNotRising,
    /// 16: the file omits a table, and none was lent.
    NoTablesLent,
    /// 17: a band's calibration is bad.
    BadCalibration {
        /// The first such band.
        band: u64,
    },
    /// 18: the card has no serial left.
    NoSerialLeft,
    /// A number that is not in the list: this crate and the archive do not match.
    Unknown {
        /// The number.
        number: u8,
        /// The value beside it.
        value: u64,
    },
}

impl Refusal {
    /// The success value of an answer, or its refusal.
    pub fn of_answer(answer: Answer) -> Result<u64, Refusal> {
        let value = answer.value();
        Err(match answer.number() {
            0 => return Ok(value),
            1 => Refusal::IllegalSetting,
            2 => Refusal::SampleOutOfRange { index: value },
            3 => Refusal::WrongCount,
            4 => Refusal::HouseLimit,
            5 => Refusal::ShortArea,
            6 => Refusal::NoRoom { length: value },
            7 => Refusal::EndsInHeader,
            8 => Refusal::IllegalField,
            9 => Refusal::BodyEnds { rank: value },
            10 => Refusal::BadCodeword { rank: value },
            11 => Refusal::AfterEnd { count: value },
            12 => Refusal::BlockCoder,
            13 => Refusal::UnfitFile,
            14 => Refusal::RowOutOfTurn,
            15 => Refusal::SecondNotRising,
            16 => Refusal::NoTablesLent,
            17 => Refusal::BadCalibration { band: value },
            18 => Refusal::NoSerialLeft,
            number => Refusal::Unknown { number, value },
        })
    }

    /// The number in the list, 1 to 18.
    pub fn number(self) -> u8 {
        match self {
            Refusal::IllegalSetting => 1,
            Refusal::SampleOutOfRange { .. } => 2,
            Refusal::WrongCount => 3,
            Refusal::HouseLimit => 4,
            Refusal::ShortArea => 5,
            Refusal::NoRoom { .. } => 6,
            Refusal::EndsInHeader => 7,
            Refusal::IllegalField => 8,
            Refusal::BodyEnds { .. } => 9,
            Refusal::BadCodeword { .. } => 10,
            Refusal::AfterEnd { .. } => 11,
            Refusal::BlockCoder => 12,
            Refusal::UnfitFile => 13,
            Refusal::RowOutOfTurn => 14,
            Refusal::SecondNotRising => 15,
            Refusal::NoTablesLent => 16,
            Refusal::BadCalibration { .. } => 17,
            Refusal::NoSerialLeft => 18,
            Refusal::Unknown { number, .. } => number,
        }
    }

    /// What the caller can do about it.
    pub fn advice(self) -> String {
        let fixed = match self {
            Refusal::IllegalSetting => "set it within its range",
            Refusal::SampleOutOfRange { .. } => {
                "raise the depth, or say whether samples are signed; or correct the sample"
            }
            Refusal::WrongCount => "lend columns times rows times bands samples",
            Refusal::HouseLimit => {
                return format!("pack the image in parts of at most {}", house_limits())
            }
            Refusal::ShortArea => {
                return format!(
                    "lend {SCRATCH_SLOTS} scratch slots and {TABLE_SLOTS} table slots for each band"
                )
            }
            Refusal::NoRoom { .. } => "lend an output of that length",
            Refusal::EndsInHeader | Refusal::BodyEnds { .. } => {
                "the file was cut short: fetch it again from where it came"
            }
            Refusal::IllegalField => {
                "the header is damaged or this is no cube file: fetch it again from where it came"
            }
            Refusal::BadCodeword { .. } => {
                "the file is damaged here or before: fetch it again from where it came"
            }
            Refusal::AfterEnd { .. } => {
                "the samples were read, but the file is not the one that was packed: fetch it \
                 again, or cut what was appended"
            }
            Refusal::BlockCoder => "open it with a program for the block-adaptive coder",
            Refusal::UnfitFile => "put a packed file on the card, or cut it into shorter strips",
            Refusal::RowOutOfTurn => "give every row once, in order, and then end once",
            Refusal::SecondNotRising => "set the clock, and append with a later second",
            Refusal::NoTablesLent => "lend the tables that the packer had",
            Refusal::BadCalibration { .. } => "correct the calibration of that band",
            Refusal::NoSerialLeft => "begin a new card",
            Refusal::Unknown { .. } => "build this program again, with the archive of its edition",
        };
        fixed.to_string()
    }
}

impl fmt::Display for Refusal {
    /// The number and the meaning, with the value where there is one.
    fn fmt(&self, to: &mut fmt::Formatter) -> fmt::Result {
        write!(to, "refusal {}: ", self.number())?;
        match *self {
            Refusal::IllegalSetting => write!(to, "a setting is illegal"),
            Refusal::SampleOutOfRange { index } => {
                write!(to, "the sample at index {index} is out of range")
            }
            Refusal::WrongCount => write!(to, "the count of samples or slots is wrong"),
            Refusal::HouseLimit => write!(to, "the image is over the house limits"),
            Refusal::ShortArea => write!(to, "scratch or the table area is too short"),
            Refusal::NoRoom { length } => {
                write!(to, "the file of {length} bytes is longer than the output")
            }
            Refusal::EndsInHeader => write!(to, "the file ends inside its header"),
            Refusal::IllegalField => {
                write!(
                    to,
                    "a header field is illegal, or a bit that must be 0 is set"
                )
            }
            Refusal::BodyEnds { rank } => write!(to, "the file ends too soon, at value {rank}"),
            Refusal::BadCodeword { rank } => {
                write!(to, "value {rank} has a codeword that no packer chooses")
            }
            Refusal::AfterEnd { count } => write!(
                to,
                "there are bytes or set bits behind the last of {count} values"
            ),
            Refusal::BlockCoder => write!(to, "the file has the block-adaptive coder"),
            Refusal::UnfitFile => {
                write!(to, "the file has no bytes, or more blocks than a strip")
            }
            Refusal::RowOutOfTurn => {
                write!(to, "a row after the last, or an end before it or twice")
            }
            Refusal::SecondNotRising => write!(to, "the second is not above the card's last"),
            Refusal::NoTablesLent => write!(to, "the file omits a table and none was lent"),
            Refusal::BadCalibration { band } => {
                write!(to, "the calibration of band {band} is bad")
            }
            Refusal::NoSerialLeft => write!(to, "no serial is left on the card"),
            Refusal::Unknown { value, .. } => write!(to, "unknown, with value {value}"),
        }
    }
}

impl std::error::Error for Refusal {}
