//! The closed list of refusals, each with its number and value.

/// One refusal. The cases stand in the order of their numbers.
#[derive(Clone, Copy, Debug, PartialEq, Eq)]
pub enum Refusal {
    /// 1: a setting is illegal (writer).
    IllegalSetting,
    /// 2: a sample is out of range (writer); the index of the first such.
    SampleOutOfRange { index: u64 },
    /// 3: the sample count is wrong (writer) or the image area too small (reader).
    WrongCount,
    /// 4: a house limit is passed.
    HouseLimit,
    /// 5: scratch under 32 slots a band, or table area under 19.
    ShortScratchOrTables,
    /// 6: the file is longer than the output; the file's length.
    ShortOutput { length: u64 },
    /// 7: the file ends inside the header (reader).
    HeaderEnds,
    /// 8: a header field is illegal, or a zero bit or table fill is set (reader).
    IllegalField,
    /// 9: the body ends too soon (reader); the rank of the value.
    BodyEnds { rank: u64 },
    /// 10: a codeword the writer would not choose, or a value too large (reader).
    ForeignCodeword { rank: u64 },
    /// 11: bytes after the end, or fill set (reader); the count of samples.
    AfterTheEnd { count: u64 },
    /// 12: the coder bit is 1 (reader).
    OtherCoder,
}

/// What a refusal leaves in the output, or in the image and table areas.
#[derive(Clone, Copy, Debug, PartialEq, Eq)]
pub enum Leaves {
    Untouched,
    Zero,
}

impl Refusal {
    /// The number of the closed list, 1 to 12.
    pub fn number(self) -> u8 {
        match self {
            Refusal::IllegalSetting => 1,
            Refusal::SampleOutOfRange { .. } => 2,
            Refusal::WrongCount => 3,
            Refusal::HouseLimit => 4,
            Refusal::ShortScratchOrTables => 5,
            Refusal::ShortOutput { .. } => 6,
            Refusal::HeaderEnds => 7,
            Refusal::IllegalField => 8,
            Refusal::BodyEnds { .. } => 9,
            Refusal::ForeignCodeword { .. } => 10,
            Refusal::AfterTheEnd { .. } => 11,
            Refusal::OtherCoder => 12,
        }
    }

    /// The value returned with the number.
    pub fn value(self) -> u64 {
        match self {
            Refusal::SampleOutOfRange { index } => index,
            Refusal::ShortOutput { length } => length,
            Refusal::BodyEnds { rank } | Refusal::ForeignCodeword { rank } => rank,
            Refusal::AfterTheEnd { count } => count,
            _ => 0,
        }
    }

    /// What the lent areas hold after this refusal.
    pub fn leaves(self) -> Leaves {
        match self.number() {
            6 | 9 | 10 | 11 => Leaves::Zero,
            _ => Leaves::Untouched,
        }
    }
}
