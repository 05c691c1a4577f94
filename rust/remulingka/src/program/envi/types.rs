//! The layouts of samples in ENVI's data.

/// The order of samples in the data.
#[derive(Clone, Copy, Debug, PartialEq, Eq)]
pub enum Interleave {
    /// bsq: band, row, column.
    Band,
    /// bil: row, band, column.
    Line,
    /// bip: row, column, band.
    Pixel,
}

impl Interleave {
    pub fn of_name(name: &str) -> Option<Interleave> {
        match name.to_ascii_lowercase().as_str() {
            "bsq" => Some(Interleave::Band),
            "bil" => Some(Interleave::Line),
            "bip" => Some(Interleave::Pixel),
            _ => None,
        }
    }

    pub fn name(self) -> &'static str {
        match self {
            Interleave::Band => "bsq",
            Interleave::Line => "bil",
            Interleave::Pixel => "bip",
        }
    }
}

/// A data type whose samples can be packed: whole numbers of 1, 2, 4 or 8 bytes.
#[derive(Clone, Copy, Debug, PartialEq, Eq)]
pub struct SampleType {
    /// ENVI's number of it.
    pub number: u32,
    pub bytes: usize,
    pub is_signed: bool,
}

const fn sample_type(number: u32, bytes: usize, is_signed: bool) -> SampleType {
    SampleType {
        number,
        bytes,
        is_signed,
    }
}

/// The types that are taken.
const TYPES: [SampleType; 7] = [
    sample_type(1, 1, false),
    sample_type(2, 2, true),
    sample_type(3, 4, true),
    sample_type(12, 2, false),
    sample_type(13, 4, false),
    sample_type(14, 8, true),
    sample_type(15, 8, false),
];

impl SampleType {
    /// The type of ENVI's number, or why it cannot be packed.
    pub fn of_number(number: u32) -> Result<SampleType, String> {
        let found = TYPES.iter().find(|known| known.number == number);
        found.copied().ok_or_else(|| {
            let scale = "scale it to whole numbers first, for instance with \
                         gdal_translate -of ENVI -ot Int16 -scale 0 1 0 10000";
            match number {
                4 => format!("data type 4 is 32-bit floating point; {scale}"),
                5 => format!("data type 5 is 64-bit floating point; {scale}"),
                6 | 9 => format!("data type {number} is complex, and cannot be packed"),
                _ => format!(
                    "data type {number} is not known; 1, 2, 3, 12, 13, 14 and 15 can be packed"
                ),
            }
        })
    }

    /// The smallest type that holds samples of a depth up to 16.
    pub fn of_depth(is_signed: bool, depth: i32) -> SampleType {
        match (is_signed, depth <= 8) {
            (true, _) => TYPES[1],
            (false, true) => TYPES[0],
            (false, false) => TYPES[3],
        }
    }

    /// The depth of samples of this type where nothing else is said. The wide
    /// types are packed as far as their samples keep to 16 bits.
    pub fn depth(self) -> i32 {
        (8 * self.bytes as i32).min(16)
    }

    /// Whether a sample can be held.
    pub fn holds(self, sample: i32) -> bool {
        let (least, most) = match (self.is_signed, self.bytes) {
            (false, 1) => (0, 0xFF),
            (false, 2) => (0, 0xFFFF),
            (false, _) => (0, i32::MAX),
            (true, 2) => (-0x8000, 0x7FFF),
            (true, _) => (i32::MIN, i32::MAX),
        };
        (least..=most).contains(&sample)
    }

    /// The sample in `bytes`, most significant byte first. One that 32 bits do not
    /// hold becomes the nearest that they do; both are far out of every range that
    /// can be packed.
    pub fn read(self, bytes: &[u8]) -> i32 {
        let whole = bytes
            .iter()
            .fold(0_u64, |whole, &byte| whole << 8 | u64::from(byte));
        let unused = 64 - 8 * self.bytes;
        if self.is_signed {
            let signed = (whole << unused) as i64 >> unused;
            signed.clamp(i64::from(i32::MIN), i64::from(i32::MAX)) as i32
        } else {
            i32::try_from(whole).unwrap_or(i32::MAX)
        }
    }

    /// Puts a sample that can be held into `bytes`, most significant byte first.
    pub fn write(self, sample: i32, bytes: &mut [u8]) {
        let whole = i64::from(sample).to_be_bytes();
        bytes.copy_from_slice(&whole[8 - self.bytes..]);
    }
}

#[cfg(test)]
mod tests {
    use super::TYPES;

    #[test]
    fn what_is_held_is_read_back() {
        for kind in TYPES {
            for sample in [
                0, 1, -1, 127, 128, 255, 256, 32_767, -32_768, -32_769, 65_535, 65_536,
            ] {
                let mut bytes = vec![0; kind.bytes];
                kind.write(sample, &mut bytes);
                assert_eq!(
                    kind.read(&bytes) == sample,
                    kind.holds(sample),
                    "{kind:?} {sample}"
                );
            }
        }
    }

    #[test]
    fn what_32_bits_do_not_hold_becomes_the_nearest() {
        let kind = |number| *TYPES.iter().find(|kind| kind.number == number).unwrap();
        assert_eq!(kind(13).read(&[0xFF; 4]), i32::MAX);
        assert_eq!(kind(15).read(&[0xFF; 8]), i32::MAX);
        assert_eq!(kind(14).read(&[0x80, 0, 0, 0, 0, 0, 0, 0]), i32::MIN);
        assert_eq!(kind(14).read(&[0xFF; 8]), -1);
    }
}
