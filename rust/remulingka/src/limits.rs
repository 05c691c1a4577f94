//! The limits and the sizes of lent areas, and the words that name them. No other
//! text of this crate has these numbers in it.

/// Slots of the settings list.
pub const SETTING_SLOTS: usize = 24;
/// Table slots a band: those for weight components, then k'.
pub const TABLE_SLOTS: usize = 19;
/// Scratch slots a band.
pub const SCRATCH_SLOTS: usize = 32;
/// House limit on the samples of an image.
pub const MOST_SAMPLES: usize = 1 << 28;
/// House limit on the bands of an image.
pub const MOST_BANDS: usize = 4_096;
/// No header of a file is longer: 19 bytes of fields, and for each band 18
/// components of at most 22 bits and half a byte.
pub const LONGEST_HEADER: usize = 32 + 50 * MOST_BANDS;

/// A number with its thousands parted by commas.
pub fn grouped(number: u64) -> String {
    let digits = number.to_string();
    let mut text = String::new();
    for (index, digit) in digits.chars().enumerate() {
        if index > 0 && (digits.len() - index).is_multiple_of(3) {
            text.push(',');
        }
        text.push(digit);
    }
    text
}

/// The house limits in words: `N samples and N bands`.
pub fn house_limits() -> String {
    let [samples, bands] = [MOST_SAMPLES, MOST_BANDS].map(|most| grouped(most as u64));
    format!("{samples} samples and {bands} bands")
}

#[cfg(test)]
mod tests {
    use super::{grouped, house_limits, MOST_SAMPLES};

    #[test]
    fn thousands_are_parted() {
        for (number, text) in [
            (0, "0"),
            (512, "512"),
            (4_096, "4,096"),
            (1_048_576, "1,048,576"),
            (268_435_456, "268,435,456"),
        ] {
            assert_eq!(grouped(number), text);
        }
        let words = house_limits();
        assert!(words.starts_with(&grouped(MOST_SAMPLES as u64)), "{words}");
    }
}
