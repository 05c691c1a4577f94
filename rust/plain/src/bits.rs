//! Bits, most significant first: written, counted and read.

/// The widest value that one `put` or `take` handles: an escape codeword.
pub const WIDEST: u32 = 48;

/// Somewhere bits go. The writer and the length count share one walk over it.
pub trait BitSink {
    /// Appends `value` as `width` bits (at most `WIDEST`; `value` fits them).
    fn put(&mut self, value: u64, width: u32);

    /// How many bits were put.
    fn position(&self) -> u64;

    /// Appends zeros until the position is a multiple of `multiple`.
    fn fill_to(&mut self, multiple: u64) {
        let mut missing = self.position().next_multiple_of(multiple) - self.position();
        while missing > 0 {
            let width = missing.min(u64::from(WIDEST));
            self.put(0, width as u32);
            missing -= width;
        }
    }
}

/// Collects bits in bytes.
#[derive(Default)]
pub struct BitWriter {
    bytes: Vec<u8>,
    /// The low `pending_width` bits (fewer than 8 between calls) wait for a byte.
    pending: u64,
    pending_width: u32,
}

impl BitWriter {
    /// The bytes written; bits short of a whole byte are dropped, so fill first.
    pub fn into_bytes(self) -> Vec<u8> {
        self.bytes
    }
}

impl BitSink for BitWriter {
    fn put(&mut self, value: u64, width: u32) {
        self.pending = self.pending << width | value;
        self.pending_width += width;
        while self.pending_width >= 8 {
            self.pending_width -= 8;
            self.bytes.push((self.pending >> self.pending_width) as u8);
        }
    }

    fn position(&self) -> u64 {
        8 * self.bytes.len() as u64 + u64::from(self.pending_width)
    }
}

/// Counts bits and keeps none.
#[derive(Default)]
pub struct BitCounter {
    bits: u64,
}

impl BitSink for BitCounter {
    fn put(&mut self, _value: u64, width: u32) {
        self.bits += u64::from(width);
    }

    fn position(&self) -> u64 {
        self.bits
    }
}

/// Reads bits from bytes.
#[derive(Clone)]
pub struct BitReader<'a> {
    bytes: &'a [u8],
    position: u64,
}

impl<'a> BitReader<'a> {
    pub fn new(bytes: &'a [u8]) -> BitReader<'a> {
        BitReader { bytes, position: 0 }
    }

    /// How many bits were read.
    pub fn position(&self) -> u64 {
        self.position
    }

    /// How many bits are left.
    pub fn remaining(&self) -> u64 {
        8 * self.bytes.len() as u64 - self.position
    }

    /// The next bits from the top of a word: at least 57 of them, zeros behind the end.
    fn window(&self) -> u64 {
        let rest = &self.bytes[(self.position / 8) as usize..];
        let word = match rest.first_chunk::<8>() {
            Some(chunk) => u64::from_be_bytes(*chunk),
            None => {
                let mut chunk = [0; 8];
                chunk[..rest.len()].copy_from_slice(rest);
                u64::from_be_bytes(chunk)
            }
        };
        word << (self.position % 8)
    }

    /// The next `width` bits (at most `WIDEST`), or nothing where the bytes end.
    pub fn take(&mut self, width: u32) -> Option<u64> {
        if self.remaining() < u64::from(width) {
            return None;
        }
        // Two shifts, because a width of 0 would shift by the whole word.
        let value = self.window() >> 1 >> (63 - width);
        self.position += u64::from(width);
        Some(value)
    }

    /// Reads zeros up to and with the one behind them, or `limit` zeros (at most
    /// 32), whichever comes first; returns how many zeros, or nothing where the
    /// bytes end before either.
    pub fn take_zeros(&mut self, limit: u32) -> Option<u32> {
        let zeros = self.window().leading_zeros().min(limit);
        let width = if zeros < limit { zeros + 1 } else { limit };
        if self.remaining() < u64::from(width) {
            return None;
        }
        self.position += u64::from(width);
        Some(zeros)
    }

    /// Whether no bit from here to the end is set.
    pub fn rest_is_zero(&self) -> bool {
        let next_byte = self.position.div_ceil(8) as usize;
        let in_this_byte = self.position.next_multiple_of(8) - self.position;
        let mut this_byte = self.clone();
        this_byte.take(in_this_byte as u32) == Some(0)
            && self.bytes[next_byte..].iter().all(|&byte| byte == 0)
    }
}
