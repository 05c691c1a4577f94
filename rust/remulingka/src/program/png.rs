//! A minimal PNG writer: 8 bits a channel, grey or colour. Rows that repeat the one
//! above and runs of one value are packed; that is most of what a quick look has.

/// A picture, row by row; 1 or 3 bytes a pixel.
pub struct Raster {
    pub width: usize,
    pub height: usize,
    pub channels: usize,
    pub bytes: Vec<u8>,
}

/// The most bytes of one run.
const LONGEST_RUN: usize = 258;

/// The picture as a PNG file.
pub fn encode(raster: &Raster) -> Vec<u8> {
    let mut file = b"\x89PNG\r\n\x1a\n".to_vec();
    let mut header = Vec::new();
    header.extend((raster.width as u32).to_be_bytes());
    header.extend((raster.height as u32).to_be_bytes());
    // 8 bits a channel; colour type 2 is colour, 0 is grey; then the only
    // compression and filter methods there are, and no interlacing.
    header.extend([8, if raster.channels == 3 { 2 } else { 0 }, 0, 0, 0]);
    put_chunk(&mut file, b"IHDR", &header);
    put_chunk(&mut file, b"IDAT", &packed(&filtered(raster)));
    put_chunk(&mut file, b"IEND", &[]);
    file
}

/// The rows, each behind its filter type, 2: the difference from the row above.
fn filtered(raster: &Raster) -> Vec<u8> {
    let width = raster.width * raster.channels;
    let mut rows = Vec::with_capacity(raster.bytes.len() + raster.height);
    let mut above = vec![0; width];
    for row in raster.bytes.chunks(width) {
        rows.push(2);
        rows.extend(
            row.iter()
                .zip(&above)
                .map(|(new, old)| new.wrapping_sub(*old)),
        );
        above.copy_from_slice(row);
    }
    rows
}

/// Bits on their way into bytes, the least significant first.
#[derive(Default)]
struct Bits {
    bytes: Vec<u8>,
    word: u32,
    count: u32,
}

impl Bits {
    fn put(&mut self, value: u32, count: u32) {
        self.word |= value << self.count;
        self.count += count;
        while self.count >= 8 {
            self.bytes.push(self.word as u8);
            self.word >>= 8;
            self.count -= 8;
        }
    }

    /// Puts a codeword, whose first bit is its most significant.
    fn put_code(&mut self, code: u32, count: u32) {
        self.put(code.reverse_bits() >> (32 - count), count);
    }

    /// Puts a symbol of deflate's fixed code (RFC 1951, 3.2.6).
    fn put_symbol(&mut self, symbol: u32) {
        match symbol {
            0..=143 => self.put_code(0x30 + symbol, 8),
            144..=255 => self.put_code(0x190 + symbol - 144, 9),
            256..=279 => self.put_code(symbol - 256, 7),
            _ => self.put_code(0xC0 + symbol - 280, 8),
        }
    }

    /// Puts the length of a run that repeats the byte before it (RFC 1951, 3.2.5).
    fn put_run(&mut self, length: usize) {
        let length = length as u32;
        if length == LONGEST_RUN as u32 {
            self.put_symbol(285);
        } else if length < 11 {
            self.put_symbol(254 + length);
        } else {
            // From 11 on each power of 2 has four symbols, with ever more bits behind.
            let extra = (length - 3).ilog2() - 2;
            let step = (length - 3) >> extra;
            self.put_symbol(257 + 4 * extra + step);
            self.put((length - 3) & ((1 << extra) - 1), extra);
        }
        // The distance is 1: symbol 0 of five bits.
        self.put(0, 5);
    }
}

/// A zlib stream of one block of the fixed code, with runs and no other repeats.
fn packed(bytes: &[u8]) -> Vec<u8> {
    let mut bits = Bits::default();
    bits.put(1, 1);
    bits.put(1, 2);
    let mut rest = bytes;
    while let Some((&first, behind)) = rest.split_first() {
        bits.put_symbol(u32::from(first));
        rest = behind;
        loop {
            let same = rest
                .iter()
                .take(LONGEST_RUN)
                .take_while(|&&byte| byte == first);
            let length = same.count();
            if length < 3 {
                break;
            }
            bits.put_run(length);
            rest = &rest[length..];
        }
    }
    bits.put_symbol(256);
    bits.put(0, 7);
    let mut stream = vec![0x78, 0x01];
    stream.extend(bits.bytes);
    stream.extend(adler32(bytes).to_be_bytes());
    stream
}

fn put_chunk(file: &mut Vec<u8>, name: &[u8; 4], bytes: &[u8]) {
    file.extend((bytes.len() as u32).to_be_bytes());
    let start = file.len();
    file.extend(name);
    file.extend(bytes);
    let sum = crc32(&file[start..]);
    file.extend(sum.to_be_bytes());
}

fn adler32(bytes: &[u8]) -> u32 {
    let (low, high) = bytes.iter().fold((1_u32, 0_u32), |(low, high), &byte| {
        let low = (low + u32::from(byte)) % 65_521;
        (low, (high + low) % 65_521)
    });
    high << 16 | low
}

fn crc32(bytes: &[u8]) -> u32 {
    let mut remainder = u32::MAX;
    for &byte in bytes {
        remainder ^= u32::from(byte);
        for _ in 0..8 {
            let carry = remainder & 1;
            remainder = remainder >> 1 ^ (0xEDB8_8320 * carry);
        }
    }
    !remainder
}

#[cfg(test)]
mod tests {
    use super::{adler32, crc32};

    #[test]
    fn sums_of_known_texts() {
        // The check values of the two sums' definitions.
        assert_eq!(crc32(b"123456789"), 0xCBF4_3926);
        assert_eq!(adler32(b"Wikipedia"), 0x11E6_0398);
    }
}
