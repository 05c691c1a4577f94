//! The sample-adaptive coder (5.4.3.2): mapped values to codewords and back.

use crate::bits::{BitReader, BitSink};
use crate::settings::Settings;

/// The code selection statistics of one band.
#[derive(Clone, Copy, Debug, PartialEq, Eq)]
pub struct Statistics {
    /// Γ
    pub count: u64,
    /// Σ
    pub accumulator: u64,
}

impl Statistics {
    /// The statistics at t = 1.
    pub fn initial(initial_count_exponent: i32, initial_k: i32) -> Statistics {
        let count = 1 << initial_count_exponent;
        let accumulator = ((3 << (initial_k + 6)) - 49) * count / 128;
        Statistics { count, accumulator }
    }

    /// Takes in a mapped value of t ≥ 1. The count runs over the whole band; it
    /// does not start again with a row.
    pub fn update(&mut self, mapped: u32, rescaling_counter_size: i32) {
        if self.count < (1 << rescaling_counter_size) - 1 {
            self.accumulator += u64::from(mapped);
            self.count += 1;
        } else {
            self.accumulator = (self.accumulator + u64::from(mapped) + 1) >> 1;
            self.count = (self.count + 1) >> 1;
        }
    }

    /// k: the largest up to D−2 with Γ·2^k at most Σ + floor(49Γ/128), 0 if none.
    pub fn code_parameter(&self, dynamic_range: i32) -> u32 {
        let sum = self.accumulator + 49 * self.count / 128;
        let most = dynamic_range as u32 - 2;
        let mut k = 0;
        while k < most && self.count << (k + 1) <= sum {
            k += 1;
        }
        k
    }
}

/// Why a codeword could not be read.
#[derive(Clone, Copy, Debug, PartialEq, Eq)]
pub enum CodewordFault {
    /// The bits end inside it.
    Ends,
    /// The writer would not choose it, or its value is over 2^D − 1.
    Foreign,
}

/// What a codeword depends on beside its value.
#[derive(Clone, Copy, Debug, PartialEq, Eq)]
pub struct Code {
    pub dynamic_range: u32,
    pub unary_limit: u32,
    pub k: u32,
}

impl Code {
    /// Writes the codeword of `mapped`.
    pub fn write(&self, mapped: u32, sink: &mut impl BitSink) {
        let unary = mapped >> self.k;
        if unary < self.unary_limit {
            let one = 1 << self.k;
            let low_bits = mapped & (one - 1);
            sink.put(u64::from(one | low_bits), unary + 1 + self.k);
        } else {
            sink.put(u64::from(mapped), self.unary_limit + self.dynamic_range);
        }
    }

    /// Reads one codeword. The whole codeword must be there before its value is
    /// looked at.
    pub fn read(&self, reader: &mut BitReader) -> Result<u32, CodewordFault> {
        let zeros = reader
            .take_zeros(self.unary_limit)
            .ok_or(CodewordFault::Ends)?;
        let is_escape = zeros == self.unary_limit;
        let width = if is_escape {
            self.dynamic_range
        } else {
            self.k
        };
        let bits = reader.take(width).ok_or(CodewordFault::Ends)?;
        let mapped = if is_escape {
            bits
        } else {
            u64::from(zeros) << self.k | bits
        };
        let has_escape = mapped >> self.k >= u64::from(self.unary_limit);
        if mapped >> self.dynamic_range != 0 || has_escape != is_escape {
            return Err(CodewordFault::Foreign);
        }
        Ok(mapped as u32)
    }
}

/// The state of the coder over one image: every band's statistics.
pub struct Coder {
    dynamic_range: i32,
    unary_limit: u32,
    rescaling_counter_size: i32,
    bands: Vec<Statistics>,
}

impl Coder {
    /// The state before the first value, for legal settings and tables.
    pub fn new(settings: &Settings, tables: &[i32]) -> Coder {
        let bands = (0..settings.shape().bands)
            .map(|z| {
                let initial_k = settings.initial_k(tables, z);
                Statistics::initial(settings.initial_count_exponent, initial_k)
            })
            .collect();
        Coder {
            dynamic_range: settings.dynamic_range,
            unary_limit: settings.unary_limit as u32,
            rescaling_counter_size: settings.rescaling_counter_size,
            bands,
        }
    }

    /// The code of the next value of band `z`, for t > 0.
    pub fn code(&self, z: usize) -> Code {
        Code {
            dynamic_range: self.dynamic_range as u32,
            unary_limit: self.unary_limit,
            k: self.bands[z].code_parameter(self.dynamic_range),
        }
    }

    /// Writes the value of band `z`; the first of a band is plain bits.
    pub fn write(&mut self, z: usize, is_first: bool, mapped: u32, sink: &mut impl BitSink) {
        if is_first {
            sink.put(u64::from(mapped), self.dynamic_range as u32);
        } else {
            self.code(z).write(mapped, sink);
            self.bands[z].update(mapped, self.rescaling_counter_size);
        }
    }

    /// Reads the value of band `z`.
    pub fn read(
        &mut self,
        z: usize,
        is_first: bool,
        reader: &mut BitReader,
    ) -> Result<u32, CodewordFault> {
        if is_first {
            let bits = reader.take(self.dynamic_range as u32);
            return bits.map(|bits| bits as u32).ok_or(CodewordFault::Ends);
        }
        let mapped = self.code(z).read(reader)?;
        self.bands[z].update(mapped, self.rescaling_counter_size);
        Ok(mapped)
    }

    /// The statistics of band `z` as they stand.
    pub fn statistics(&self, z: usize) -> Statistics {
        self.bands[z]
    }
}
