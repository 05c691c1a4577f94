//! The settings, what makes them legal, the house limits and the table area.

use crate::refusal::Refusal;

/// How many slots the settings take as a list.
pub const SETTING_SLOTS: usize = 24;
/// Table slots a band: the weight components, then k'.
pub const TABLE_STRIDE: usize = 19;
/// Weight components a band at most: three directional and fifteen central.
pub const WEIGHT_SLOTS: usize = 18;
/// The slot of k' within a band's table slots.
pub const K_SLOT: usize = 18;
/// Scratch slots a band that the caller must lend.
pub const SCRATCH_STRIDE: usize = 32;
/// House limit on Nx·Ny·Nz.
pub const MOST_SAMPLES: u64 = 1 << 28;
/// House limit on Nz.
pub const MOST_BANDS: i32 = 4_096;

/// The names of the slots in recorded calls, in slot order.
pub const SLOT_NAMES: [&str; SETTING_SLOTS] = [
    "user",
    "nx",
    "ny",
    "nz",
    "signed",
    "d",
    "order",
    "m",
    "b",
    "p",
    "reduced",
    "column",
    "r",
    "omega",
    "tinc",
    "vmin",
    "vmax",
    "custom",
    "q",
    "umax",
    "gamma_star",
    "gamma0",
    "k_table",
    "k",
];

/// The settings as the caller gives them. Every field is a whole slot, so that
/// illegal values can be held, and refused, like any other.
#[derive(Clone, Copy, Debug, PartialEq, Eq)]
pub struct Settings {
    pub user_data: i32,
    /// Nx
    pub x_size: i32,
    /// Ny
    pub y_size: i32,
    /// Nz
    pub z_size: i32,
    /// 1 for signed samples
    pub signed_samples: i32,
    /// D
    pub dynamic_range: i32,
    /// 1 for band-sequential, 0 for band-interleaved order
    pub band_sequential: i32,
    /// M, no setting when band-sequential
    pub interleaving_depth: i32,
    /// B
    pub output_word_size: i32,
    /// P
    pub prediction_bands: i32,
    /// 1 for reduced, 0 for full mode
    pub reduced_mode: i32,
    /// 1 for column-oriented, 0 for neighbour-oriented sums
    pub column_sums: i32,
    /// R
    pub register_size: i32,
    /// Ω
    pub weight_resolution: i32,
    /// tinc, the interval itself
    pub change_interval: i32,
    /// vmin
    pub exponent_initial: i32,
    /// vmax
    pub exponent_final: i32,
    /// 1 for a weight table, 0 for default weights
    pub custom_weights: i32,
    /// Q, no setting with default weights
    pub initialization_resolution: i32,
    /// Umax
    pub unary_limit: i32,
    /// γ*
    pub rescaling_counter_size: i32,
    /// γ0
    pub initial_count_exponent: i32,
    /// 1 for a table of k', 0 for the constant K
    pub accumulator_table: i32,
    /// K, no setting beside a table of k'
    pub accumulator_constant: i32,
}

fn is_flag(value: i32) -> bool {
    value == 0 || value == 1
}

impl Settings {
    /// The settings from a list of at least 24 slots; a shorter list is refused 3.
    pub fn from_slots(slots: &[i32]) -> Result<Settings, Refusal> {
        let s = slots
            .first_chunk::<SETTING_SLOTS>()
            .ok_or(Refusal::WrongCount)?;
        Ok(Settings {
            user_data: s[0],
            x_size: s[1],
            y_size: s[2],
            z_size: s[3],
            signed_samples: s[4],
            dynamic_range: s[5],
            band_sequential: s[6],
            interleaving_depth: s[7],
            output_word_size: s[8],
            prediction_bands: s[9],
            reduced_mode: s[10],
            column_sums: s[11],
            register_size: s[12],
            weight_resolution: s[13],
            change_interval: s[14],
            exponent_initial: s[15],
            exponent_final: s[16],
            custom_weights: s[17],
            initialization_resolution: s[18],
            unary_limit: s[19],
            rescaling_counter_size: s[20],
            initial_count_exponent: s[21],
            accumulator_table: s[22],
            accumulator_constant: s[23],
        })
    }

    /// The settings as 24 slots, in the order of `SLOT_NAMES`.
    pub fn to_slots(&self) -> [i32; SETTING_SLOTS] {
        [
            self.user_data,
            self.x_size,
            self.y_size,
            self.z_size,
            self.signed_samples,
            self.dynamic_range,
            self.band_sequential,
            self.interleaving_depth,
            self.output_word_size,
            self.prediction_bands,
            self.reduced_mode,
            self.column_sums,
            self.register_size,
            self.weight_resolution,
            self.change_interval,
            self.exponent_initial,
            self.exponent_final,
            self.custom_weights,
            self.initialization_resolution,
            self.unary_limit,
            self.rescaling_counter_size,
            self.initial_count_exponent,
            self.accumulator_table,
            self.accumulator_constant,
        ]
    }

    /// The settings with those that are none (M, Q, K where unused) set to 0,
    /// as the reader returns them.
    pub fn normalized(&self) -> Settings {
        let mut settings = *self;
        if self.band_sequential == 1 {
            settings.interleaving_depth = 0;
        }
        if self.custom_weights == 0 {
            settings.initialization_resolution = 0;
        }
        if self.accumulator_table == 1 {
            settings.accumulator_constant = 0;
        }
        settings
    }

    /// Whether the settings of the header's image part are legal.
    pub fn image_part_is_legal(&self) -> bool {
        let sizes = [self.x_size, self.y_size, self.z_size];
        (0..=255).contains(&self.user_data)
            && sizes.iter().all(|size| (1..=65_536).contains(size))
            && is_flag(self.signed_samples)
            && (2..=16).contains(&self.dynamic_range)
            && is_flag(self.band_sequential)
            && (self.band_sequential == 1 || (1..=self.z_size).contains(&self.interleaving_depth))
            && (1..=8).contains(&self.output_word_size)
    }

    /// Whether the settings of the predictor part are legal beside a legal image part.
    pub fn predictor_part_is_legal(&self) -> bool {
        let least_register =
            32.max(i64::from(self.dynamic_range) + i64::from(self.weight_resolution) + 2);
        let most_resolution = i64::from(self.weight_resolution) + 3;
        (0..=15).contains(&self.prediction_bands)
            && is_flag(self.reduced_mode)
            && is_flag(self.column_sums)
            && (self.x_size != 1 || (self.reduced_mode == 1 && self.column_sums == 1))
            && (4..=19).contains(&self.weight_resolution)
            && (least_register..=64).contains(&i64::from(self.register_size))
            && (4..=11).any(|exponent| self.change_interval == 1 << exponent)
            && -6 <= self.exponent_initial
            && self.exponent_initial <= self.exponent_final
            && self.exponent_final <= 9
            && is_flag(self.custom_weights)
            && (self.custom_weights == 0
                || (3..=most_resolution).contains(&i64::from(self.initialization_resolution)))
    }

    /// Whether the settings of the coder part are legal beside a legal image part.
    pub fn coder_part_is_legal(&self) -> bool {
        (8..=32).contains(&self.unary_limit)
            && (1..=8).contains(&self.initial_count_exponent)
            && (4.max(self.initial_count_exponent + 1)..=9).contains(&self.rescaling_counter_size)
            && is_flag(self.accumulator_table)
            && (self.accumulator_table == 1 || self.is_legal_k(self.accumulator_constant))
    }

    /// Whether everything but the table values is legal.
    pub fn plain_settings_are_legal(&self) -> bool {
        self.image_part_is_legal() && self.predictor_part_is_legal() && self.coder_part_is_legal()
    }

    /// Whether `k` may stand as K or as a band's k'.
    pub fn is_legal_k(&self, k: i32) -> bool {
        0 <= k && i64::from(k) <= i64::from(self.dynamic_range) - 2
    }

    /// Nx·Ny·Nz of settings whose image part is legal (at most 2^48).
    pub fn sample_count(&self) -> u64 {
        [self.x_size, self.y_size, self.z_size]
            .iter()
            .fold(1, |product: u64, &size| {
                product.saturating_mul(u64::try_from(size).unwrap_or(0))
            })
    }

    /// Whether an image of legal sizes is larger than the house takes.
    pub fn passes_house_limit(&self) -> bool {
        self.z_size > MOST_BANDS || self.sample_count() > MOST_SAMPLES
    }

    /// The sizes as array lengths, for legal settings within the house limits.
    pub fn shape(&self) -> Shape {
        Shape {
            columns: self.x_size as usize,
            rows: self.y_size as usize,
            bands: self.z_size as usize,
        }
    }

    /// Whether scratch or the table area is too short (refusal 5).
    pub fn areas_are_short(&self, scratch_len: usize, table_len: usize) -> bool {
        let bands = self.shape().bands;
        scratch_len < SCRATCH_STRIDE * bands || table_len < TABLE_STRIDE * bands
    }

    /// The least and greatest sample and the middle.
    pub fn sample_range(&self) -> SampleRange {
        let half = 1 << (self.dynamic_range - 1);
        if self.signed_samples == 1 {
            SampleRange {
                minimum: -half,
                maximum: half - 1,
                middle: 0,
            }
        } else {
            SampleRange {
                minimum: 0,
                maximum: 2 * half - 1,
                middle: half,
            }
        }
    }

    /// P*: how many earlier bands the prediction in band `z` uses.
    pub fn bands_before(&self, z: usize) -> usize {
        z.min(self.prediction_bands as usize)
    }

    /// C: how many components the prediction in band `z` has.
    pub fn component_count(&self, z: usize) -> usize {
        self.directional_count() + self.bands_before(z)
    }

    /// Three directional components in full mode, none in reduced mode.
    pub fn directional_count(&self) -> usize {
        if self.reduced_mode == 1 {
            0
        } else {
            3
        }
    }

    /// The k' of band `z`: its table value, or the constant for all bands.
    pub fn initial_k(&self, tables: &[i32], z: usize) -> i32 {
        if self.accumulator_table == 1 {
            tables[TABLE_STRIDE * z + K_SLOT]
        } else {
            self.accumulator_constant
        }
    }

    /// Whether every table value that the settings use is legal.
    pub fn used_table_values_are_legal(&self, tables: &[i32]) -> bool {
        let bands = tables.chunks_exact(TABLE_STRIDE).take(self.shape().bands);
        bands.enumerate().all(|(z, slots)| {
            let weights_fit = self.custom_weights == 0
                || slots[..self.component_count(z)]
                    .iter()
                    .all(|&value| fits_signed(value, self.initialization_resolution));
            weights_fit && (self.accumulator_table == 0 || self.is_legal_k(slots[K_SLOT]))
        })
    }
}

/// Whether `value` is a two's complement number of `width` bits (1 to 32).
pub fn fits_signed(value: i32, width: i32) -> bool {
    let half = 1_i64 << (width - 1);
    (-half..half).contains(&i64::from(value))
}

/// The sizes of an image as array lengths.
#[derive(Clone, Copy, Debug, PartialEq, Eq)]
pub struct Shape {
    pub columns: usize,
    pub rows: usize,
    pub bands: usize,
}

impl Shape {
    /// Samples of one band.
    pub fn band_len(&self) -> usize {
        self.columns * self.rows
    }

    /// Samples of the image.
    pub fn sample_count(&self) -> usize {
        self.band_len() * self.bands
    }
}

/// The ends of the sample range and its middle.
#[derive(Clone, Copy, Debug, PartialEq, Eq)]
pub struct SampleRange {
    pub minimum: i32,
    pub maximum: i32,
    pub middle: i32,
}

impl SampleRange {
    /// Whether `sample` lies between the ends.
    pub fn contains(&self, sample: i32) -> bool {
        self.minimum <= sample && sample <= self.maximum
    }
}
