//! The settings by their names.

use crate::limits::SETTING_SLOTS;

/// The order in which samples are coded. It changes neither the samples nor, but
/// for the fill, the file's length.
#[derive(Clone, Copy, Debug, PartialEq, Eq)]
pub enum Order {
    /// Band after band.
    BandSequential,
    /// Row after row; within a row, groups of `depth` bands pixel by pixel. A depth
    /// of 1 is band-interleaved by line, one of all bands by pixel.
    Interleaved {
        /// M, 1 to the count of bands.
        depth: i32,
    },
}

/// Where the initial weights come from.
#[derive(Clone, Copy, Debug, PartialEq, Eq)]
pub enum Weights {
    /// The standard's own.
    Default,
    /// The table values, which the file then holds.
    Table {
        /// Q, the bits of each, 3 to Ω+3.
        resolution: i32,
    },
}

/// Where the coder's initial k' come from.
#[derive(Clone, Copy, Debug, PartialEq, Eq)]
pub enum InitialK {
    /// K, one for all bands, 0 to D−2.
    Constant(i32),
    /// The table values, which the file then holds.
    Table,
}

/// The settings of a file. Numbers may be out of their ranges: packing then
/// refuses them, and [`Settings::complaint`] says which and why.
#[derive(Clone, Copy, Debug, PartialEq, Eq)]
pub struct Settings {
    /// One free byte for the user.
    pub user_data: i32,
    /// Nx, 1 to 65,536.
    pub columns: i32,
    /// Ny, 1 to 65,536.
    pub rows: i32,
    /// Nz, 1 to [`MOST_BANDS`](crate::MOST_BANDS).
    pub bands: i32,
    /// Whether samples are signed.
    pub signed: bool,
    /// D, the bits of a sample, 2 to 16.
    pub depth: i32,
    /// The coding order.
    pub order: Order,
    /// B, the file's length is a multiple of it, 1 to 8.
    pub word_size: i32,
    /// P, how many bands before are used to predict, 0 to 15.
    pub prediction_bands: i32,
    /// Reduced mode leaves out the directional components.
    pub reduced_mode: bool,
    /// Column sums use the sample above alone; neighbour sums use four.
    pub column_sums: bool,
    /// R, the register's bits, max(32, D+Ω+2) to 64.
    pub register_size: i32,
    /// Ω, the bits of a weight's fraction, 4 to 19.
    pub weight_resolution: i32,
    /// tinc, a power of 2 from 16 to 2,048.
    pub change_interval: i32,
    /// vmin, −6 to vmax.
    pub exponent_initial: i32,
    /// vmax, vmin to 9.
    pub exponent_final: i32,
    /// The initial weights.
    pub weights: Weights,
    /// Umax, 8 to 32.
    pub unary_limit: i32,
    /// γ*, max(4, γ0+1) to 9.
    pub rescaling_counter_size: i32,
    /// γ0, 1 to 8.
    pub initial_count_exponent: i32,
    /// The initial k'.
    pub initial_k: InitialK,
}

/// A place in an image, from 0.
#[derive(Clone, Copy, Debug, PartialEq, Eq)]
pub struct Place {
    /// z
    pub band: u64,
    /// y
    pub row: u64,
    /// x
    pub column: u64,
}

/// Functions that set one field and hand the settings on.
macro_rules! setters {
    ($($field:ident: $kind:ty;)*) => {
        $(
            #[doc = concat!("These settings with another `", stringify!($field), "`.")]
            pub fn $field(mut self, $field: $kind) -> Settings {
                self.$field = $field;
                self
            }
        )*
    };
}

impl Settings {
    /// Settings that suit most images of these sizes, to be changed by the
    /// functions named after the fields. They are those the standard's report
    /// (CCSDS 120.2-G) found good: three bands before, Ω = D+4, and a register
    /// that never wraps. An image of one column has reduced mode and column sums,
    /// for nothing else is legal there.
    pub fn for_image(columns: i32, rows: i32, bands: i32, signed: bool, depth: i32) -> Settings {
        let is_thin = columns == 1;
        Settings {
            user_data: 0,
            columns,
            rows,
            bands,
            signed,
            depth,
            order: Order::BandSequential,
            word_size: 1,
            prediction_bands: 3,
            reduced_mode: is_thin,
            column_sums: is_thin,
            register_size: 64,
            weight_resolution: depth.saturating_add(4).clamp(4, 19),
            change_interval: 64,
            exponent_initial: -1,
            exponent_final: 3,
            weights: Weights::Default,
            unary_limit: 18,
            rescaling_counter_size: 6,
            initial_count_exponent: 1,
            initial_k: InitialK::Constant(depth.saturating_sub(2).clamp(0, 4)),
        }
    }

    setters! {
        user_data: i32;
        order: Order;
        word_size: i32;
        prediction_bands: i32;
        reduced_mode: bool;
        column_sums: bool;
        register_size: i32;
        weight_resolution: i32;
        change_interval: i32;
        exponent_initial: i32;
        exponent_final: i32;
        weights: Weights;
        unary_limit: i32;
        rescaling_counter_size: i32;
        initial_count_exponent: i32;
        initial_k: InitialK;
    }

    /// The settings as the boundary's slots; what is no setting is 0.
    pub fn to_slots(&self) -> [i32; SETTING_SLOTS] {
        let (band_sequential, interleaving_depth) = match self.order {
            Order::BandSequential => (1, 0),
            Order::Interleaved { depth } => (0, depth),
        };
        let (custom_weights, resolution) = match self.weights {
            Weights::Default => (0, 0),
            Weights::Table { resolution } => (1, resolution),
        };
        let (k_table, constant) = match self.initial_k {
            InitialK::Constant(constant) => (0, constant),
            InitialK::Table => (1, 0),
        };
        [
            self.user_data,
            self.columns,
            self.rows,
            self.bands,
            i32::from(self.signed),
            self.depth,
            band_sequential,
            interleaving_depth,
            self.word_size,
            self.prediction_bands,
            i32::from(self.reduced_mode),
            i32::from(self.column_sums),
            self.register_size,
            self.weight_resolution,
            self.change_interval,
            self.exponent_initial,
            self.exponent_final,
            custom_weights,
            resolution,
            self.unary_limit,
            self.rescaling_counter_size,
            self.initial_count_exponent,
            k_table,
            constant,
        ]
    }

    /// The settings of slots that the reader filled: flags are 0 or 1 there.
    pub(crate) fn from_slots(slots: &[i32; SETTING_SLOTS]) -> Settings {
        Settings {
            user_data: slots[0],
            columns: slots[1],
            rows: slots[2],
            bands: slots[3],
            signed: slots[4] == 1,
            depth: slots[5],
            order: match slots[6] {
                1 => Order::BandSequential,
                _ => Order::Interleaved { depth: slots[7] },
            },
            word_size: slots[8],
            prediction_bands: slots[9],
            reduced_mode: slots[10] == 1,
            column_sums: slots[11] == 1,
            register_size: slots[12],
            weight_resolution: slots[13],
            change_interval: slots[14],
            exponent_initial: slots[15],
            exponent_final: slots[16],
            weights: match slots[17] {
                1 => Weights::Table {
                    resolution: slots[18],
                },
                _ => Weights::Default,
            },
            unary_limit: slots[19],
            rescaling_counter_size: slots[20],
            initial_count_exponent: slots[21],
            initial_k: match slots[22] {
                1 => InitialK::Table,
                _ => InitialK::Constant(slots[23]),
            },
        }
    }

    /// Nx·Ny·Nz; 0 if a size is negative.
    pub fn sample_count(&self) -> u64 {
        [self.columns, self.rows, self.bands]
            .iter()
            .map(|&size| u64::try_from(size).unwrap_or(0))
            .fold(1, u64::saturating_mul)
    }

    /// The least and the greatest sample, for a legal depth.
    pub fn sample_range(&self) -> (i32, i32) {
        let half = 1 << (self.depth.clamp(2, 16) - 1);
        if self.signed {
            (-half, half - 1)
        } else {
            (0, 2 * half - 1)
        }
    }

    /// The place of the sample at `index`, for legal sizes.
    pub fn place_of_index(&self, index: u64) -> Place {
        let columns = self.columns.max(1) as u64;
        let rows = self.rows.max(1) as u64;
        Place {
            band: index / columns / rows,
            row: index / columns % rows,
            column: index % columns,
        }
    }

    /// The place of the value of `rank` in coding order, for legal settings.
    pub fn place_of_rank(&self, rank: u64) -> Place {
        let Order::Interleaved { depth } = self.order else {
            return self.place_of_index(rank);
        };
        let columns = self.columns.max(1) as u64;
        let bands = self.bands.max(1) as u64;
        let depth = depth.max(1) as u64;
        let in_row = rank % (columns * bands);
        // Every group but perhaps the last has `depth` bands.
        let first = in_row / (columns * depth) * depth;
        let in_group = in_row - first * columns;
        let group = depth.min(bands - first);
        Place {
            band: first + in_group % group,
            row: rank / (columns * bands),
            column: in_group / group,
        }
    }
}
