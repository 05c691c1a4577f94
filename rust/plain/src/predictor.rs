//! Prediction (section 4): samples to mapped values and back.
//!
//! The small rules are free functions of plain numbers; `Predictor` holds the
//! weights and walks the image.

use crate::settings::{SampleRange, Settings, Shape, TABLE_STRIDE, WEIGHT_SLOTS};

/// The local sum σ at (y, x) of one band (4.4); 0 at t = 0, where none is defined.
pub fn local_sum(column_sums: bool, columns: usize, band: &[i32], y: usize, x: usize) -> i32 {
    let t = y * columns + x;
    if t == 0 {
        return 0;
    }
    if y == 0 {
        return 4 * band[t - 1];
    }
    let north = band[t - columns];
    if column_sums {
        return 4 * north;
    }
    if x == 0 {
        return 2 * (north + band[t - columns + 1]);
    }
    let west_and_north_west = band[t - 1] + band[t - columns - 1];
    if x + 1 == columns {
        west_and_north_west + 2 * north
    } else {
        west_and_north_west + north + band[t - columns + 1]
    }
}

/// The directional local differences north, west, north-west at (y, x) (4.5.2).
pub fn directional_differences(
    columns: usize,
    band: &[i32],
    y: usize,
    x: usize,
    local_sum: i32,
) -> [i32; 3] {
    if y == 0 {
        return [0; 3];
    }
    let t = y * columns + x;
    let north = 4 * band[t - columns] - local_sum;
    if x == 0 {
        return [north; 3];
    }
    let west = 4 * band[t - 1] - local_sum;
    let north_west = 4 * band[t - columns - 1] - local_sum;
    [north, west, north_west]
}

/// The register: the number of `size` bits (32 to 64) in two's complement that is
/// congruent to `value`. It wraps; it never saturates.
pub fn wrap_register(value: i64, size: u32) -> i64 {
    let unused = 64 - size;
    value << unused >> unused
}

/// The default weight of the central component `index` (from 0) (4.6.3.2).
pub fn default_central_weight(weight_resolution: i32, index: usize) -> i32 {
    let mut weight = (7 << weight_resolution) / 8;
    for _ in 0..index {
        weight /= 8;
    }
    weight
}

/// The initial weight from a table value of `resolution` bits (4.6.3.3).
pub fn custom_weight(weight_resolution: i32, resolution: i32, value: i32) -> i32 {
    let scale = 1 << (weight_resolution + 3 - resolution);
    // ceil(2^(Ω+2−Q) − 1), where the power is a half when Q = Ω+3.
    let offset = match weight_resolution + 2 - resolution {
        -1 => 0,
        exponent => (1 << exponent) - 1,
    };
    scale * value + offset
}

/// ρ at t > 0 (4.8.2); it may be negative.
pub fn update_exponent(settings: &Settings, t: usize) -> i32 {
    let since_first_row = t as i64 - i64::from(settings.x_size);
    // The interval is a power of 2, and a shift rounds down as the floor does.
    let steps = since_first_row >> settings.change_interval.ilog2();
    let initial = i64::from(settings.exponent_initial);
    let exponent = (initial + steps).clamp(initial, i64::from(settings.exponent_final));
    exponent as i32 + settings.dynamic_range - settings.weight_resolution
}

/// What one weight gains (4.8.3): floor((g·2^(−ρ)·U + 1)/2), rounded down for
/// negative values too; an error of zero counts as positive.
pub fn weight_step(error: i32, exponent: i32, difference: i32) -> i64 {
    let difference = i64::from(difference);
    let signed = if error >= 0 { difference } else { -difference };
    if exponent >= 0 {
        (signed + (1 << exponent)) >> (exponent + 1)
    } else {
        ((signed << -exponent) + 1) >> 1
    }
}

/// The residual's distance θ from the nearer end.
fn nearest_end(range: SampleRange, predicted: i32) -> i32 {
    (predicted - range.minimum).min(range.maximum - predicted)
}

/// The mapped residual of `sample` (4.9) for the scaled predicted value.
pub fn mapped(range: SampleRange, scaled_predicted: i32, sample: i32) -> u32 {
    let predicted = scaled_predicted >> 1;
    let residual = sample - predicted;
    let theta = nearest_end(range, predicted);
    let size = residual.abs();
    let signed = if scaled_predicted & 1 == 0 {
        residual
    } else {
        -residual
    };
    let mapped = if size > theta {
        size + theta
    } else if 0 <= signed {
        2 * size
    } else {
        2 * size - 1
    };
    mapped as u32
}

/// The sample whose mapped residual is `mapped` (at most 2^D − 1).
pub fn unmapped(range: SampleRange, scaled_predicted: i32, mapped: u32) -> i32 {
    let predicted = scaled_predicted >> 1;
    let mapped = mapped as i32;
    let theta = nearest_end(range, predicted);
    if mapped > 2 * theta {
        // Only the farther end has residuals of this size.
        let size = mapped - theta;
        let low_end_is_nearer = predicted - range.minimum == theta;
        return predicted + if low_end_is_nearer { size } else { -size };
    }
    let size = (mapped + 1) / 2;
    let is_even = mapped & 1 == 0;
    let is_positive = is_even == (scaled_predicted & 1 == 0);
    predicted + if is_positive { size } else { -size }
}

/// A place in the image.
#[derive(Clone, Copy, Debug, PartialEq, Eq)]
pub struct Place {
    pub z: usize,
    pub y: usize,
    pub x: usize,
}

/// The state of prediction over one image. Places of a band must be visited in
/// raster order, and band z−1 before band z at each place.
pub struct Predictor {
    settings: Settings,
    shape: Shape,
    range: SampleRange,
    /// `WEIGHT_SLOTS` a band.
    weights: Vec<i32>,
    /// The central local differences of visited places, laid out as the image, so
    /// that later bands need not work them out again.
    central: Vec<i32>,
    /// The local sum and the components at the place predicted last.
    local_sum: i32,
    components: [i32; WEIGHT_SLOTS],
}

impl Predictor {
    /// The state before the first sample, for legal settings and tables.
    pub fn new(settings: &Settings, tables: &[i32]) -> Predictor {
        let shape = settings.shape();
        let mut weights = vec![0; WEIGHT_SLOTS * shape.bands];
        for (z, band_weights) in weights.chunks_exact_mut(WEIGHT_SLOTS).enumerate() {
            initial_weights(settings, tables, z, band_weights);
        }
        Predictor {
            settings: *settings,
            shape,
            range: settings.sample_range(),
            weights,
            central: vec![0; shape.sample_count()],
            local_sum: 0,
            components: [0; WEIGHT_SLOTS],
        }
    }

    /// s~ at `place` (4.7), from the samples before it in `image`.
    pub fn scaled_predicted(&mut self, image: &[i32], place: Place) -> i32 {
        let band_len = self.shape.band_len();
        let first = place.z * band_len;
        if place.y == 0 && place.x == 0 {
            let has_band_before = self.settings.prediction_bands > 0 && place.z > 0;
            return 2 * if has_band_before {
                image[first - band_len]
            } else {
                self.range.middle
            };
        }
        let band = &image[first..first + band_len];
        let columns = self.shape.columns;
        let column_sums = self.settings.column_sums == 1;
        self.local_sum = local_sum(column_sums, columns, band, place.y, place.x);
        self.gather_components(band, place);
        self.scale_and_clip(self.weighted_sum(place.z))
    }

    /// Sets the components U at `place`: directional ones in full mode, then the
    /// central differences of the bands before, the nearest first.
    fn gather_components(&mut self, band: &[i32], place: Place) {
        let columns = self.shape.columns;
        let directional = self.settings.directional_count();
        if directional > 0 {
            let differences =
                directional_differences(columns, band, place.y, place.x, self.local_sum);
            self.components[..3].copy_from_slice(&differences);
        }
        let band_len = self.shape.band_len();
        let mut index = place.z * band_len + place.y * columns + place.x;
        for slot in 0..self.settings.bands_before(place.z) {
            index -= band_len;
            self.components[directional + slot] = self.central[index];
        }
    }

    /// The predicted central local difference: weights times components.
    fn weighted_sum(&self, z: usize) -> i64 {
        let count = self.settings.component_count(z);
        let weights = &self.weights[WEIGHT_SLOTS * z..][..count];
        weights
            .iter()
            .zip(&self.components[..count])
            .map(|(&weight, &component)| i64::from(weight) * i64::from(component))
            .sum()
    }

    /// The clipped value of equation 29 for t > 0.
    fn scale_and_clip(&self, weighted_sum: i64) -> i32 {
        let resolution = self.settings.weight_resolution;
        let middle = i64::from(self.range.middle);
        let offset = i64::from(self.local_sum) - 4 * middle;
        let register = wrap_register(
            weighted_sum + (offset << resolution),
            self.settings.register_size as u32,
        );
        let scaled = (register >> (resolution + 1)) + 2 * middle + 1;
        let least = 2 * i64::from(self.range.minimum);
        let greatest = 2 * i64::from(self.range.maximum) + 1;
        scaled.clamp(least, greatest) as i32
    }

    /// Takes in the sample at the place predicted last: its central difference
    /// and, for t > 0, the weight step of its band (4.8).
    pub fn learn(&mut self, place: Place, scaled_predicted: i32, sample: i32) {
        let t = place.y * self.shape.columns + place.x;
        if t == 0 {
            return;
        }
        self.central[place.z * self.shape.band_len() + t] = 4 * sample - self.local_sum;
        let error = 2 * sample - scaled_predicted;
        let exponent = update_exponent(&self.settings, t);
        let count = self.settings.component_count(place.z);
        let end = 1_i64 << (self.settings.weight_resolution + 2);
        let weights = &mut self.weights[WEIGHT_SLOTS * place.z..][..count];
        for (weight, &component) in weights.iter_mut().zip(&self.components[..count]) {
            let moved = i64::from(*weight) + weight_step(error, exponent, component);
            *weight = moved.clamp(-end, end - 1) as i32;
        }
    }

    /// The weights of band `z` as they stand.
    pub fn weights(&self, z: usize) -> &[i32] {
        &self.weights[WEIGHT_SLOTS * z..][..self.settings.component_count(z)]
    }
}

/// Sets the weights of band `z` at t = 1 (4.6.3).
pub fn initial_weights(settings: &Settings, tables: &[i32], z: usize, weights: &mut [i32]) {
    let resolution = settings.weight_resolution;
    let directional = settings.directional_count();
    let count = settings.component_count(z);
    for (slot, weight) in weights.iter_mut().enumerate().take(count) {
        *weight = if settings.custom_weights == 1 {
            let value = tables[TABLE_STRIDE * z + slot];
            custom_weight(resolution, settings.initialization_resolution, value)
        } else if slot < directional {
            0
        } else {
            default_central_weight(resolution, slot - directional)
        };
    }
}
