//! Words for illegal settings. Whether settings are legal is the archive's to
//! say; this only tells a person which of them it was.

use crate::settings::{InitialK, Order, Settings, Weights};
use crate::tables::Tables;

/// What is said of a number outside its range, if it is.
fn outside(name: &str, value: i32, least: i32, most: i32) -> Option<String> {
    let is_legal = (least..=most).contains(&value);
    (!is_legal).then(|| format!("{name} is {value} and must be {least} to {most}"))
}

impl Settings {
    /// Says which setting is illegal, if one is.
    pub fn complaint(&self) -> Option<String> {
        self.image_complaint()
            .or_else(|| self.predictor_complaint())
            .or_else(|| self.weight_complaint())
            .or_else(|| self.coder_complaint())
    }

    fn image_complaint(&self) -> Option<String> {
        outside("user-data", self.user_data, 0, 255)
            .or_else(|| outside("the count of columns", self.columns, 1, 65_536))
            .or_else(|| outside("the count of rows", self.rows, 1, 65_536))
            .or_else(|| outside("the count of bands", self.bands, 1, 65_536))
            .or_else(|| outside("depth", self.depth, 2, 16))
            .or_else(|| match self.order {
                Order::BandSequential => None,
                Order::Interleaved { depth } => outside("the depth of order", depth, 1, self.bands),
            })
            .or_else(|| outside("word-size", self.word_size, 1, 8))
    }

    fn predictor_complaint(&self) -> Option<String> {
        if self.columns == 1 && !(self.reduced_mode && self.column_sums) {
            let thin = "an image of one column must have mode reduced and sums column";
            return Some(thin.to_string());
        }
        outside("prediction-bands", self.prediction_bands, 0, 15)
            .or_else(|| outside("weight-resolution", self.weight_resolution, 4, 19))
            .or_else(|| {
                let least = 32.max(self.depth + self.weight_resolution + 2);
                outside("register-size", self.register_size, least, 64)
            })
    }

    fn weight_complaint(&self) -> Option<String> {
        let interval = self.change_interval;
        if !(16..=2048).contains(&interval) || interval.count_ones() != 1 {
            let text =
                format!("change-interval is {interval} and must be a power of 2, 16 to 2048");
            return Some(text);
        }
        outside("exponent-initial", self.exponent_initial, -6, 9)
            .or_else(|| {
                let least = self.exponent_initial;
                outside("exponent-final", self.exponent_final, least, 9)
            })
            .or_else(|| match self.weights {
                Weights::Default => None,
                Weights::Table { resolution } => outside(
                    "the bits of weights",
                    resolution,
                    3,
                    self.weight_resolution + 3,
                ),
            })
    }

    fn coder_complaint(&self) -> Option<String> {
        let exponent = self.initial_count_exponent;
        outside("unary-limit", self.unary_limit, 8, 32)
            .or_else(|| outside("initial-count-exponent", exponent, 1, 8))
            .or_else(|| {
                let size = self.rescaling_counter_size;
                outside("rescaling-counter-size", size, 4.max(exponent + 1), 9)
            })
            .or_else(|| match self.initial_k {
                InitialK::Constant(constant) => outside("initial-k", constant, 0, self.depth - 2),
                InitialK::Table => None,
            })
    }

    /// Says which table value that the settings use is illegal, if one is. Of
    /// illegal settings it says nothing: [`Settings::complaint`] does.
    pub fn table_complaint(&self, tables: &Tables) -> Option<String> {
        if self.complaint().is_some() {
            return None;
        }
        (0..tables.bands().min(self.bands as usize)).find_map(|band| {
            self.weight_table_complaint(tables, band)
                .or_else(|| match self.initial_k {
                    InitialK::Constant(_) => None,
                    InitialK::Table => {
                        let name = format!("k' of band {band}");
                        outside(&name, tables.k(band), 0, self.depth - 2)
                    }
                })
        })
    }

    /// The same for the weights of one band; only for legal settings, whose counts
    /// are in range.
    fn weight_table_complaint(&self, tables: &Tables, band: usize) -> Option<String> {
        let Weights::Table { resolution } = self.weights else {
            return None;
        };
        let half = 1 << (resolution - 1);
        let directional = if self.reduced_mode { 0 } else { 3 };
        let used = directional + band.min(self.prediction_bands as usize);
        let weights = tables.weights(band).iter().take(used);
        weights.enumerate().find_map(|(component, &weight)| {
            let name = format!("weight {component} of band {band}");
            outside(&name, weight, -half, half - 1)
        })
    }
}
