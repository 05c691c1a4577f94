//! The settings by name: one table for options, settings files, `look` and help.

use std::path::{Path, PathBuf};

use remulingka::{InitialK, Order, Settings, Tables, Weights, TABLE_SLOTS};

use super::failure::Failure;
use super::files::read_text;

/// One setting.
pub struct Setting {
    pub name: &'static str,
    /// Its symbol in the standard.
    pub symbol: &'static str,
    /// What its option takes, as help shows it.
    pub value: &'static str,
    /// Its values with what is taken without it.
    pub help: &'static str,
    /// Sets it. Whether a number is legal is left to the archive.
    set: fn(&mut Settings, &str) -> Result<(), String>,
    /// The value as `set` takes it.
    pub show: fn(&Settings) -> String,
}

/// A setting that is a number in a field of its own.
macro_rules! number_setting {
    ($name:literal, $symbol:literal, $field:ident, $help:literal) => {
        Setting {
            name: $name,
            symbol: $symbol,
            value: "N",
            help: $help,
            set: |settings, value| {
                settings.$field = number(value)?;
                Ok(())
            },
            show: |settings| settings.$field.to_string(),
        }
    };
}

/// A setting that is one of two words.
macro_rules! word_setting {
    ($name:literal, $field:ident, $value:literal, $true:literal, $false:literal, $help:literal) => {
        Setting {
            name: $name,
            symbol: "",
            value: $value,
            help: $help,
            set: |settings, value| {
                settings.$field = word(value, $true, $false)?;
                Ok(())
            },
            show: |settings| if settings.$field { $true } else { $false }.to_string(),
        }
    };
}

/// The name of the depth's setting, which has a word of its own.
pub const DEPTH: &str = "depth";
/// The depth that is the least that holds all samples.
const LEAST: &str = "least";

/// Every setting, in the order of the header.
pub static SETTINGS: [Setting; 18] = [
    number_setting!("user-data", "", user_data, "0 to 255 (0)"),
    Setting {
        name: DEPTH,
        symbol: "D",
        value: "BITS|least",
        help:
            "2 to 16, or the least that holds the samples\n(the bits of the data type, at most 16)",
        set: |settings, value| {
            if value != LEAST {
                settings.depth = number(value)?;
            }
            Ok(())
        },
        show: |settings| settings.depth.to_string(),
    },
    word_setting!(
        "signed",
        signed,
        "yes|no",
        "yes",
        "no",
        "(as the data type says)"
    ),
    Setting {
        name: "order",
        symbol: "M",
        value: "band|line|pixel|N",
        help: "the coding order, or groups of N bands (band)",
        set: |settings, value| {
            settings.order = order(value, settings.bands)?;
            Ok(())
        },
        show: |settings| match settings.order {
            Order::BandSequential => "band".to_string(),
            Order::Interleaved { depth } if depth == settings.bands => "pixel".to_string(),
            Order::Interleaved { depth: 1 } => "line".to_string(),
            Order::Interleaved { depth } => depth.to_string(),
        },
    },
    number_setting!(
        "word-size",
        "B",
        word_size,
        "the file's length is a multiple of N, 1 to 8 (1)"
    ),
    number_setting!(
        "prediction-bands",
        "P",
        prediction_bands,
        "bands before used to predict, 0 to 15 (3)"
    ),
    word_setting!(
        "mode",
        reduced_mode,
        "full|reduced",
        "reduced",
        "full",
        "(full; reduced for one column)"
    ),
    word_setting!(
        "sums",
        column_sums,
        "neighbour|column",
        "column",
        "neighbour",
        "(neighbour; column for one column)"
    ),
    number_setting!(
        "register-size",
        "R",
        register_size,
        "32, or depth + weight-resolution + 2, to 64 (64)"
    ),
    number_setting!(
        "weight-resolution",
        "Ω",
        weight_resolution,
        "4 to 19 (depth + 4, at most 19)"
    ),
    number_setting!(
        "change-interval",
        "tinc",
        change_interval,
        "a power of 2, 16 to 2048 (64)"
    ),
    number_setting!("exponent-initial", "vmin", exponent_initial, "-6 to 9 (-1)"),
    number_setting!(
        "exponent-final",
        "vmax",
        exponent_final,
        "exponent-initial to 9 (3)"
    ),
    Setting {
        name: "weights",
        symbol: "Q",
        value: "default|BITS",
        help: "BITS, 3 to weight-resolution + 3, needs --tables (default)",
        set: |settings, value| {
            settings.weights = match value {
                "default" => Weights::Default,
                _ => Weights::Table {
                    resolution: number(value)?,
                },
            };
            Ok(())
        },
        show: |settings| match settings.weights {
            Weights::Default => "default".to_string(),
            Weights::Table { resolution } => resolution.to_string(),
        },
    },
    number_setting!("unary-limit", "Umax", unary_limit, "8 to 32 (18)"),
    number_setting!(
        "rescaling-counter-size",
        "γ*",
        rescaling_counter_size,
        "4, or initial-count-exponent + 1, to 9 (6)"
    ),
    number_setting!(
        "initial-count-exponent",
        "γ0",
        initial_count_exponent,
        "1 to 8 (1)"
    ),
    Setting {
        name: "initial-k",
        symbol: "K",
        value: "N|table",
        help: "0 to depth - 2; table needs --tables (4 at most)",
        set: |settings, value| {
            settings.initial_k = match value {
                "table" => InitialK::Table,
                _ => InitialK::Constant(number(value)?),
            };
            Ok(())
        },
        show: |settings| match settings.initial_k {
            InitialK::Constant(constant) => constant.to_string(),
            InitialK::Table => "table".to_string(),
        },
    },
];

/// One setting as it was given: where, its name and its value.
struct Choice {
    origin: String,
    name: String,
    value: String,
}

/// The depth that was asked for.
#[derive(Clone, Copy, Debug, PartialEq, Eq)]
pub enum Depth {
    /// That of the data type.
    OfType,
    /// The least that holds all samples.
    Least,
    /// A number.
    Bits(i32),
}

/// The settings that were given.
#[derive(Default)]
pub struct Choices {
    settings: Vec<Choice>,
    tables: Option<PathBuf>,
}

impl Choices {
    /// Adds a setting by name; false if there is none of that name.
    pub fn add(&mut self, origin: String, name: &str, value: &str) -> bool {
        let is_known = SETTINGS.iter().any(|known| known.name == name);
        if is_known {
            self.settings.push(Choice {
                origin,
                name: name.to_string(),
                value: value.to_string(),
            });
        }
        is_known
    }

    /// Names the table file.
    pub fn add_tables(&mut self, path: &Path) {
        self.tables = Some(path.to_path_buf());
    }

    /// Adds a settings file: `name = value` lines; `#` starts a remark.
    pub fn add_file(&mut self, path: &Path) -> Result<(), Failure> {
        for (index, line) in read_text(path)?.lines().enumerate() {
            let line = line.split('#').next().unwrap_or("").trim();
            if line.is_empty() {
                continue;
            }
            let origin = format!("{}, line {}", path.display(), index + 1);
            let Some((name, value)) = line.split_once('=') else {
                return Err(Failure::Usage(format!(
                    "{origin}: `{line}` is no `name = value`"
                )));
            };
            let (name, value) = (name.trim(), value.trim());
            if name == "tables" {
                self.add_tables(Path::new(value));
            } else if !self.add(origin.clone(), name, value) {
                return Err(Failure::Usage(format!(
                    "{origin}: there is no setting {name}"
                )));
            }
        }
        Ok(())
    }

    /// The last value given for `name`, taken by `read`.
    fn last<T>(
        &self,
        name: &str,
        read: impl Fn(&str) -> Result<T, String>,
    ) -> Result<Option<T>, Failure> {
        let mut given = self.settings.iter().rev();
        let last = given.find(|choice| choice.name == name);
        last.map(|choice| {
            read(&choice.value)
                .map_err(|error| Failure::Usage(format!("{}: {error}", choice.origin)))
        })
        .transpose()
    }

    /// Whether samples are signed, if it was said.
    pub fn signed(&self) -> Result<Option<bool>, Failure> {
        self.last("signed", |value| word(value, "yes", "no"))
    }

    pub fn depth(&self) -> Result<Depth, Failure> {
        let depth = self.last(DEPTH, |value| match value {
            LEAST => Ok(Depth::Least),
            _ => number(value).map(Depth::Bits),
        })?;
        Ok(depth.unwrap_or(Depth::OfType))
    }

    /// The tables, if a file of them was named. Settings that ask for tables and
    /// have none, or tables that no setting uses, are a mistake.
    pub fn tables(&self, settings: &Settings) -> Result<Option<Tables>, Failure> {
        let wants = match (settings.weights, settings.initial_k) {
            (Weights::Table { resolution }, _) => Some(format!("weights {resolution}")),
            (_, InitialK::Table) => Some("initial-k table".to_string()),
            _ => None,
        };
        match (&self.tables, wants) {
            (None, None) => Ok(None),
            (Some(path), Some(_)) => read_tables(path).map(Some),
            (None, Some(setting)) => Err(Failure::Usage(format!(
                "{setting} takes its values from a table: name it with --tables FILE \
                 (remulingka open --tables FILE writes those of a cube)"
            ))),
            (Some(path), None) => Err(Failure::Usage(format!(
                "--tables {}: no setting uses it; give --weights BITS or --initial-k table too",
                path.display()
            ))),
        }
    }

    /// The settings for an image of these sizes: sensible ones where none is given.
    pub fn settings(&self, mut settings: Settings) -> Result<Settings, Failure> {
        for choice in &self.settings {
            if let Some(known) = SETTINGS.iter().find(|known| known.name == choice.name) {
                (known.set)(&mut settings, &choice.value)
                    .map_err(|error| Failure::Usage(format!("{}: {error}", choice.origin)))?;
            }
        }
        Ok(settings)
    }
}

fn number(value: &str) -> Result<i32, String> {
    value
        .parse()
        .map_err(|_| format!("{value} is no number of at most 32 bits"))
}

/// True for one word, false for the other.
fn word(value: &str, when_true: &str, when_false: &str) -> Result<bool, String> {
    match value {
        _ if value == when_true => Ok(true),
        _ if value == when_false => Ok(false),
        _ => Err(format!("{value} is neither {when_true} nor {when_false}")),
    }
}

fn order(value: &str, bands: i32) -> Result<Order, String> {
    Ok(match value {
        "band" => Order::BandSequential,
        "line" => Order::Interleaved { depth: 1 },
        "pixel" => Order::Interleaved { depth: bands },
        _ => Order::Interleaved {
            depth: number(value)
                .map_err(|_| format!("{value} is not band, line, pixel or a count of bands"))?,
        },
    })
}

/// Reads a table file: a line of numbers a band; `#` starts a remark.
fn read_tables(path: &Path) -> Result<Tables, Failure> {
    let mut slots = Vec::new();
    for (index, line) in read_text(path)?.lines().enumerate() {
        let line = line.split('#').next().unwrap_or("");
        let values: Result<Vec<i32>, String> = line.split_whitespace().map(number).collect();
        let origin = format!("line {}", index + 1);
        let mut values =
            values.map_err(|error| Failure::refused(path, format!("{origin}: {error}")))?;
        if !values.is_empty() && values.len() != TABLE_SLOTS {
            let what = format!("{origin}: a band has {TABLE_SLOTS} numbers");
            return Err(Failure::refused(path, what));
        }
        slots.append(&mut values);
    }
    Tables::from_slots(slots)
        .ok_or_else(|| Failure::refused(path, format!("lines of {TABLE_SLOTS} numbers are wanted")))
}

/// The text of a table file.
pub fn tables_text(tables: &Tables) -> String {
    let weights = TABLE_SLOTS - 1;
    let mut text = format!("# a line a band: {weights} weight components, then k'\n");
    for band in tables.slots().chunks(TABLE_SLOTS) {
        let words: Vec<String> = band.iter().map(i32::to_string).collect();
        text.push_str(&words.join(" "));
        text.push('\n');
    }
    text
}

#[cfg(test)]
mod tests {
    use super::{Settings, SETTINGS};

    #[test]
    fn every_setting_takes_what_it_shows() {
        let settings = Settings::for_image(4, 3, 2, true, 9);
        for setting in &SETTINGS {
            let mut other = settings;
            (setting.set)(&mut other, &(setting.show)(&settings)).unwrap();
            assert_eq!(other, settings, "{}", setting.name);
        }
    }
}
