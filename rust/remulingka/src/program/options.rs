//! The one table of commands and options. Help, the manual page, the completions and
//! the reading of words are all made from it.

use remulingka::limits::{grouped, house_limits};
use remulingka::{MOST_SAMPLES, TABLE_SLOTS};

use super::names::{Setting, SETTINGS};

/// What an option takes, for completions.
#[derive(Clone, Copy, Debug, PartialEq, Eq)]
pub enum Takes {
    Nothing,
    File,
    Text,
}

/// One option.
#[derive(Clone, Copy)]
pub struct Choice {
    pub name: &'static str,
    pub short: Option<char>,
    pub takes: Takes,
    /// What it takes, as help shows it; words parted by `|` are completed.
    pub value: &'static str,
    pub help: &'static str,
}

const fn flag(name: &'static str, short: Option<char>, help: &'static str) -> Choice {
    Choice {
        name,
        short,
        takes: Takes::Nothing,
        value: "",
        help,
    }
}

const fn taking(
    name: &'static str,
    takes: Takes,
    value: &'static str,
    help: &'static str,
) -> Choice {
    Choice {
        name,
        short: None,
        takes,
        value,
        help,
    }
}

/// The options of every command.
pub static COMMON: [Choice; 3] = [
    flag("help", Some('h'), "this text"),
    flag("version", Some('V'), "the program's version"),
    flag("quiet", Some('q'), "say nothing but warnings and failures"),
];

const FORCE: Choice = flag("force", Some('f'), "replace outputs that are there already");
const JOBS: Choice = Choice {
    name: "jobs",
    short: Some('j'),
    takes: Takes::Text,
    value: "N",
    help: "work on N files at a time (1)",
};
const BARE: Choice = flag(
    "bare",
    None,
    "write the cube alone, without the stored header beside it",
);
const NO_STORED: Choice = flag(
    "no-stored",
    None,
    "do without the stored header FILE.envi, and its sum",
);
const ROWS: Choice = taking(
    "rows",
    Takes::Text,
    "FIRST:END",
    "only these rows, from 0, END left out;\nwithout FIRST from the first, without END to the last",
);
const COLUMNS: Choice = taking("columns", Takes::Text, "FIRST:END", "only these columns");
const TAKE_BANDS: Choice = taking("take-bands", Takes::Text, "FIRST:END", "only these bands");

static IMAGE: [Choice; 5] = [
    taking(
        "data",
        Takes::File,
        "FILE",
        "the data, - for standard input",
    ),
    ROWS,
    COLUMNS,
    TAKE_BANDS,
    taking(
        "settings",
        Takes::File,
        "FILE",
        "lines of name = value; options come after them",
    ),
];
static PACK_OUTPUT: [Choice; 4] = [
    FORCE,
    BARE,
    taking(
        "split",
        Takes::Text,
        "ROWS|most",
        "write parts of so many rows, or of the most that a cube holds:\nFILE.0001, FILE.0002 and so on, the number before its ending",
    ),
    JOBS,
];
static TABLES_IN: [Choice; 1] = [taking(
    "tables",
    Takes::File,
    "FILE",
    "a line a band: {weights} weight components, then k'",
)];
static OPEN_OUTPUT: [Choice; 7] = [
    taking(
        "data",
        Takes::File,
        "FILE",
        "where the data goes, - for standard output",
    ),
    FORCE,
    taking(
        "interleave",
        Takes::Text,
        "bsq|bil|bip",
        "(as the stored header says, or bsq)",
    ),
    taking(
        "type",
        Takes::Text,
        "1|2|3|12|13|14|15",
        "the data type (as the stored header says, or the smallest\nthat holds the depth)",
    ),
    taking(
        "byte-order",
        Takes::Text,
        "0|1",
        "1 is most significant byte first (as stored, or 0)",
    ),
    taking("tables", Takes::File, "FILE", "writes the table values too"),
    flag(
        "join",
        None,
        "join the parts that pack --split made, in any order",
    ),
];
static OPEN_FIELDS: [Choice; 5] = [
    NO_STORED,
    taking(
        "like",
        Takes::File,
        "OTHER.hdr",
        "take the layout and all fields from this header instead;\nits sizes must be the cube's",
    ),
    Choice {
        help: "where the cube is a part of OTHER: the rows that it holds",
        ..ROWS
    },
    Choice {
        help: "the columns that it holds",
        ..COLUMNS
    },
    Choice {
        help: "the bands that it holds; lists are cut, places moved",
        ..TAKE_BANDS
    },
];
static LOOK_OPTIONS: [Choice; 1] = [flag(
    "as-settings",
    None,
    "lines of name = value, for pack --settings",
)];
static CHECK_OPTIONS: [Choice; 4] = [
    taking(
        "list",
        Takes::File,
        "FILE",
        "the files' names, one a line; - for standard input",
    ),
    flag("json", None, "one JSON object a line for each file"),
    NO_STORED,
    JOBS,
];
static PICTURE_OPTIONS: [Choice; 5] = [
    taking(
        "bands",
        Takes::Text,
        "R,G,B|N",
        "the bands, from 0 (those nearest to 650, 550 and 450 nm where\nwavelengths are stored, else at 5/6, 1/2 and 1/6 of all bands;\nthe first alone if there are fewer than three)",
    ),
    taking(
        "spectrum",
        Takes::Text,
        "X,Y",
        "beside it the spectrum of the pixel at column X and row Y",
    ),
    taking(
        "zoom",
        Takes::Text,
        "N",
        "each pixel N by N (as large as 512 points hold)",
    ),
    NO_STORED,
    FORCE,
];
static DEMO_OPTIONS: [Choice; 1] = [FORCE];

/// Options under a heading.
pub struct Group {
    pub heading: &'static str,
    pub options: &'static [Choice],
    /// Whether the settings follow.
    pub settings: bool,
}

const fn group(heading: &'static str, options: &'static [Choice]) -> Group {
    Group {
        heading,
        options,
        settings: false,
    }
}

/// One command.
pub struct Command {
    pub name: &'static str,
    pub operands: &'static str,
    pub summary: &'static str,
    pub about: &'static str,
    pub groups: &'static [Group],
    pub examples: &'static [&'static str],
}

const SETTINGS_GROUP: Group = Group {
    heading: "The settings, each with what is taken without it",
    options: &TABLES_IN,
    settings: true,
};

pub static COMMANDS: [Command; 10] = [
    Command {
        name: "pack",
        operands: "IMAGE.hdr... FILE|FOLDER",
        summary: "packs ENVI images",
        about: "\
Packs the ENVI image of IMAGE.hdr into FILE, or each image into a cube file of its
name in FOLDER. The data is looked for beside the header: the same name without
.hdr, or with .img, .dat, .raw, .bsq, .bil or .bip. Data types 1, 2 and 12 are
taken, and 3, 13, 14 and 15 where the samples fit 16 bits. An image has at most
{limits}; a larger one is packed in parts by --split.

Beside FILE the header is stored as FILE.envi: its fields (wavelengths, band names,
map info ...) cut to the part that was packed, and the SHA-256 sum of FILE. Keep the
two together; open and check use it. With - for FILE the cube goes to standard
output and no header is stored.",
        groups: &[
            group("The image", &IMAGE),
            group("The output", &PACK_OUTPUT),
            SETTINGS_GROUP,
        ],
        examples: &[
            "remulingka pack plot.hdr plot.cube",
            "remulingka pack scene.hdr scene.cube --split most",
            "remulingka pack flight/*.hdr archive/ --jobs 4",
            "remulingka pack field.hdr part.cube --rows 0:128 --take-bands 10:42",
            "remulingka look old.cube --as-settings > same.txt\n  \
             remulingka pack new.hdr new.cube --settings same.txt",
        ],
    },
    Command {
        name: "open",
        operands: "FILE IMAGE.hdr",
        summary: "opens a file into an ENVI image",
        about: "\
Opens FILE and writes an ENVI header and, beside it, the data (IMAGE.img). Layout
and fields are those of the stored header FILE.envi if it is there; a FILE whose sum
is not the stored one was changed since it was packed, and is refused. With - for
IMAGE.hdr the data alone goes to standard output.

Nothing that exists is replaced without --force, and nothing is written where other
data would lie under the new header, or the new data under another header.",
        groups: &[
            group("The output", &OPEN_OUTPUT),
            group("The header's fields", &OPEN_FIELDS),
        ],
        examples: &[
            "remulingka open plot.cube again.hdr",
            "remulingka open plot.cube again.hdr --interleave bip --byte-order 1",
            "remulingka open --join scene.*.cube scene_again.hdr",
            "remulingka open part.cube part.hdr --no-stored --like field.hdr --rows 0:128",
        ],
    },
    Command {
        name: "look",
        operands: "FILE",
        summary: "shows a file's header",
        about: "\
Shows the header of FILE: every setting by its name and its symbol in the standard.",
        groups: &[group("Options", &LOOK_OPTIONS)],
        examples: &[
            "remulingka look plot.cube",
            "remulingka look plot.cube --as-settings > same.txt",
        ],
    },
    Command {
        name: "length",
        operands: "IMAGE.hdr",
        summary: "says how long the packed file would be",
        about: "Says how many bytes the packed file would have; writes nothing.",
        groups: &[group("The image", &IMAGE), SETTINGS_GROUP],
        examples: &[
            "remulingka length plot.hdr",
            "for p in 0 1 2 3 4 5; do remulingka length plot.hdr --prediction-bands $p; done",
        ],
    },
    Command {
        name: "check",
        operands: "FILE|FOLDER...",
        summary: "says which files open and which are refused",
        about: "\
Opens every FILE, and every file ending with .cube in each FOLDER and below it, and
says in one line of each: that it opens; that it is REFUSED, and why; that it is
CHANGED, which is to say that it opens but is not what was packed, by the sum stored
in FILE.envi; or that it is UNREADABLE. The format has no check of its own: most
files with a changed bit are the legal file of another image and open. Only the
stored sum tells. With --quiet only those that are not in order are said.",
        groups: &[group("Options", &CHECK_OPTIONS)],
        examples: &[
            "remulingka check archive/ --jobs 4",
            "remulingka check --quiet plot.cube || echo 'not in order'",
            "find . -name '*.cube' | remulingka check --list - --json",
        ],
    },
    Command {
        name: "picture",
        operands: "FILE OUT.png",
        summary: "makes a quick-look picture",
        about: "\
Writes a picture of three bands in colour or of one in grey. Each band is
stretched so that two hundredths of its samples are black and as many white.",
        groups: &[group("Options", &PICTURE_OPTIONS)],
        examples: &[
            "remulingka picture plot.cube plot.png",
            "remulingka picture plot.cube plot.png --spectrum 20,40",
            "remulingka picture plot.cube red.png --bands 17",
        ],
    },
    Command {
        name: "demo",
        operands: "[FOLDER]",
        summary: "packs and opens a made forage plot",
        about: "\
Makes a small forage plot of 64 columns, 64 rows and 32 bands of 12 bits, packs
it, opens it, compares and shows the sizes. With FOLDER it writes the plot as an
ENVI image, the packed file and a picture there.",
        groups: &[group("Options", &DEMO_OPTIONS)],
        examples: &["remulingka demo", "remulingka demo plot"],
    },
    Command {
        name: "completion",
        operands: "bash|zsh|fish",
        summary: "prints a shell's completion",
        about: "Prints the file that completes this program's words in a shell.",
        groups: &[],
        examples: &["remulingka completion bash > remulingka.bash"],
    },
    Command {
        name: "manual",
        operands: "",
        summary: "prints the manual page",
        about: "Prints the manual page, for man.",
        groups: &[],
        examples: &["remulingka manual | man -l -"],
    },
    Command {
        name: "help",
        operands: "[COMMAND]",
        summary: "the same as COMMAND --help",
        about: "Shows what there is, or the help of a command.",
        groups: &[],
        examples: &["remulingka help pack"],
    },
];

/// The command of a name.
pub fn command(name: &str) -> Option<&'static Command> {
    COMMANDS.iter().find(|command| command.name == name)
}

impl Command {
    /// The options by name, the common ones with them; settings are not among them.
    pub fn options(&self) -> impl Iterator<Item = &'static Choice> {
        let own = self.groups.iter().flat_map(|group| group.options);
        own.chain(&COMMON)
    }

    /// The settings that are options too.
    pub fn settings(&self) -> impl Iterator<Item = &'static Setting> {
        let takes = self.groups.iter().any(|group| group.settings);
        SETTINGS.iter().filter(move |_| takes)
    }

    /// The usage line.
    pub fn usage(&self) -> String {
        let operands = match self.operands {
            "" => String::new(),
            operands => format!(" {operands}"),
        };
        let options = if self.groups.is_empty() {
            ""
        } else {
            " [OPTIONS]"
        };
        format!("remulingka {}{operands}{options}", self.name)
    }

    /// The help of this command.
    pub fn help(&self) -> String {
        let mut text = format!("{}\n\n{}\n", self.usage(), filled(self.about));
        for group in self.groups {
            text.push_str(&format!("\n{}:\n", group.heading));
            if group.settings {
                for setting in &SETTINGS {
                    let name = format!("--{} {}", setting.name, setting.value);
                    text.push_str(&entry(&name, setting.help));
                }
            }
            for option in group.options {
                text.push_str(&entry(&option.shown(), option.help));
            }
        }
        text.push_str("\nExamples:\n");
        for example in self.examples {
            text.push_str(&format!("  {example}\n"));
        }
        text
    }
}

impl Choice {
    /// The option with its short form and its value.
    pub fn shown(&self) -> String {
        let short = self
            .short
            .map_or(String::new(), |short| format!("-{short}, "));
        let value = match self.value {
            "" => String::new(),
            value => format!(" {value}"),
        };
        format!("{short}--{}{value}", self.name)
    }
}

/// A line of help, with what follows it under itself.
fn entry(name: &str, help: &str) -> String {
    let mut text = String::new();
    for (index, line) in filled(help).lines().enumerate() {
        let name = if index == 0 { name } else { "" };
        if name.chars().count() > 28 {
            text.push_str(&format!("  {name}\n  {:<28}{line}\n", ""));
        } else {
            text.push_str(&format!("  {name:<28}{line}\n"));
        }
    }
    text
}

/// A text with the limits in their places.
pub fn filled(text: &str) -> String {
    text.replace("{limits}", &house_limits())
        .replace("{samples}", &grouped(MOST_SAMPLES as u64))
        .replace("{weights}", &(TABLE_SLOTS - 1).to_string())
}

/// The meaning of the statuses.
pub const STATUSES: [(u8, &str); 4] = [
    (0, "all is well"),
    (
        1,
        "an image or a file was refused, or is not what was packed",
    ),
    (2, "the words of the command line are wrong"),
    (
        3,
        "a file could not be read, or may not or could not be written",
    ),
];

/// The help of the whole program.
pub fn overview() -> String {
    let mut text = filled(
        "\
remulingka packs images of many bands without loss, and opens them again
(CCSDS 123.0-B-1, sample-adaptive coder; at most {limits}).

",
    );
    for command in &COMMANDS {
        let usage = format!("remulingka {} {}", command.name, command.operands);
        text.push_str(&format!("  {:<42}{}\n", usage.trim_end(), command.summary));
    }
    text.push_str("\nEvery command:\n");
    for option in &COMMON {
        text.push_str(&entry(&option.shown(), option.help));
    }
    text.push_str("\nFor a file - is standard input or output. The status:\n");
    for (status, meaning) in STATUSES {
        text.push_str(&format!("  {status}  {meaning}\n"));
    }
    text
}

#[cfg(test)]
mod tests {
    use super::COMMANDS;

    #[test]
    fn no_option_stands_twice_in_a_command() {
        for command in &COMMANDS {
            let names = command.options().map(|option| option.name);
            let mut names: Vec<&str> = names.collect();
            names.extend(command.settings().map(|setting| setting.name));
            let shorts: Vec<char> = command.options().filter_map(|o| o.short).collect();
            for (index, name) in names.iter().enumerate() {
                assert!(!names[..index].contains(name), "{} {name}", command.name);
            }
            for (index, short) in shorts.iter().enumerate() {
                assert!(!shorts[..index].contains(short), "{} {short}", command.name);
            }
        }
    }
}
