//! Feeds: calls at the C boundary as the binary input of the proved program, and the
//! lines that it must write, computed here. README.md has the format.
//!
//! A line has the answer and a hash of every element of every area that the call may
//! write, not the elements themselves: `Hash` says why that is enough.

use crate::boundary::{length, look, number_of, open, pack, value_of, Call};
use crate::case::{BYTE_BEFORE, SLOT_BEFORE};
use crate::settings::{Settings, SCRATCH_STRIDE, SETTING_SLOTS, TABLE_STRIDE};

/// A slot area that a feed lends.
#[derive(Clone, Copy, Debug, PartialEq, Eq)]
pub struct Area {
    /// The kind of its records.
    pub kind: usize,
    pub name: &'static str,
    /// Slots that the program has room for.
    pub most: usize,
}

const fn area(kind: usize, name: &'static str, most: usize) -> Area {
    Area { kind, name, most }
}

/// The settings, with room for more slots than there are.
pub const SETTINGS: Area = area(1, "SETTINGS", 64);
/// The tables: 64 bands and some.
pub const TABLES: Area = area(2, "TABLES", 1_280);
/// The samples to be packed, or the area for an image: a recorded call lends one
/// this large for a file of a few bytes.
pub const IMAGE: Area = area(3, "IMAGE", 786_432);
/// Scratch: 64 bands and some.
pub const SCRATCH: Area = area(4, "SCRATCH", 2_112);
/// All of them.
pub const AREAS: [Area; 4] = [SETTINGS, TABLES, IMAGE, SCRATCH];

/// The kind of the record that gives the bytes of a file.
pub const BYTES: usize = 5;
/// Bytes of an output, or of a file and what a change may add, that the program has
/// room for.
pub const MOST_BYTES: usize = 16_384 + PADDING;
/// Zero bytes behind every file of a feed, so that a change can lengthen it.
pub const PADDING: usize = 9;
/// The kind of the first call; the others follow in the order of their names.
pub const FIRST_CALL: usize = 11;
/// Bytes of a record: four words.
pub const RECORD_BYTES: usize = 16;

/// What the proved program has to agree on with this one, as its source.
pub fn shared_source() -> String {
    fn constant(name: &str, kind: &str, value: impl std::fmt::Display) -> String {
        format!("pub const {name}: {kind} = {value};\n")
    }
    let room = |area: Area| constant(&format!("MOST_{}", area.name), "usize", area.most);
    let mut rooms = AREAS.map(room).to_vec();
    rooms.push(constant("MOST_BYTES", "usize", MOST_BYTES));
    let before = vec![
        constant("BYTE_BEFORE", "u8", BYTE_BEFORE),
        constant("SLOT_BEFORE", "i32", SLOT_BEFORE),
    ];
    let hash = vec![
        constant("MODULUS", "u64", Hash::MODULUS),
        constant("BASE", "u64", Hash::BASE),
    ];
    let groups = [
        ("Slots and bytes that an area may have.", rooms),
        (
            "What every byte and slot that a call may write holds before it.",
            before,
        ),
        ("The hash's prime and its base.", hash),
    ];
    let groups = groups.map(|(about, constants)| format!("// {about}\n{}", constants.join("\n")));
    format!(
        "// What the replay and the independent program have to agree on. Written by tools/feeds \
         from rust/plain/src/feed.rs: change it there.\n\n{}",
        groups.join("\n")
    )
}

/// The value at a fixed base of the polynomial whose coefficients are the words
/// plus 1, modulo a prime.
///
/// A word is smaller than the prime, and the base no multiple of it, so lists that
/// differ in one word never have one hash. Lists of n words that differ in more
/// have one hash at n of the prime's 2^40 bases at most, and the code under test
/// does not know the base: to be missed, a fault would have to hit it by chance.
/// The residues are small enough for a product of 64 bits, because the proved
/// program, which computes the same, has no wider one.
#[derive(Clone, Copy, Debug, Default, PartialEq, Eq)]
pub struct Hash(pub u64);

impl Hash {
    /// The largest prime below 2^40.
    pub const MODULUS: u64 = (1 << 40) - 87;
    /// The largest prime below 2^23.
    pub const BASE: u64 = (1 << 23) - 15;

    /// The hash with one word more.
    pub fn word(self, word: u32) -> Hash {
        Hash((self.0 * Self::BASE + u64::from(word) + 1) % Self::MODULUS)
    }

    /// The hash with every byte of an area.
    pub fn bytes(self, area: &[u8]) -> Hash {
        area.iter()
            .fold(self, |hash, &byte| hash.word(u32::from(byte)))
    }

    /// The hash with every slot of an area, by its two's complement.
    pub fn slots(self, area: &[i32]) -> Hash {
        area.iter().fold(self, |hash, &slot| hash.word(slot as u32))
    }
}

/// The line of a call: its name, the number and the value of its answer, the hash.
fn line(call: &Call, answer: u64, hash: Hash) -> String {
    let (number, value) = (number_of(answer), value_of(answer));
    format!("{} {number} {value} {:x}\n", call.name(), hash.0)
}

/// Makes a call and gives its line.
pub fn answer_line(call: &Call) -> String {
    match call {
        Call::Pack { writer, out } => {
            let mut out = vec![BYTE_BEFORE; *out];
            let (slots, samples) = (&writer.settings, &writer.samples);
            let answer = pack(slots, &writer.tables, samples, writer.scratch, &mut out);
            line(call, answer, Hash::default().bytes(&out))
        }
        Call::Length { writer } => {
            let (slots, samples) = (&writer.settings, &writer.samples);
            let answer = length(slots, &writer.tables, samples, writer.scratch);
            line(call, answer, Hash::default())
        }
        Call::Open {
            file,
            scratch,
            tables,
            image,
            settings,
        } => {
            let mut tables = vec![SLOT_BEFORE; *tables];
            let mut image = vec![SLOT_BEFORE; *image];
            let mut slots = vec![SLOT_BEFORE; *settings];
            let answer = open(file, *scratch, &mut tables, &mut image, &mut slots);
            let hash = Hash::default().slots(&tables).slots(&image).slots(&slots);
            line(call, answer, hash)
        }
        Call::Look { file, settings } => {
            let mut slots = vec![SLOT_BEFORE; *settings];
            let answer = look(file, &mut slots);
            line(call, answer, Hash::default().slots(&slots))
        }
    }
}

/// A slot area as a call is lent it: how many slots, and what the first of them hold.
type Lent<'a> = (Area, usize, &'a [i32]);

/// The slot areas that a call is lent. The program prepares those that it may write.
fn slot_areas(call: &Call) -> Vec<Lent<'_>> {
    fn given(area: Area, slots: &[i32]) -> Lent<'_> {
        (area, slots.len(), slots)
    }
    match call {
        Call::Pack { writer, .. } | Call::Length { writer } => vec![
            given(SETTINGS, &writer.settings),
            given(TABLES, &writer.tables),
            given(IMAGE, &writer.samples),
            (SCRATCH, writer.scratch, &[]),
        ],
        Call::Open {
            scratch,
            tables,
            image,
            settings,
            ..
        } => vec![
            (SETTINGS, *settings, &[]),
            (TABLES, *tables, &[]),
            (IMAGE, *image, &[]),
            (SCRATCH, *scratch, &[]),
        ],
        Call::Look { settings, .. } => vec![(SETTINGS, *settings, &[])],
    }
}

/// Bytes that the program has to have room for.
fn bytes_lent(call: &Call) -> usize {
    match call {
        Call::Pack { out, .. } => *out,
        _ => call.file().map_or(0, |file| file.len() + PADDING),
    }
}

/// Whether a call fits the arrays of the proved program.
pub fn fits(call: &Call) -> bool {
    let areas = slot_areas(call);
    areas.iter().all(|(area, lent, _)| *lent <= area.most) && bytes_lent(call) <= MOST_BYTES
}

/// A call that opens the file that a successful pack writes, with areas of exactly
/// the right lengths.
pub fn reopening(call: &Call) -> Option<Call> {
    let Call::Pack { writer, out } = call else {
        return None;
    };
    let (slots, tables, samples) = (&writer.settings, &writer.tables, &writer.samples);
    let mut file = vec![BYTE_BEFORE; *out];
    let answer = pack(slots, tables, samples, writer.scratch, &mut file);
    if number_of(answer) != 0 {
        return None;
    }
    file.truncate(value_of(answer) as usize);
    let shape = Settings::from_slots(slots).ok()?.shape();
    Some(Call::Open {
        file,
        scratch: SCRATCH_STRIDE * shape.bands,
        tables: TABLE_STRIDE * shape.bands,
        image: shape.sample_count(),
        settings: SETTING_SLOTS,
    })
}

/// Which changes of a file follow it.
#[derive(Clone, Copy, Debug, Default, PartialEq, Eq)]
pub struct Changes {
    /// Files up to this length have each bit flipped.
    pub flips: usize,
    /// Files up to this length are cut at each length.
    pub cuts: usize,
    /// Whether files are lengthened by 1 to 9 bytes, all zero or the last one not.
    pub extensions: bool,
}

/// A change of a file: one byte, then the length.
#[derive(Clone, Copy, Debug, PartialEq, Eq)]
pub struct Change {
    pub place: usize,
    pub byte: u8,
    pub length: usize,
}

impl Change {
    /// The change that leaves a call as it is; the length is that of its file or output.
    pub fn none(call: &Call) -> Change {
        let file = call.file().unwrap_or_default();
        let length = match call {
            Call::Pack { out, .. } => *out,
            _ => file.len(),
        };
        Change {
            place: 0,
            byte: file.first().copied().unwrap_or(0),
            length,
        }
    }

    /// The changed file; what lies behind the old end is zero.
    pub fn apply(&self, file: &[u8]) -> Vec<u8> {
        let mut changed = file.to_vec();
        changed.resize(file.len() + PADDING, 0);
        changed[self.place] = self.byte;
        changed.truncate(self.length);
        changed
    }
}

impl Changes {
    /// The changes of one file, in order.
    pub fn of(&self, file: &[u8]) -> Vec<Change> {
        let mut changes = Vec::new();
        let length = file.len();
        if length <= self.flips {
            for (place, bit) in (0..8 * length).map(|index| (index / 8, index % 8)) {
                changes.push(Change {
                    place,
                    byte: file[place] ^ 0x80 >> bit,
                    length,
                });
            }
        }
        // The first byte, or the first behind an empty file, stays as it is.
        let (place, byte) = (0, file.first().copied().unwrap_or(0));
        if length <= self.cuts {
            changes.extend((0..length).map(|length| Change {
                place,
                byte,
                length,
            }));
        }
        if self.extensions {
            for length in length + 1..=length + PADDING {
                changes.push(Change {
                    place,
                    byte,
                    length,
                });
                changes.push(Change {
                    place: length - 1,
                    byte: 1,
                    length,
                });
            }
        }
        changes
    }
}

/// How many calls of each kind a feed has, and how many did not fit.
#[derive(Clone, Copy, Debug, Default, PartialEq, Eq)]
pub struct Counts {
    /// By the calls' kinds.
    pub calls: [usize; 4],
    pub changed: usize,
    pub left_out: usize,
}

/// An input for the proved program and the output that it asks for.
#[derive(Clone, Debug, Default, PartialEq, Eq)]
pub struct Feed {
    input: Vec<u8>,
    output: String,
    counts: Counts,
}

impl Feed {
    /// Adds a call, if it fits.
    pub fn add(&mut self, call: &Call) -> bool {
        if !fits(call) {
            self.counts.left_out += 1;
            return false;
        }
        for (area, lent, given) in slot_areas(call) {
            self.put_record([area.kind, lent, given.len(), 0]);
            for &slot in given {
                self.put_word(slot as u32);
            }
        }
        if let Some(file) = call.file() {
            self.put_record([BYTES, 0, file.len() + PADDING, 0]);
            self.input.extend(file);
            self.input.extend([0; PADDING]);
        }
        self.counts.calls[call.kind()] += 1;
        self.put_call(call, Change::none(call));
        self.output.push_str(&answer_line(call));
        true
    }

    /// Adds a call, if it fits, and if it reads a file the changes of this, as long as
    /// the input has at most `most` bytes.
    pub fn add_changed(&mut self, call: &Call, changes: &Changes, most: usize) -> bool {
        if !self.add(call) {
            return false;
        }
        let Some(file) = call.file() else {
            return true;
        };
        for change in changes.of(file) {
            if self.input.len() + 2 * RECORD_BYTES > most {
                self.counts.left_out += 1;
                continue;
            }
            self.counts.changed += 1;
            self.put_call(call, change);
            let changed = call.with_file(change.apply(file));
            self.output.push_str(&answer_line(&changed));
        }
        true
    }

    /// The input, ended by a record of zeros, and the output.
    pub fn finish(mut self) -> (Vec<u8>, String) {
        self.put_record([0; 4]);
        (self.input, self.output)
    }

    /// A line that says how many calls there are.
    pub fn summary(&self) -> String {
        let Counts {
            calls: [pack, length, open, look],
            changed,
            left_out,
        } = self.counts;
        format!("{pack} pack, {length} length, {open} open, {look} look, {changed} changed, {left_out} left out")
    }

    /// How many calls of each kind there are.
    pub fn counts(&self) -> Counts {
        self.counts
    }

    fn put_word(&mut self, word: u32) {
        self.input.extend(word.to_be_bytes());
    }

    fn put_record(&mut self, words: [usize; 4]) {
        for word in words {
            self.put_word(word as u32);
        }
    }

    /// The record of a call, whose file is changed.
    fn put_call(&mut self, call: &Call, change: Change) {
        let Change {
            place,
            byte,
            length,
        } = change;
        self.put_record([FIRST_CALL + call.kind(), place, usize::from(byte), length]);
    }
}
