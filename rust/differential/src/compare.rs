//! One call answered twice, and all that it left behind compared.

use plain::boundary::{self as reference, Call, Writer};
use plain::make::Random;
use remulingka::boundary;

/// Elements in front of and behind a lent area, which no call may touch.
const MOST_GUARDS: usize = 9;

/// A lent area within a larger piece of memory, all of it full of random values.
/// How much stands in front differs, and with it the area's alignment.
struct Area<T> {
    memory: Vec<T>,
    start: usize,
    length: usize,
}

impl<T: Copy + PartialEq> Area<T> {
    fn new(random: &mut Random, length: usize, value: impl Fn(u64) -> T) -> Area<T> {
        let start = 1 + random.below(MOST_GUARDS);
        let behind = 1 + random.below(MOST_GUARDS);
        let memory = (0..start + length + behind)
            .map(|_| value(random.bits()))
            .collect();
        Area {
            memory,
            start,
            length,
        }
    }

    fn lent(&mut self) -> &mut [T] {
        &mut self.memory[self.start..self.start + self.length]
    }

    /// The area for the reference, as it was before the call.
    fn copy(&self) -> Area<T> {
        Area {
            memory: self.memory.clone(),
            start: self.start,
            length: self.length,
        }
    }

    /// Says where this area, or the memory around it, is not as the other.
    fn difference(&self, name: &str, expected: &Area<T>) -> Option<String> {
        let index = first_difference(&self.memory, &expected.memory)?;
        Some(match index.checked_sub(self.start) {
            Some(inside) if inside < self.length => format!("{name} differs from {inside} on"),
            _ => format!("{name}: memory outside the area was written"),
        })
    }

    /// Says whether the memory around this area changed; within it all is allowed.
    fn overrun(&self, name: &str, before: &Area<T>) -> Option<String> {
        let end = self.start + self.length;
        let is_kept = self.memory[..self.start] == before.memory[..self.start]
            && self.memory[end..] == before.memory[end..];
        (!is_kept).then(|| format!("{name}: memory outside the area was written"))
    }
}

fn first_difference<T: PartialEq>(left: &[T], right: &[T]) -> Option<usize> {
    left.iter()
        .zip(right)
        .position(|(left, right)| left != right)
}

fn slots(random: &mut Random, length: usize) -> Area<i32> {
    Area::new(random, length, |bits| bits as i32)
}

/// What came of a call: the plain program's answer, and what differs from it.
pub struct Outcome {
    pub expected: u64,
    pub differences: Vec<String>,
}

impl Outcome {
    fn new(answer: u64, expected: u64) -> Outcome {
        let differences = match answer == expected {
            true => Vec::new(),
            false => vec![format!(
                "the archive answers {}, the plain program {}",
                in_words(answer),
                in_words(expected)
            )],
        };
        Outcome {
            expected,
            differences,
        }
    }

    fn add(mut self, differences: impl IntoIterator<Item = Option<String>>) -> Outcome {
        self.differences.extend(differences.into_iter().flatten());
        self
    }
}

fn in_words(answer: u64) -> String {
    let answer = boundary::Answer(answer);
    match answer.number() {
        0 => format!("{}", answer.value()),
        number => format!("refusal {number} with {}", answer.value()),
    }
}

/// Makes the call both ways.
pub fn compare(call: &Call, random: &mut Random) -> Outcome {
    match call {
        Call::Pack { writer, out } => compare_pack(writer, *out, random),
        Call::Length { writer } => compare_length(writer, random),
        Call::Open {
            file,
            scratch,
            tables,
            image,
            settings,
        } => compare_open(file, [*scratch, *tables, *image, *settings], random),
        Call::Look { file, settings } => compare_look(file, *settings, random),
    }
}

fn compare_pack(writer: &Writer, out: usize, random: &mut Random) -> Outcome {
    let mut scratch = slots(random, writer.scratch);
    let mut out = Area::new(random, out, |bits| bits as u8);
    let (scratch_before, mut expected_out) = (scratch.copy(), out.copy());
    let given = writer.clone();
    let answer = boundary::pack(
        &given.settings,
        &given.tables,
        &given.samples,
        scratch.lent(),
        out.lent(),
    );
    let expected = reference::pack(
        &writer.settings,
        &writer.tables,
        &writer.samples,
        writer.scratch,
        expected_out.lent(),
    );
    Outcome::new(answer.0, expected).add([
        out.difference("the output", &expected_out),
        scratch.overrun("scratch", &scratch_before),
        (given != *writer).then(|| "an input was written".to_string()),
    ])
}

fn compare_length(writer: &Writer, random: &mut Random) -> Outcome {
    let mut scratch = slots(random, writer.scratch);
    let scratch_before = scratch.copy();
    let given = writer.clone();
    let answer = boundary::length(
        &given.settings,
        &given.tables,
        &given.samples,
        scratch.lent(),
    );
    let expected = reference::length(
        &writer.settings,
        &writer.tables,
        &writer.samples,
        writer.scratch,
    );
    Outcome::new(answer.0, expected).add([
        scratch.overrun("scratch", &scratch_before),
        (given != *writer).then(|| "an input was written".to_string()),
    ])
}

/// The lengths are of scratch, tables, image and settings.
fn compare_open(file: &[u8], lengths: [usize; 4], random: &mut Random) -> Outcome {
    let [mut scratch, mut tables, mut image, mut settings] =
        lengths.map(|length| slots(random, length));
    let scratch_before = scratch.copy();
    let [mut expected_tables, mut expected_image, mut expected_settings] =
        [&tables, &image, &settings].map(Area::copy);
    let given = file.to_vec();
    let answer = boundary::open(
        &given,
        scratch.lent(),
        tables.lent(),
        image.lent(),
        settings.lent(),
    );
    let expected = reference::open(
        file,
        lengths[0],
        expected_tables.lent(),
        expected_image.lent(),
        expected_settings.lent(),
    );
    Outcome::new(answer.0, expected).add([
        tables.difference("the table area", &expected_tables),
        image.difference("the image area", &expected_image),
        settings.difference("the settings", &expected_settings),
        scratch.overrun("scratch", &scratch_before),
        (given != file).then(|| "the file was written".to_string()),
    ])
}

fn compare_look(file: &[u8], length: usize, random: &mut Random) -> Outcome {
    let mut settings = slots(random, length);
    let mut expected_settings = settings.copy();
    let given = file.to_vec();
    let answer = boundary::look(&given, settings.lent());
    let expected = reference::look(file, expected_settings.lent());
    Outcome::new(answer.0, expected).add([
        settings.difference("the settings", &expected_settings),
        (given != file).then(|| "the file was written".to_string()),
    ])
}
