//! Many calls, and what came of them.

use std::process::ExitCode;
use std::time::Instant;

use plain::boundary::{number_of, KINDS, NUMBERS};
use plain::make::Random;

use crate::compare::compare;
use crate::inputs::random_call;

/// Calls made where nothing else is said.
const USUAL_CALLS: u64 = if cfg!(debug_assertions) {
    3_000
} else {
    200_000
};
/// From this many calls on, every refusal of every call must have come up.
const ENOUGH_FOR_ALL: u64 = 50_000;
/// Differences after which a run stops: the first few tell enough.
const MOST_DIFFERENCES: u64 = 5;

/// How many calls, and which.
#[derive(Clone, Copy, Debug)]
pub struct Options {
    pub seed: u64,
    pub calls: u64,
    /// Make only the call of this index, and describe it.
    pub only: Option<u64>,
}

impl Options {
    /// The options of `REMULINGKA_CALLS` and `REMULINGKA_SEED`.
    pub fn from_environment() -> Result<Options, String> {
        Ok(Options {
            seed: variable("REMULINGKA_SEED")?.unwrap_or(1),
            calls: variable("REMULINGKA_CALLS")?.unwrap_or(USUAL_CALLS),
            only: None,
        })
    }
}

fn variable(name: &str) -> Result<Option<u64>, String> {
    match std::env::var(name) {
        Ok(text) => match text.parse() {
            Ok(number) => Ok(Some(number)),
            Err(_) => Err(format!("{name}: {text} is no number")),
        },
        Err(_) => Ok(None),
    }
}

/// What came of the calls.
#[derive(Default)]
pub struct Report {
    pub calls: u64,
    pub differences: u64,
    /// How often each call was answered with each number, by the plain program.
    answers: [[u64; 13]; 4],
    seconds: f64,
    first_difference: Option<(u64, f64)>,
}

/// The generator of the call of `index`: calls do not depend on those before.
fn generator(seed: u64, index: u64) -> Random {
    let start = seed ^ index.wrapping_mul(0xD134_2543_DE82_EF95);
    Random::new(Random::new(start).bits())
}

/// Makes the calls; differences are printed as they are found.
pub fn run(options: &Options) -> Report {
    let started = Instant::now();
    let mut report = Report::default();
    let indices = match options.only {
        Some(index) => index..index + 1,
        None => 0..options.calls,
    };
    for index in indices {
        let mut random = generator(options.seed, index);
        let call = random_call(&mut random);
        let outcome = compare(&call, &mut random);
        report.calls += 1;
        report.answers[call.kind()][number_of(outcome.expected) as usize] += 1;
        if !outcome.differences.is_empty() {
            let seconds = started.elapsed().as_secs_f64();
            report
                .first_difference
                .get_or_insert((report.calls, seconds));
            report.differences += 1;
            let seed = options.seed;
            println!(
                "call {index} of seed {seed}: {}",
                outcome.differences.join("; ")
            );
        }
        if options.only.is_some() || report.differences == 1 && !outcome.differences.is_empty() {
            println!("{}", call.describe());
        }
        if report.differences == MOST_DIFFERENCES {
            println!("stopped after {MOST_DIFFERENCES} differences");
            break;
        }
    }
    report.seconds = started.elapsed().as_secs_f64();
    report
}

/// Makes the calls, prints what came of them, and gives the status of the program.
pub fn run_and_tell(options: Result<Options, String>) -> ExitCode {
    let options = match options {
        Ok(options) => options,
        Err(message) => {
            eprintln!("{message}");
            return ExitCode::from(2);
        }
    };
    let report = run(&options);
    for missing in report.missing() {
        println!("{missing}");
    }
    print!("{}", report.text());
    ExitCode::from(u8::from(!report.is_good()))
}

impl Report {
    /// The table of answers and the summary line.
    pub fn text(&self) -> String {
        let mut text = String::from("answers    ok");
        for number in 1..=12 {
            text.push_str(&format!("{number:>7}"));
        }
        text.push('\n');
        for (name, row) in KINDS.iter().zip(&self.answers) {
            text.push_str(&format!("{name:<6}"));
            for count in row {
                text.push_str(&format!("{count:>7}"));
            }
            text.push('\n');
        }
        if let Some((calls, seconds)) = self.first_difference {
            text.push_str(&format!(
                "first difference after {calls} calls, {seconds:.3} s\n"
            ));
        }
        text.push_str(&format!("{:.1} s\n", self.seconds));
        text.push_str(&format!(
            "{} calls, {} differences\n",
            self.calls, self.differences
        ));
        text
    }

    /// The answers that should have come up in a run of this length and did not:
    /// then the run did not test what it is there to test.
    pub fn missing(&self) -> Vec<String> {
        if self.calls < ENOUGH_FOR_ALL || self.differences > 0 {
            return Vec::new();
        }
        let mut missing = Vec::new();
        for (kind, numbers) in NUMBERS.iter().enumerate() {
            for &number in *numbers {
                if self.answers[kind][usize::from(number)] == 0 {
                    missing.push(format!("{} never answered {number}", KINDS[kind]));
                }
            }
        }
        missing
    }

    /// Whether all calls agreed, there were some, and all answers came up.
    pub fn is_good(&self) -> bool {
        self.calls > 0 && self.differences == 0 && self.missing().is_empty()
    }
}
