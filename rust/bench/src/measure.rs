//! One image packed and opened by both programs, turn by turn.

use std::time::Instant;

use plain::make::Random;
use remulingka::{boundary, SCRATCH_SLOTS, SETTING_SLOTS, TABLE_SLOTS};

use crate::cubes::Cube;

/// Turns below which a figure is chance.
const FEWEST_TURNS: usize = 3;

/// What came of one call on one image.
pub struct Row {
    pub call: &'static str,
    pub order: &'static str,
    pub kind: &'static str,
    pub prediction_bands: i32,
    pub depth: i32,
    /// Millions of samples a second, in the best turn of each.
    pub ours: f64,
    pub plain: f64,
    /// How much faster ours is, in the middle one of all turns.
    pub ratio: f64,
}

/// The seconds of the best turn of each, and the middle ratio of all turns.
struct Times {
    ours: f64,
    plain: f64,
    ratio: f64,
}

impl Row {
    fn new(call: &'static str, cube: &Cube, times: Times) -> Row {
        let millions = cube.samples.len() as f64 / 1e6;
        Row {
            call,
            order: cube.order,
            kind: cube.kind,
            prediction_bands: cube.settings.prediction_bands,
            depth: cube.settings.depth,
            ours: millions / times.ours,
            plain: millions / times.plain,
            ratio: times.ratio,
        }
    }
}

/// Lets two pieces of work take turns for `share` seconds. The two halves of a turn
/// lie side by side in time, so that a slow spell of the machine takes both; the
/// middle of their ratios then holds where the best times of each do not. Which goes
/// first is chance, lest another program on the machine fall into step with one.
fn take_turns(
    share: f64,
    mut ours: impl FnMut() -> Result<f64, String>,
    mut plain: impl FnMut() -> Result<f64, String>,
) -> Result<Times, String> {
    let started = Instant::now();
    let mut best = [f64::INFINITY; 2];
    let mut ratios = Vec::new();
    let mut random = Random::new(3);
    while ratios.len() < FEWEST_TURNS || started.elapsed().as_secs_f64() < share {
        let plain_is_first = random.one_in(2);
        let mut turn = [0.0; 2];
        for is_plain in [plain_is_first, !plain_is_first] {
            turn[usize::from(is_plain)] = if is_plain { plain()? } else { ours()? };
        }
        best = [best[0].min(turn[0]), best[1].min(turn[1])];
        ratios.push(turn[1] / turn[0]);
    }
    ratios.sort_unstable_by(f64::total_cmp);
    Ok(Times {
        ours: best[0],
        plain: best[1],
        ratio: ratios[ratios.len() / 2],
    })
}

/// The time that `work` takes, if its answer is the one expected.
fn timed(expected: u64, work: impl FnOnce() -> u64) -> Result<f64, String> {
    let started = Instant::now();
    let answer = work();
    let seconds = started.elapsed().as_secs_f64();
    match answer == expected {
        true => Ok(seconds),
        false => Err(format!("the answer is {answer:#x}, not {expected:#x}")),
    }
}

/// Measures packing and opening. Both must give the same file and image.
pub fn measure(cube: &Cube, share: f64) -> Result<[Row; 2], String> {
    let file = remulingka::pack(&cube.settings, None, &cube.samples)
        .map_err(|refusal| refusal.to_string())?;
    let packed = measure_pack(cube, &file, share)?;
    let opened = measure_open(cube, &file, share)?;
    Ok([
        Row::new("pack", cube, packed),
        Row::new("open", cube, opened),
    ])
}

fn measure_pack(cube: &Cube, file: &[u8], share: f64) -> Result<Times, String> {
    let slots = cube.settings.to_slots();
    let settings = plain::Settings::from_slots(&slots).map_err(|_| "too few settings")?;
    let bands = cube.settings.bands as usize;
    let tables = vec![0; TABLE_SLOTS * bands];
    let mut scratch = vec![0; SCRATCH_SLOTS * bands];
    let mut out = vec![0; file.len()];
    let mut plain_out = vec![0; file.len()];
    let length = file.len() as u64;
    let times = take_turns(
        share,
        || {
            // Cleared before each, outside the time: the same start for both.
            scratch.fill(0);
            out.fill(0);
            timed(length, || {
                boundary::pack(&slots, &tables, &cube.samples, &mut scratch, &mut out).0
            })
        },
        || {
            plain_out.fill(0);
            timed(length, || {
                let scratch = SCRATCH_SLOTS * bands;
                plain::pack(&settings, &tables, &cube.samples, scratch, &mut plain_out)
                    .unwrap_or(u64::MAX)
            })
        },
    )?;
    match out == file && plain_out == file {
        true => Ok(times),
        false => Err("the two programs packed different files".to_string()),
    }
}

fn measure_open(cube: &Cube, file: &[u8], share: f64) -> Result<Times, String> {
    let bands = cube.settings.bands as usize;
    let mut settings = [0; SETTING_SLOTS];
    let mut scratch = vec![0; SCRATCH_SLOTS * bands];
    let mut tables = vec![0; TABLE_SLOTS * bands];
    let mut plain_tables = tables.clone();
    let mut image = vec![0; cube.samples.len()];
    let mut plain_image = image.clone();
    let count = cube.samples.len() as u64;
    let times = take_turns(
        share,
        || {
            scratch.fill(0);
            tables.fill(0);
            image.fill(0);
            timed(count, || {
                boundary::open(file, &mut scratch, &mut tables, &mut image, &mut settings).0
            })
        },
        || {
            plain_tables.fill(0);
            plain_image.fill(0);
            timed(count, || {
                let scratch = SCRATCH_SLOTS * bands;
                plain::open(file, scratch, &mut plain_tables, &mut plain_image)
                    .map_or(u64::MAX, |settings| settings.sample_count())
            })
        },
    )?;
    match image == cube.samples && plain_image == cube.samples {
        true => Ok(times),
        false => Err("an image came back otherwise than it was packed".to_string()),
    }
}
