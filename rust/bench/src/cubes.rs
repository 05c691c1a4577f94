//! The images that are packed and opened.

use plain::make::Random;
use remulingka::{Order, Settings};

const COLUMNS: usize = 32;
const ROWS: usize = 32;
const BANDS: usize = 64;

/// An image with its settings.
pub struct Cube {
    pub order: &'static str,
    pub kind: &'static str,
    pub settings: Settings,
    pub samples: Vec<i32>,
}

/// Every order, P, D and kind of image.
pub fn cubes() -> Vec<Cube> {
    let orders = [
        ("band", Order::BandSequential),
        ("line", Order::Interleaved { depth: 1 }),
        (
            "pixel",
            Order::Interleaved {
                depth: BANDS as i32,
            },
        ),
    ];
    let mut cubes = Vec::new();
    for (name, order) in orders {
        for prediction_bands in [0, 3, 15] {
            for depth in [8, 12, 16] {
                let settings =
                    Settings::for_image(COLUMNS as i32, ROWS as i32, BANDS as i32, false, depth)
                        .order(order)
                        .prediction_bands(prediction_bands);
                for (kind, samples) in [("smooth", smooth(depth)), ("random", noise(depth))] {
                    cubes.push(Cube {
                        order: name,
                        kind,
                        settings,
                        samples,
                    });
                }
            }
        }
    }
    cubes
}

/// A spectrum times a slow field, with noise of a two-hundredth of the range.
fn smooth(depth: i32) -> Vec<i32> {
    let mut random = Random::new(1);
    let greatest = (1 << depth) - 1;
    let noise = greatest / 200;
    let mut samples = Vec::with_capacity(COLUMNS * ROWS * BANDS);
    for z in 0..BANDS {
        for y in 0..ROWS {
            for x in 0..COLUMNS {
                let spectrum = 0.5 + 0.4 * (z as f64 / 9.0).sin();
                let field = 0.7 + 0.3 * (x as f64 / 11.0).sin() * (y as f64 / 13.0).cos();
                let value = (f64::from(greatest) * spectrum * field) as i32;
                let sample = value + random.between(-noise, noise);
                samples.push(sample.clamp(0, greatest));
            }
        }
    }
    samples
}

fn noise(depth: i32) -> Vec<i32> {
    let mut random = Random::new(2);
    (0..COLUMNS * ROWS * BANDS)
        .map(|_| random.between(0, (1 << depth) - 1))
        .collect()
}
