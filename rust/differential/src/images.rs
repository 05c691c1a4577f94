//! Images of many kinds, all legal.

use plain::make::Random;
use plain::settings::SampleRange;
use plain::Settings;

/// A legal image of one of several kinds.
pub fn random_image(random: &mut Random, settings: &Settings) -> Vec<i32> {
    let range = settings.sample_range();
    match random.below(8) {
        0 => constant(random, settings),
        1 => ramps(random, settings),
        2 | 3 => smooth(random, settings),
        4 => extremes(random, settings),
        5 => outliers(random, settings),
        6 => steps(random, settings),
        _ => places(settings, |_, _, _| {
            random.between(range.minimum, range.maximum)
        }),
    }
}

/// An image by a function of z, y and x.
fn places(settings: &Settings, mut sample: impl FnMut(i64, i64, i64) -> i32) -> Vec<i32> {
    let shape = settings.shape();
    let mut samples = Vec::with_capacity(shape.sample_count());
    for z in 0..shape.bands as i64 {
        for y in 0..shape.rows as i64 {
            for x in 0..shape.columns as i64 {
                samples.push(sample(z, y, x));
            }
        }
    }
    samples
}

fn held(range: SampleRange, value: i64) -> i32 {
    value.clamp(i64::from(range.minimum), i64::from(range.maximum)) as i32
}

fn constant(random: &mut Random, settings: &Settings) -> Vec<i32> {
    let range = settings.sample_range();
    let level = random.edged(range.minimum, range.maximum);
    places(settings, |_, _, _| level)
}

/// Rising or falling along every axis, and from the top to the bottom again.
fn ramps(random: &mut Random, settings: &Settings) -> Vec<i32> {
    let range = settings.sample_range();
    let count = i64::from(range.maximum) - i64::from(range.minimum) + 1;
    let most = (count / 8).max(1) as i32;
    let slopes: [i64; 3] = std::array::from_fn(|_| i64::from(random.edged(-most, most)));
    let start = i64::from(random.between(range.minimum, range.maximum));
    places(settings, |z, y, x| {
        let value = start + slopes[0] * z + slopes[1] * y + slopes[2] * x;
        let from_minimum = (value - i64::from(range.minimum)).rem_euclid(count);
        range.minimum + from_minimum as i32
    })
}

/// What an imager gives: a spectrum times a slow field, with a little noise.
fn smooth(random: &mut Random, settings: &Settings) -> Vec<i32> {
    let range = settings.sample_range();
    let count = i64::from(range.maximum) - i64::from(range.minimum);
    let noise = random.pick(&[0, 1, 2, 8, 60]);
    let [bend, across, along] = std::array::from_fn(|_| i64::from(random.between(-9, 9)));
    places(settings, |z, y, x| {
        let spectrum = 500 + bend * (z % 40 - 20) + (z * z) % 97;
        let field = 500 + across * (x % 50) + along * (y % 50);
        let value = i64::from(range.minimum) + count * spectrum / 1000 * field / 1000;
        held(range, value + i64::from(random.between(-noise, noise)))
    })
}

/// The two ends alone: the largest differences, clipped weights, a full register.
fn extremes(random: &mut Random, settings: &Settings) -> Vec<i32> {
    let range = settings.sample_range();
    let ends = [range.minimum, range.maximum];
    let kind = random.below(4);
    let period = 1 + random.below(5) as i64;
    places(settings, |z, y, x| match kind {
        0 => ends[((x + y + z) / period % 2) as usize],
        1 => ends[(x / period % 2) as usize],
        2 => ends[(z / period % 2) as usize],
        _ => random.pick(&ends),
    })
}

/// One level with rare far values: escapes, and k that must come down again.
fn outliers(random: &mut Random, settings: &Settings) -> Vec<i32> {
    let range = settings.sample_range();
    let level = random.between(range.minimum, range.maximum);
    let rarity = random.pick(&[3, 10, 50]);
    places(settings, |_, _, _| match random.one_in(rarity) {
        true => random.edged(range.minimum, range.maximum),
        false => level,
    })
}

/// Two levels parted by an edge.
fn steps(random: &mut Random, settings: &Settings) -> Vec<i32> {
    let range = settings.sample_range();
    let [low, high] = std::array::from_fn(|_| random.between(range.minimum, range.maximum));
    let edge = random.below(12) as i64;
    let lean = random.below(3) as i64;
    places(settings, |z, y, x| match x + lean * y + z < edge {
        true => low,
        false => high,
    })
}
