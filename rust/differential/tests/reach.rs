//! What a published file can tell of a band that was blanked before: two cubes that
//! differ above band z, or below row y, have equal mapped values in front of it, by the
//! independent program, and files with the same beginning, by the archive.

use plain::bits::{BitCounter, BitSink};
use plain::coder::Coder;
use plain::cube::visit_mapped;
use plain::header::write_header;
use plain::make::{random_inputs, random_samples, Random};
use plain::predictor::Place;
use plain::settings::{SCRATCH_STRIDE, TABLE_STRIDE};
use plain::Settings;
use remulingka::boundary;

/// A cube's mapped values by place, and how many bits of its file lie before each
/// codeword, in coding order.
struct Listed {
    places: Vec<Place>,
    mapped: Vec<u32>,
    ends: Vec<u64>,
}

fn listed(settings: &Settings, tables: &[i32], samples: &[i32]) -> Listed {
    let mut counter = BitCounter::default();
    write_header(settings, tables, &mut counter);
    let mut coder = Coder::new(settings, tables);
    let mut list = Listed {
        places: Vec::new(),
        mapped: Vec::new(),
        ends: Vec::new(),
    };
    visit_mapped(settings, tables, samples, |place, value| {
        coder.write(place.z, place.y == 0 && place.x == 0, value, &mut counter);
        let statistics = coder.statistics(place.z);
        let most = statistics.count << settings.dynamic_range;
        assert!(statistics.accumulator <= most);
        list.places.push(place);
        list.mapped.push(value);
        list.ends.push(counter.position());
    });
    list
}

fn packed(settings: &Settings, tables: &[i32], samples: &[i32]) -> Vec<u8> {
    let slots = settings.to_slots();
    let mut scratch = vec![0; SCRATCH_STRIDE * settings.shape().bands];
    let mut out = vec![0; 64 + 50 * settings.shape().bands + 6 * samples.len()];
    let answer = boundary::pack(&slots, tables, samples, &mut scratch, &mut out);
    assert_eq!(answer.number(), 0);
    out.truncate(answer.value() as usize);
    out
}

/// Whether two files agree in their first `bits` bits.
fn begin_alike(one: &[u8], other: &[u8], bits: u64) -> bool {
    let whole = (bits / 8) as usize;
    let left = (bits % 8) as u32;
    one[..whole] == other[..whole] && (left == 0 || (one[whole] ^ other[whole]) >> (8 - left) == 0)
}

/// The samples with those of another image wherever `taken` says so.
fn blanked(
    settings: &Settings,
    samples: &[i32],
    other: &[i32],
    taken: impl Fn(usize, usize) -> bool,
) -> Vec<i32> {
    let shape = settings.shape();
    let area = shape.columns * shape.rows;
    (0..samples.len())
        .map(|i| match taken(i / area, i % area / shape.columns) {
            true => other[i],
            false => samples[i],
        })
        .collect()
}

/// Checks one pair of cubes that agree at the places `kept`; says whether any mapped
/// value differed elsewhere, and by how many bits of the files the pair agrees.
fn compare(
    settings: &Settings,
    tables: &[i32],
    pair: [&[i32]; 2],
    kept: impl Fn(Place) -> bool,
) -> (bool, bool) {
    let [one, other] = pair.map(|samples| listed(settings, tables, samples));
    let mut differs = false;
    for (i, &place) in one.places.iter().enumerate() {
        let same = one.mapped[i] == other.mapped[i];
        assert!(same || !kept(place), "{place:?} of {settings:?}");
        differs |= !same;
    }
    // The kept places at the front of the order: their codewords are the same bits.
    let front = one.places.iter().take_while(|&&place| kept(place)).count();
    let bits = front.checked_sub(1).map(|last| one.ends[last]);
    if let Some(bits) = bits {
        let files = pair.map(|samples| packed(settings, tables, samples));
        assert!(begin_alike(&files[0], &files[1], bits), "{settings:?}");
    }
    (differs, front > 0)
}

#[test]
fn mapped_values_reach_no_band_above_and_no_row_below() {
    let mut random = Random::new(213);
    let (mut above, mut below, mut fronts) = (0, 0, 0);
    for _ in 0..1500 {
        let inputs = random_inputs(&mut random);
        let settings = inputs.settings;
        let shape = settings.shape();
        let other = random_samples(&mut random, &settings);
        let (z, y) = (random.below(shape.bands), random.below(shape.rows));
        let tables = &inputs.tables;

        let bands = blanked(&settings, &inputs.samples, &other, |b, _| b > z);
        let (differs, front) = compare(&settings, tables, [&inputs.samples, &bands], |p| p.z <= z);
        above += u32::from(differs);
        fronts += u32::from(front);

        let rows = blanked(&settings, &inputs.samples, &other, |_, r| r > y);
        let (differs, front) = compare(&settings, tables, [&inputs.samples, &rows], |p| p.y <= y);
        below += u32::from(differs);
        fronts += u32::from(front);
    }
    // The pairs are no copies of each other: what was changed shows where it may.
    assert!(
        above > 300 && below > 300 && fronts > 2000,
        "{above} {below} {fronts}"
    );
}

/// The example of the guide: 4 × 3 samples in five bands, bands 3 and 4 blanked.
#[test]
fn the_example_of_the_guide() {
    let mut random = Random::new(5);
    let mut settings = random_inputs(&mut random).settings;
    (settings.x_size, settings.y_size, settings.z_size) = (4, 3, 5);
    (settings.signed_samples, settings.dynamic_range) = (0, 12);
    (settings.band_sequential, settings.interleaving_depth) = (1, 0);
    (settings.register_size, settings.weight_resolution) = (64, 13);
    (settings.custom_weights, settings.accumulator_table) = (0, 0);
    (settings.accumulator_constant, settings.prediction_bands) = (3, 3);
    (settings.reduced_mode, settings.column_sums) = (0, 0);
    let tables = vec![0; TABLE_STRIDE * 5];
    let taken: Vec<i32> = (0..60).map(|i| 1000 + 37 * (i % 11) + i).collect();
    let published = blanked(&settings, &taken, &[0; 60], |b, _| b >= 3);
    let [full, blank] = [&taken, &published].map(|samples| listed(&settings, &tables, samples));
    assert_eq!(full.mapped[..36], blank.mapped[..36]);
    assert_ne!(full.mapped[36..], blank.mapped[36..]);
    let files = [&taken, &published].map(|samples| packed(&settings, &tables, samples));
    assert!(begin_alike(&files[0], &files[1], full.ends[35]));
    assert_ne!(files[0], files[1]);
}
