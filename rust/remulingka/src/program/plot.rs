//! The spectrum of a pixel, drawn beside its picture.

use super::png::Raster;

type Colour = [u8; 3];

const WHITE: Colour = [255; 3];
const GREY: Colour = [225; 3];
const BLACK: Colour = [40; 3];
const LINE: Colour = [200, 30, 40];

/// The panel's size, and the room for numbers beside its axes.
const WIDTH: usize = 560;
const LEAST_HEIGHT: usize = 320;
const LEFT: usize = 76;
const RIGHT: usize = 22;
const TOP: usize = 22;
const BOTTOM: usize = 40;
/// Each point of a letter is so many points.
const LETTER: usize = 2;

/// The values of a pixel over the bands.
pub struct Spectrum {
    pub values: Vec<f64>,
    /// The wavelengths in nanometres; without them bands are counted from 0.
    pub lengths: Option<Vec<f64>>,
    /// The pixel's centre in the picture, and how far the mark is from it.
    pub centre: [usize; 2],
    pub mark: usize,
}

/// A picture in colour that is drawn on.
struct Canvas {
    width: usize,
    height: usize,
    bytes: Vec<u8>,
}

impl Canvas {
    fn set(&mut self, x: usize, y: usize, colour: Colour) {
        if x < self.width && y < self.height {
            self.bytes[3 * (y * self.width + x)..][..3].copy_from_slice(&colour);
        }
    }

    /// A line between two places, two points wide.
    fn line(&mut self, from: [f64; 2], to: [f64; 2], colour: Colour) {
        let steps = (to[0] - from[0])
            .abs()
            .max((to[1] - from[1]).abs())
            .ceil()
            .max(1.0);
        for step in 0..=steps as usize {
            let part = step as f64 / steps;
            let [x, y] = [0, 1].map(|axis| from[axis] + part * (to[axis] - from[axis]));
            for (dx, dy) in [(0, 0), (1, 0), (0, 1), (1, 1)] {
                self.set(x as usize + dx, y as usize + dy, colour);
            }
        }
    }

    fn box_of(&mut self, [x, y]: [usize; 2], [width, height]: [usize; 2], colour: Colour) {
        for row in y..y + height {
            for column in x..x + width {
                self.set(column, row, colour);
            }
        }
    }

    /// Writes a text whose upper left corner is at a place.
    fn text(&mut self, [x, y]: [usize; 2], text: &str) {
        for (index, letter) in text.chars().enumerate() {
            let left = x + index * 4 * LETTER;
            for (row, bits) in shape(letter).into_iter().enumerate() {
                for column in (0..3).filter(|column| bits >> (2 - column) & 1 == 1) {
                    let corner = [left + column * LETTER, y + row * LETTER];
                    self.box_of(corner, [LETTER, LETTER], BLACK);
                }
            }
        }
    }
}

/// The five rows of a letter, three bits each.
fn shape(letter: char) -> [u8; 5] {
    match letter {
        '0' => [7, 5, 5, 5, 7],
        '1' => [2, 6, 2, 2, 7],
        '2' => [7, 1, 7, 4, 7],
        '3' => [7, 1, 7, 1, 7],
        '4' => [5, 5, 7, 1, 1],
        '5' => [7, 4, 7, 1, 7],
        '6' => [7, 4, 7, 5, 7],
        '7' => [7, 1, 1, 2, 2],
        '8' => [7, 5, 7, 5, 7],
        '9' => [7, 5, 7, 1, 7],
        '-' => [0, 0, 7, 0, 0],
        '.' => [0, 0, 0, 0, 2],
        'n' => [0, 6, 5, 5, 5],
        'm' => [0, 5, 7, 7, 5],
        'b' => [4, 4, 6, 5, 6],
        'a' => [0, 3, 5, 5, 3],
        'd' => [1, 1, 3, 5, 3],
        _ => [0; 5],
    }
}

fn width_of(text: &str) -> usize {
    4 * LETTER * text.len()
}

/// A step of 1, 2 or 5 times a power of ten that parts a span about `count` times.
fn step_of(span: f64, count: f64) -> f64 {
    let power = 10_f64.powf((span / count).max(1e-9).log10().floor());
    let steps = [1.0, 2.0, 5.0, 10.0].map(|factor| factor * power);
    steps
        .into_iter()
        .find(|step| span / step <= count)
        .unwrap_or(10.0 * power)
}

/// The least and the greatest of some numbers, apart even if they are equal.
fn ends(numbers: &[f64]) -> [f64; 2] {
    let least = numbers.iter().copied().fold(f64::INFINITY, f64::min);
    let most = numbers.iter().copied().fold(f64::NEG_INFINITY, f64::max);
    match least < most {
        true => [least, most],
        false => [least - 1.0, least + 1.0],
    }
}

/// The picture with the pixel marked, and its spectrum to the right.
pub fn beside(picture: &Raster, spectrum: &Spectrum) -> Raster {
    let height = picture.height.max(LEAST_HEIGHT);
    let width = picture.width + WIDTH;
    let mut canvas = Canvas {
        width,
        height,
        bytes: WHITE.repeat(width * height),
    };
    for (index, pixel) in picture.bytes.chunks(picture.channels).enumerate() {
        let colour = [0, 1, 2].map(|channel| pixel[channel.min(picture.channels - 1)]);
        canvas.set(index % picture.width, index / picture.width, colour);
    }
    draw_mark(&mut canvas, picture, spectrum);
    let (places, unit) = match &spectrum.lengths {
        Some(lengths) => (lengths.clone(), "nm"),
        None => {
            let bands = 0..spectrum.values.len();
            (bands.map(|band| band as f64).collect(), "band")
        }
    };
    let area = Area {
        left: picture.width + LEFT,
        top: TOP,
        width: WIDTH - LEFT - RIGHT,
        height: height - TOP - BOTTOM,
        places: ends(&places),
        values: ends(&spectrum.values),
    };
    draw_axes(&mut canvas, &area, unit);
    draw_line(&mut canvas, &area, &places, &spectrum.values);
    Raster {
        width,
        height,
        channels: 3,
        bytes: canvas.bytes,
    }
}

/// A white and a black frame around the pixel, inside the picture.
fn draw_mark(canvas: &mut Canvas, picture: &Raster, spectrum: &Spectrum) {
    let [x, y] = spectrum.centre;
    for (reach, colour) in [(spectrum.mark + 1, WHITE), (spectrum.mark + 2, BLACK)] {
        let [left, top] = [x, y].map(|centre| centre.saturating_sub(reach));
        let (right, bottom) = (
            (x + reach).min(picture.width - 1),
            (y + reach).min(picture.height - 1),
        );
        for column in left..=right {
            canvas.set(column, top, colour);
            canvas.set(column, bottom, colour);
        }
        for row in top..=bottom {
            canvas.set(left, row, colour);
            canvas.set(right, row, colour);
        }
    }
}

/// Where the spectrum is drawn, and which places and values its edges are.
struct Area {
    left: usize,
    top: usize,
    width: usize,
    height: usize,
    places: [f64; 2],
    values: [f64; 2],
}

impl Area {
    fn bottom(&self) -> usize {
        self.top + self.height
    }

    /// How far to the right a place is.
    fn across(&self, place: f64) -> f64 {
        let [first, last] = self.places;
        self.left as f64 + (place - first) / (last - first) * self.width as f64
    }

    /// How far down a value is.
    fn down(&self, value: f64) -> f64 {
        let [low, high] = self.values;
        self.bottom() as f64 - (value - low) / (high - low) * self.height as f64
    }
}

/// The round numbers between two ends.
fn marks([from, to]: [f64; 2]) -> impl Iterator<Item = f64> {
    let step = step_of(to - from, 6.0);
    let first = (from / step).ceil() as i64;
    let marks = (first..).map(move |index| index as f64 * step);
    marks.take_while(move |mark| *mark <= to)
}

/// Draws the axes with their numbers.
fn draw_axes(canvas: &mut Canvas, area: &Area, unit: &str) {
    let bottom = area.bottom();
    for value in marks(area.values) {
        let y = area.down(value) as usize;
        canvas.box_of([area.left, y], [area.width, 1], GREY);
        let text = value.to_string();
        let x = area.left.saturating_sub(width_of(&text) + 6);
        canvas.text([x, y.saturating_sub(5)], &text);
    }
    for place in marks(area.places) {
        let x = area.across(place) as usize;
        canvas.box_of([x, area.top], [1, area.height], GREY);
        let text = place.to_string();
        canvas.text([x.saturating_sub(width_of(&text) / 2), bottom + 8], &text);
    }
    let right = area.left + area.width;
    canvas.text([right - width_of(unit), bottom + 24], unit);
    canvas.box_of([area.left, area.top], [1, area.height], BLACK);
    canvas.box_of([area.left, bottom], [area.width, 1], BLACK);
}

/// Draws the line through a pixel's values.
fn draw_line(canvas: &mut Canvas, area: &Area, places: &[f64], values: &[f64]) {
    let points = places.iter().zip(values);
    let points = points.map(|(place, value)| [area.across(*place), area.down(*value)]);
    let mut points: Vec<[f64; 2]> = points.collect();
    // Bands need not stand in the order of their wavelengths.
    points.sort_by(|one, other| one[0].total_cmp(&other[0]));
    for pair in points.windows(2) {
        canvas.line(pair[0], pair[1], LINE);
    }
}

#[cfg(test)]
mod tests {
    use super::step_of;

    #[test]
    fn steps_are_round() {
        assert_eq!(step_of(600.0, 6.0), 100.0);
        assert_eq!(step_of(31.0, 6.0), 10.0);
        assert_eq!(step_of(4095.0, 6.0), 1000.0);
        assert_eq!(step_of(2.0, 6.0), 0.5);
    }
}
