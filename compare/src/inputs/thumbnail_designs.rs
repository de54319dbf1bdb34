//! Random designs for the thumbnails of PEC and PES: of any size, with stitches
//! in the corners, where one pixel ends and the next begins, and anywhere; some
//! of about as many commands as it takes for the port to turn to tables.

use crate::inputs::boundary_lists;
use crate::inputs::lists::{CHANGE, CHANGES, EDGE, JUMP, Move, TRIM};
use crate::oracle::Format;
use crate::random::Random;

/// How many pixels a width and a height are stretched to, in the thumbnail of
/// the whole and in that of a block.
const PIXELS: [[i32; 2]; 2] = [[44, 34], [43, 33]];

/// One axis of a design: from where to where, and how many pixels wide.
struct Axis {
    least: i32,
    span: i32,
    pixels: i32,
}

/// A random design.
pub fn any(format: Format, random: &mut Random) -> Vec<Move> {
    if random.below(5) == 0 {
        return dense(format, random);
    }
    let [across, down] = random.pick(&PIXELS);
    let (x, y) = (axis(across, 15, random), axis(down, 15, random));
    let points = random.between(1, 24) as usize;
    through(format, &x, &y, |made, _| made == points, random)
}

/// A design round the origin of about as many commands as it takes for the
/// port to turn to tables: as many as columns and rows, and 2,048.
pub fn dense(format: Format, random: &mut Random) -> Vec<Move> {
    let [across, down] = random.pick(&PIXELS);
    let (mut x, mut y) = (axis(across, 11, random), axis(down, 11, random));
    for axis in [&mut x, &mut y] {
        axis.least = random.between(-axis.span, 0);
    }
    let places = x.span + y.span + 2;
    let length = (places + random.between(-2, 2)).max(random.between(2_046, 2_060)) as usize - 1;
    let mut script = through(format, &x, &y, |_, made| made >= length, random);
    script.truncate(length);
    script
}

/// By way of points of the two axes until `done`, by points and by moves.
fn through(
    format: Format,
    x: &Axis,
    y: &Axis,
    done: impl Fn(usize, usize) -> bool,
    random: &mut Random,
) -> Vec<Move> {
    let mut script = Vec::new();
    let mut here = (0, 0);
    let (mut points, mut changes) = (0, 0);
    while !done(points, script.len()) {
        points += 1;
        let there = (place(x, random), place(y, random));
        script.extend(boundary_lists::way(format, here, there));
        here = there;
        match random.below(12) {
            0 if changes < CHANGES => {
                script.push((CHANGE, 0, 0));
                changes += 1;
            }
            1 => script.push((TRIM, 0, 0)),
            2 => script.push((JUMP, 0, 0)),
            _ => {}
        }
    }
    script
}

/// A span of any order of size, to 2 to the power of `most`; half of them are a
/// whole number of places to a pixel.
fn axis(pixels: i32, most: usize, random: &mut Random) -> Axis {
    let greatest = 1 << random.below(most + 1);
    let mut span = random.between(0, greatest).min(2 * EDGE);
    if random.below(2) == 0 {
        span -= span % pixels;
    }
    let least = match random.below(3) {
        0 => -(span / 2),
        1 => random.between(-span, 0),
        _ => random.between(-EDGE, EDGE - span),
    };
    Axis {
        least: least.clamp(-EDGE, EDGE - span),
        span,
        pixels,
    }
}

/// An end of the axis, the border of a pixel, or any place.
fn place(axis: &Axis, random: &mut Random) -> i32 {
    let far = match random.below(6) {
        0 => 0,
        1 => axis.span,
        2 | 3 => axis.span * random.between(0, axis.pixels) / axis.pixels,
        4 => axis.span / 2,
        _ => random.between(0, axis.span),
    };
    axis.least + far
}
