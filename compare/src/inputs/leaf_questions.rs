//! Questions to single functions of the published Rust, its leaves: distances, nearest threads, thread tables, bounds.

use crate::formats::jef_data::JEF_PALETTE;
use crate::formats::pec_data::PEC_PALETTE;
use crate::inputs::lists;
use crate::random::Random;

pub enum Leaf {
    /// `color_distance` of two colours.
    Distance([u8; 3], [u8; 3]),
    /// `nearest_index` over the whole PEC chart.
    Nearest([u8; 3]),
    /// The thread table that `write_jef_with` makes.
    Table(Vec<[u8; 3]>),
    /// `nearest_index` over the entries of the PEC chart with their bit set.
    NearestOf([u8; 3], [u8; 9]),
    /// `stream_bounds` of stitches at these places.
    Bounds(Vec<(i32, i32)>),
}

/// The questions for the list of choices.
pub fn all(seed: u64) -> Vec<Leaf> {
    let mut random = Random::new(seed);
    let mut leaves = distances(&mut random);
    leaves.extend(nearest(&mut random));
    leaves.extend(tables(&mut random));
    leaves.extend(nearest_of(&mut random));
    leaves.extend(bounds(&mut random));
    leaves
}

fn pec_chart() -> Vec<[u8; 3]> {
    let entries = PEC_PALETTE.iter();
    entries.map(|&(r, g, b, _)| [r, g, b]).collect()
}

fn jef_chart() -> Vec<[u8; 3]> {
    let entries = JEF_PALETTE.iter();
    entries.map(|&(r, g, b, _, _)| [r, g, b]).collect()
}

/// The corners of the cube of colours, and its middle.
fn corners() -> Vec<[u8; 3]> {
    let part = |code: u8, bit: u8| if code >> bit & 1 == 1 { 255 } else { 0 };
    let corner = |code: u8| [part(code, 0), part(code, 1), part(code, 2)];
    let mut found: Vec<[u8; 3]> = (0..8).map(corner).collect();
    found.extend([[127; 3], [128; 3], [240; 3]]);
    found
}

/// The colour half way between two.
fn middle(a: [u8; 3], b: [u8; 3]) -> [u8; 3] {
    let half = |at: usize| ((u16::from(a[at]) + u16::from(b[at])) / 2) as u8;
    [half(0), half(1), half(2)]
}

fn any(random: &mut Random) -> [u8; 3] {
    [random.byte(), random.byte(), random.byte()]
}

fn distances(random: &mut Random) -> Vec<Leaf> {
    let corners = corners();
    let pair = |&a: &[u8; 3]| corners.iter().map(move |&b| Leaf::Distance(a, b));
    let mut leaves: Vec<Leaf> = corners.iter().flat_map(pair).collect();
    // Sums of the reds that are odd: the half goes to the even number.
    for red in [0, 1, 2, 3, 126, 127, 252, 253] {
        for other in [red + 1, red + 2] {
            leaves.push(Leaf::Distance([red, 9, 0], [other, 7, 255]));
            leaves.push(Leaf::Distance([other, 7, 16], [red, 9, 0]));
        }
    }
    for _ in 0..150 {
        let a = any(random);
        let b = lists::colour(a, random);
        leaves.push(Leaf::Distance(a, b));
    }
    leaves
}

fn nearest(random: &mut Random) -> Vec<Leaf> {
    let chart = pec_chart();
    let mut colours = corners();
    colours.extend(&chart);
    for pair in chart.windows(2) {
        let near = middle(pair[0], pair[1]);
        colours.extend([near, near.map(|part| part.saturating_add(1))]);
    }
    colours.extend(ties(&chart, random));
    for _ in 0..120 {
        colours.push(any(random));
    }
    colours.into_iter().map(Leaf::Nearest).collect()
}

/// Colours with two different entries of a chart at the same least distance.
fn ties(chart: &[[u8; 3]], random: &mut Random) -> Vec<[u8; 3]> {
    let mut found = Vec::new();
    for _ in 0..200_000 {
        let colour = any(random);
        let far = |&entry: &[u8; 3]| crate::formats::color_distance(colour, entry);
        let least = chart[1..].iter().map(far).min();
        let nearest = chart[1..].iter().filter(|entry| Some(far(entry)) == least);
        if nearest.count() > 1 {
            found.push(colour);
        }
        if found.len() == 40 {
            break;
        }
    }
    found
}

fn tables(random: &mut Random) -> Vec<Leaf> {
    let chart = jef_chart();
    let mut tables: Vec<Vec<[u8; 3]>> = corners().iter().map(|&colour| vec![colour]).collect();
    tables.extend(chart.iter().map(|&entry| vec![entry]));
    tables.extend(ties(&chart, random).iter().map(|&tie| vec![tie]));
    // Neighbours: the same colour, and colours on the same thread.
    for &entry in &chart {
        let near = entry.map(|part| part.saturating_add(1));
        let also = entry.map(|part| part.saturating_sub(1));
        tables.push(vec![entry, entry, near]);
        tables.push(vec![near, entry, also, entry]);
        tables.push(vec![near, also, near, near]);
    }
    for at in 0..40 {
        tables.push(lists::threads(2 + at % 9, random));
    }
    tables.push(chart);
    tables.push(lists::threads(255, random));
    tables.into_iter().map(Leaf::Table).collect()
}

fn nearest_of(random: &mut Random) -> Vec<Leaf> {
    let bitmap = |entries: &[usize]| {
        let mut bits = [0; 9];
        for &entry in entries {
            bits[entry / 8] |= 1 << (entry % 8);
        }
        bits
    };
    let mut leaves = Vec::new();
    for colour in corners() {
        leaves.push(Leaf::NearestOf(colour, [0; 9]));
    }
    for entry in 1..65 {
        leaves.push(Leaf::NearestOf(any(random), bitmap(&[entry])));
    }
    let chart = pec_chart();
    for (entry, &colour) in chart.iter().enumerate() {
        let others: Vec<usize> = (1..65).filter(|&other| other != entry).collect();
        leaves.push(Leaf::NearestOf(colour, bitmap(&others)));
    }
    for colour in ties(&chart, random) {
        let some: Vec<usize> = (1..65).filter(|_| random.below(8) != 0).collect();
        leaves.push(Leaf::NearestOf(colour, bitmap(&some)));
    }
    for at in 0..100 {
        let some: Vec<usize> = (1..65).filter(|_| random.below(2 + at % 6) == 0).collect();
        let colour = lists::colour(any(random), random);
        leaves.push(Leaf::NearestOf(colour, bitmap(&some)));
    }
    leaves
}

fn bounds(random: &mut Random) -> Vec<Leaf> {
    const ENDS: [i32; 9] = [0, 1, -1, 127, -127, 2047, -2048, 16_000, -16_000];
    let mut leaves = vec![Leaf::Bounds(Vec::new())];
    let both = |&x: &i32| ENDS.map(|y| Leaf::Bounds(vec![(x, y)]));
    leaves.extend(ENDS.iter().flat_map(both));
    for at in 0..80 {
        let mut place = || match random.below(3) {
            0 => random.pick(&ENDS),
            1 => random.between(-30, 30),
            _ => random.between(-16_000, 16_000),
        };
        let places = (0..2 + at % 14).map(|_| (place(), place())).collect();
        leaves.push(Leaf::Bounds(places));
    }
    leaves
}
