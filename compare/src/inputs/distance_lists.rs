//! Lists for the distance that a write answers: threads that a chart has and threads far from both
//! charts, the largest distance first, between and last, about as many threads as the PEC chart has
//! and far more, neighbours that JEF keeps apart; and refused lists whose threads are far off.

use crate::formats::color_distance;
use crate::formats::{jef_data::JEF_PALETTE, pec_data::PEC_PALETTE};
use crate::inputs::faulty_lists::Asked;
use crate::inputs::lists::{self, CHANGE, EDGE, END, JUMP, List, Move, STITCH, TRIM};
use crate::oracle::Format;
use crate::port::Lists;
use crate::random::Random;

type Colour = [u8; 3];

const BLACK: Colour = [0; 3];
const WHITE: Colour = [255; 3];

/// Counts of threads: past 64 that differ the PEC entry of one may be that of another.
const COUNTS: [usize; 6] = [63, 64, 65, 66, 100, 255];

/// Commands of the lists, by turns: only an end, one block, some blocks.
const SCRIPTS: [&[Move]; 3] = [
    &[],
    &[(STITCH, 4, 4)],
    &[
        (STITCH, 4, 4),
        (CHANGE, 0, 0),
        (CHANGE, 0, 0),
        (JUMP, 1, 0),
        (STITCH, -9, 2),
    ],
];

/// The lists of one format.
pub fn all(format: Format) -> Vec<List> {
    let far = furthest(&[pec_chart(), jef_chart()].concat());
    let mut sets = vec![Vec::new()];
    sets.extend(singles());
    sets.extend(one_far(far));
    sets.extend(last_entries());
    sets.extend(COUNTS.iter().flat_map(|&count| many(count, far)));
    sets.extend(neighbours(format));
    let list = |(at, threads)| with(SCRIPTS[at % SCRIPTS.len()], threads);
    sets.into_iter().enumerate().map(list).collect()
}

fn with(script: &[Move], threads: Vec<Colour>) -> List {
    List {
        name: b"distance".to_vec(),
        cmds: lists::commands(script),
        threads,
    }
}

/// The charts' colours, without entry 0.
fn pec_chart() -> Vec<Colour> {
    let entries = PEC_PALETTE[1..].iter();
    entries.map(|&(r, g, b, _)| [r, g, b]).collect()
}

fn jef_chart() -> Vec<Colour> {
    let entries = JEF_PALETTE[1..].iter();
    entries.map(|&(r, g, b, _, _)| [r, g, b]).collect()
}

/// The corners of the cube of colours.
fn corners() -> impl Iterator<Item = Colour> {
    (0..8_u8).map(|code| [0, 1, 2].map(|bit| 255 * (code >> bit & 1)))
}

/// Of a grid of colours the one whose nearest colour of a chart is furthest.
fn furthest(chart: &[Colour]) -> Colour {
    let least = |&colour: &Colour| chart.iter().map(|&own| color_distance(colour, own)).min();
    let grid = (0..18 * 18 * 18_usize).map(|at| [at / 324, at / 18 % 18, at % 18]);
    let colours = grid.map(|parts| parts.map(|part| 15 * part as u8));
    colours.max_by_key(least).unwrap_or(WHITE)
}

/// A colour so many steps of one byte beside another, few enough that none leads out.
fn beside([r, g, b]: Colour, steps: usize) -> Colour {
    let moved = |part: u8, by: usize| match part {
        0..128 => part + by as u8,
        _ => part - by as u8,
    };
    let [in_red, in_green, in_blue] = [steps.div_ceil(3), (steps + 1) / 3, steps / 3];
    [moved(r, in_red), moved(g, in_green), moved(b, in_blue)]
}

/// One thread: of a chart, beside one of it, a corner of the cube, the furthest from a chart.
fn singles() -> Vec<Vec<Colour>> {
    let (pec, jef) = (pec_chart(), jef_chart());
    let known = [pec[0], pec[19], pec[63], jef[0], jef[1], jef[77]];
    let near = known.map(|colour| beside(colour, 2));
    let far = [furthest(&pec), furthest(&jef)];
    let colours = known.into_iter().chain(near).chain(corners()).chain(far);
    colours.map(|colour| vec![colour]).collect()
}

/// A far thread first, between and last, among black ones and among those of each chart.
fn one_far(far: Colour) -> Vec<Vec<Colour>> {
    let mut sets = Vec::new();
    for others in [vec![BLACK; 254], pec_chart(), jef_chart()] {
        for count in [1, 2, 8, 63, 254] {
            let others = &others[..count.min(others.len())];
            for place in [0, others.len() / 2, others.len()] {
                let (front, back) = others.split_at(place);
                sets.push([front, &[far], back].concat());
            }
        }
    }
    sets
}

/// The PEC chart without one entry, and then the corner of the cube that is furthest from it: the
/// entry is the only one left. That of black is at the greatest distance that there is.
fn last_entries() -> Vec<Vec<Colour>> {
    let mut sets = Vec::new();
    for left_out in [0, 12, 19, 28, 63] {
        let mut threads = pec_chart();
        let own = threads.remove(left_out);
        threads.extend(corners().max_by_key(|&corner| color_distance(corner, own)));
        sets.push(threads.clone());
        sets.push([&threads[..], &[own, BLACK, WHITE], &threads[60..]].concat());
    }
    sets
}

/// So many threads: beside those of the PEC chart, close together, far apart; from the 65th on far
/// from those before; each twice, the first ones once more, the last one again and again.
fn many(count: usize, far: Colour) -> Vec<Vec<Colour>> {
    let (pec, jef) = (pec_chart(), jef_chart());
    let near = |at: usize| beside(pec[at % 64], at / 64 * 4);
    let dark = |at: usize| [at % 7, at / 7 % 7, at / 49].map(|part| part as u8);
    let light = |at: usize| dark(at).map(|part| 255 - part);
    let about = |at: usize| {
        let [r, g, b] = dark(at);
        [far[0] ^ r, far[1] ^ g, far[2] ^ b]
    };
    let apart = |at: usize| [at * 73, at * 151, at * 199].map(|part| part as u8);
    let rows: [&dyn Fn(usize) -> Colour; 14] = [
        &near,
        &|at| near(count - 1 - at),
        &dark,
        &light,
        &about,
        &apart,
        &|at| if at < 64 { dark(at) } else { light(at) },
        &|at| if at < 64 { light(at) } else { jef[at % 78] },
        &|at| if at < 64 { apart(at) } else { pec[at % 64] },
        &|at| {
            if at < 64 {
                beside(pec[at], 3)
            } else {
                about(at)
            }
        },
        &|at| {
            if at < 64 {
                beside(pec[63 - at], 2)
            } else {
                apart(at)
            }
        },
        &|at| dark(at / 2),
        &|at| apart(at % 60),
        &|at| light(at.min(70)),
    ];
    rows.map(|row| (0..count).map(row).collect::<Vec<_>>())
        .into()
}

/// Threads beside each other of nearly the same colour, which JEF gives two entries, and of the same
/// one: about every colour of the chart in JEF, about some in the other formats.
fn neighbours(format: Format) -> Vec<Vec<Colour>> {
    let chart = jef_chart();
    let step = if format == Format::Jef { 1 } else { 5 };
    let set = |(at, &own): (usize, &Colour)| {
        let near = beside(own, 1 + at % 4);
        let other = chart[(at + 7) % chart.len()];
        match at % 6 {
            0 => vec![own, near],
            1 => vec![near, own],
            2 => vec![own, near, own, own],
            3 => vec![near, near, own, own, near],
            4 => vec![other, own, near, near, other],
            _ => vec![own, own, own],
        }
    };
    chart.iter().enumerate().step_by(step).map(set).collect()
}

/// Faults of a list of a stitch, a trim and an end.
const FAULTS: [fn(&mut Lists, Format); 15] = [
    // 6
    |list, _| (list.xs, list.ys, list.kinds) = Default::default(),
    |list, _| list.xs.push(4),
    |list, _| list.kinds[0] = 5,
    |list, _| list.kinds[2] = STITCH,
    |list, _| list.kinds[0] = END,
    // 7
    |list, _| list.xs.fill(EDGE + 1),
    |list, _| list.ys.fill(-EDGE - 1),
    // 8
    |list, _| list.threads.push(0),
    |list, _| list.threads.extend([0; 2]),
    |list, _| list.threads.resize(3 * 256, 0),
    |list, _| {
        list.xs.splice(1..1, [4; 255]);
        list.ys.splice(1..1, [4; 255]);
        list.kinds.splice(1..1, [CHANGE; 255]);
    },
    // 9
    |list, _| list.xs[1..].fill(5),
    |list, _| list.ys[2] = 5,
    // 10; in VP3 7
    |list, format| list.xs.fill(format.steps().1 + 1),
    |list, format| list.ys.fill(format.steps().0 - 1),
];

/// Lists of one format that are refused by each number but 11, with a far thread and with a hundred.
pub fn refused(format: Format) -> Vec<Asked> {
    let far = furthest(&[pec_chart(), jef_chart()].concat());
    let mut found = Vec::new();
    for threads in [vec![far], vec![far; 100]] {
        let list = Lists::of(&with(&[(STITCH, 4, 4), (TRIM, 0, 0)], threads));
        let ext = format.ext().as_bytes().to_vec();
        found.push(Asked {
            ext: [&ext[..], b"s"].concat(),
            list: list.clone(),
        });
        for fault in FAULTS {
            let mut list = list.clone();
            fault(&mut list, format);
            let ext = ext.clone();
            found.push(Asked { ext, list });
        }
    }
    found
}

/// Random threads, often about as many as the PEC chart has or more: of all kinds, close together,
/// beside those of the charts, or of a few colours.
pub fn any(random: &mut Random) -> Vec<Colour> {
    let count = match random.below(3) {
        0 => random.below(9),
        1 => 60 + random.below(12),
        _ => random.below(256),
    };
    let colour = |random: &mut Random| [0; 3].map(|_| random.byte());
    match random.below(4) {
        0 => lists::threads(count, random),
        1 => {
            let (about, width) = (colour(random), random.pick(&[2, 4, 16, 64]));
            let mut part = |part: u8| part.wrapping_add(random.below(width) as u8);
            (0..count).map(|_| about.map(&mut part)).collect()
        }
        2 => {
            let charts = [pec_chart(), jef_chart()].concat();
            let mut thread = || beside(random.pick(&charts), random.below(5));
            (0..count).map(|_| thread()).collect()
        }
        _ => {
            let few = 1 + random.below(70);
            let few: Vec<Colour> = (0..few).map(|_| colour(random)).collect();
            (0..count).map(|_| random.pick(&few)).collect()
        }
    }
}
