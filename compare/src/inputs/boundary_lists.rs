//! More lists at the borders of the formats, too many or too long for the list
//! of writes: bounds from none to the greatest, single points, pairs of
//! boundary steps, rows of one kind, runs, names, threads and colour changes.

use crate::formats::pec_data::PEC_PALETTE;
use crate::inputs::lists::{self, CHANGE, CHANGES, EDGE, JUMP, List, Move, NAMES, STITCH, TRIM};
use crate::inputs::vp3_lists;
use crate::oracle::Format;
use crate::random::Random;

/// Widths and heights: none, the least, those of a thumbnail, the greatest.
const SPANS: [i32; 10] = [0, 1, 2, 33, 34, 43, 44, 1_301, 31_999, 32_000];

/// Lengths of runs, about those at which a count takes another byte.
const RUNS: [usize; 12] = [
    126, 127, 128, 254, 255, 256, 257, 511, 512, 513, 1_000, 3_000,
];

/// Runs of which the list or the file is longer than two bytes tell.
const LONG_RUNS: [usize; 8] = [8_191, 8_192, 16_384, 32_767, 32_768, 32_769, 65_533, 65_534];

/// The lists of one format.
pub fn all(format: Format, seed: u64) -> Vec<List> {
    let mut random = Random::new(!seed ^ format as u64);
    let mut scripts = bounds(format);
    scripts.extend(points(format));
    scripts.extend(pairs(format));
    scripts.extend(rows());
    scripts.extend(RUNS.iter().flat_map(|&length| runs(length)));
    scripts.retain(|script| lists::inside(script));
    let mut found = named(&scripts, &mut random);
    found.extend(names(&mut random));
    found.extend(charts(&mut random));
    found.extend(blocks(&mut random));
    found.extend(changes(&mut random));
    if format == Format::Vp3 {
        found.extend(vp3_lists::lists(&mut random));
    }
    found
}

/// Lists of one format that are longer than the layout of the list of writes
/// can tell, most of them: runs, and random ones.
pub fn long(format: Format, seed: u64) -> Vec<List> {
    let mut random = Random::new(!seed ^ format as u64);
    let mut scripts: Vec<Vec<Move>> = LONG_RUNS.iter().flat_map(|&length| runs(length)).collect();
    for length in [5_000, 20_000, 40_000, 65_534] {
        scripts.push(thinned(lists::wander(format, length, &mut random)));
    }
    named(&scripts, &mut random)
}

/// The scripts as lists, under all names by turns.
fn named(scripts: &[Vec<Move>], random: &mut Random) -> Vec<List> {
    let names = NAMES.iter().cycle();
    let pairs = scripts.iter().zip(names);
    pairs
        .map(|(script, name)| lists::list(name, script, random))
        .collect()
}

/// Designs of all widths and heights, about (0, 0) or away from it; every
/// other with a block for each corner.
fn bounds(format: Format) -> Vec<Vec<Move>> {
    let mut scripts = Vec::new();
    for (at, &width) in SPANS.iter().enumerate() {
        for &height in &SPANS {
            for side in 0..4 {
                let left = start(format, side, width);
                let top = start(format, (side + at) % 4, height);
                let changes = scripts.len() % 2 == 1;
                scripts.push(corners(format, (left, top), (width, height), changes));
            }
        }
    }
    scripts
}

/// Where a design begins on one axis: at 0, so that it ends or is halved
/// there, or as far out as the first step leads.
fn start(format: Format, side: usize, span: i32) -> i32 {
    let start = match side {
        0 => 0,
        1 => -span,
        2 => -(span / 2),
        _ => format.steps().1,
    };
    start.clamp(-EDGE, EDGE - span)
}

/// A stitch in each corner and one in the middle.
fn corners(format: Format, from: (i32, i32), size: (i32, i32), changes: bool) -> Vec<Move> {
    let place = |x: i32, y: i32| (from.0 + size.0 * x / 2, from.1 + size.1 * y / 2);
    let places = [
        place(0, 0),
        place(2, 2),
        place(0, 2),
        place(2, 0),
        place(1, 1),
    ];
    let mut script = Vec::new();
    let mut here = (0, 0);
    for there in places {
        script.extend(way(format, here, there));
        if changes {
            script.push((CHANGE, 0, 0));
        }
        here = there;
    }
    script
}

/// From one place to another: jumps, as few as the format allows, and the last
/// part a stitch.
pub fn way(format: Format, here: (i32, i32), there: (i32, i32)) -> Vec<Move> {
    let limit = format.steps().1;
    let (x, y) = (there.0 - here.0, there.1 - here.1);
    let count = ((x.abs().max(y.abs()) + limit - 1) / limit).max(1);
    let part = |whole: i32, at: i32| (whole * (at + 1) / count) - (whole * at / count);
    let kind = |at: i32| if at + 1 == count { STITCH } else { JUMP };
    (0..count)
        .map(|at| (kind(at), part(x, at), part(y, at)))
        .collect()
}

/// Designs of one place.
fn points(format: Format) -> Vec<Vec<Move>> {
    let (least, greatest) = format.steps();
    let ways = [0, 1, -1, greatest.min(EDGE), least.max(-EDGE)];
    let mut scripts = Vec::new();
    for x in ways {
        for y in ways {
            scripts.push(vec![(STITCH, x, y)]);
            scripts.push(vec![(JUMP, x, y)]);
            scripts.push(vec![(JUMP, x, y), (CHANGE, 0, 0), (STITCH, 0, 0)]);
        }
    }
    scripts
}

/// Every pair of boundary steps on the two axes, in stitches and jumps that
/// come first, later and behind each other.
fn pairs(format: Format) -> Vec<Vec<Move>> {
    let edges = lists::edges(format);
    let mut scripts = Vec::new();
    for &x in &edges {
        for &y in &edges {
            let (stitch, jump) = ((STITCH, x, y), (JUMP, x, y));
            scripts.push(vec![stitch, stitch, jump, jump, stitch]);
            scripts.push(vec![jump, stitch, (CHANGE, 0, 0), stitch, jump]);
        }
    }
    scripts
}

/// Rows of jumps, trims and colour changes first, last, between stitches and
/// beside each other; the stitches move on both axes or on one.
fn rows() -> Vec<Vec<Move>> {
    let kinds = [(JUMP, -7, 5), (TRIM, 0, 0), (CHANGE, 0, 0)];
    let mut scripts = Vec::new();
    for stitch in [(STITCH, 3, -4), (STITCH, 0, 6), (STITCH, -2, 0)] {
        for length in [1, 2, 3, 17] {
            for one in kinds {
                let row = vec![one; length];
                scripts.push([row.clone(), vec![stitch; 2]].concat());
                scripts.push([vec![stitch; 2], row.clone()].concat());
                for other in kinds {
                    let next = vec![other; length];
                    let stitch = vec![stitch];
                    scripts.push([&row[..], &next, &stitch, &next, &row, &stitch].concat());
                }
            }
        }
    }
    scripts
}

/// Runs of so many stitches, of so many jumps, of stitches on the spot, and
/// stitches and jumps by turns.
fn runs(length: usize) -> Vec<Vec<Move>> {
    let step = |at: usize| (at as i32 % 7 - 3, at as i32 % 5 - 2);
    let run = |kind: fn(usize) -> u8| -> Vec<Move> {
        let one = |at| (kind(at), step(at).0, step(at).1);
        (0..length).map(one).collect()
    };
    vec![
        run(|_| STITCH),
        run(|_| JUMP),
        vec![(STITCH, 0, 0); length],
        run(|at| if at % 2 == 0 { STITCH } else { JUMP }),
    ]
}

/// Short lists under names of every length, of every letter, and with longer
/// characters at every place.
fn names(random: &mut Random) -> Vec<List> {
    let mut names: Vec<String> = (0..20).map(|length| "n".repeat(length)).collect();
    names.push("n".repeat(255));
    names.push("\u{fc}".repeat(127));
    let letters: Vec<char> = ('\0'..='\u{ff}').collect();
    names.extend(letters.chunks(8).map(String::from_iter));
    for at in 0..10 {
        let (front, back) = "tenletters".split_at(at);
        names.push(format!("{front}\u{e9}{back}"));
        names.push(format!("{front}\u{1f9f5}{back}"));
    }
    let script = [(STITCH, 4, 4), (JUMP, 1, 2), (STITCH, -9, 2)];
    let list = |name: &String| lists::list(name, &script, random);
    names.iter().map(list).collect()
}

/// Threads about as many as the chart has, and as many as a list may have.
fn charts(random: &mut Random) -> Vec<List> {
    const COUNTS: [usize; 10] = [1, 2, 62, 63, 64, 65, 66, 100, 254, 255];
    let entry = |&(r, g, b, _): &(u8, u8, u8, _)| [r, g, b];
    let chart: Vec<[u8; 3]> = PEC_PALETTE[1..].iter().map(entry).collect();
    let mut backwards = chart.clone();
    backwards.reverse();
    let script: Vec<Move> = [(STITCH, 4, 4), (CHANGE, 0, 0)].repeat(4);
    let mut found = Vec::new();
    for count in COUNTS {
        let any = distinct(&[], count, random);
        let sets = [
            distinct(&chart, count, random),
            distinct(&backwards, count, random),
            lists::threads(count, random),
            any[..1].repeat(count),
            any.iter().copied().cycle().skip(1).take(count).collect(),
            any,
        ];
        for threads in sets {
            found.push(with("threads", &script, threads));
        }
    }
    found
}

/// So many threads that differ, these first.
fn distinct(first: &[[u8; 3]], count: usize, random: &mut Random) -> Vec<[u8; 3]> {
    let mut found: Vec<[u8; 3]> = first.iter().copied().take(count).collect();
    while found.len() < count {
        let thread = [0; 3].map(|_| random.byte());
        if !found.contains(&thread) {
            found.push(thread);
        }
    }
    found
}

fn with(name: &str, script: &[Move], threads: Vec<[u8; 3]>) -> List {
    List {
        name: name.as_bytes().to_vec(),
        cmds: lists::commands(script),
        threads,
    }
}

/// No threads, fewer than blocks, as many, and more.
fn blocks(random: &mut Random) -> Vec<List> {
    let mut found = Vec::new();
    for changes in [0, 1, 2, 9, 40] {
        let block = [(STITCH, 3, 1), (CHANGE, 0, 0), (STITCH, -2, 0)];
        let script = block.repeat(changes);
        for count in [0, 1, changes / 2, changes, changes + 1, changes + 2, 80] {
            found.push(with("blocks", &script, lists::threads(count, random)));
            found.push(with("blocks", &script, distinct(&[], count, random)));
        }
    }
    found
}

/// As many colour changes as a list may have: alone, and with stitches, jumps
/// and trims between them.
fn changes(random: &mut Random) -> Vec<List> {
    let change = (CHANGE, 0, 0);
    let stitch = (STITCH, 1, 0);
    let parts: [&[Move]; 6] = [
        &[change],
        &[change, stitch],
        &[stitch, change],
        &[(TRIM, 0, 0), change],
        &[(JUMP, 1, -1), change],
        &[(JUMP, -1, 1), stitch, change],
    ];
    let mut found = Vec::new();
    for part in parts {
        let script = part.repeat(CHANGES);
        for count in [0, 1, 100, CHANGES, CHANGES + 1] {
            found.push(with("changes", &script, distinct(&[], count, random)));
        }
    }
    found
}

/// A script with no more colour changes than a list may have.
fn thinned(script: Vec<Move>) -> Vec<Move> {
    let mut changes = 0;
    let stays = |step: &Move| {
        changes += usize::from(step.0 == CHANGE);
        step.0 != CHANGE || changes <= CHANGES
    };
    script.into_iter().filter(stays).collect()
}
