//! Lists of commands in document 01's domain: short and boundary ones first,
//! then random ones.

use crate::formats::{jef_data::JEF_PALETTE, pec_data::PEC_PALETTE};
use crate::inputs::vp3_lists;
use crate::oracle::{Command, Format, Ready};
use crate::random::Random;

#[derive(Clone)]
pub struct List {
    pub name: Vec<u8>,
    pub cmds: Vec<Command>,
    pub threads: Vec<[u8; 3]>,
}

impl List {
    /// As the published Rust takes it.
    pub fn ready(&self) -> Ready {
        Ready::new(&self.name, &self.cmds, &self.threads)
    }
}

/// Kind and step; trims and colour changes stand still.
pub type Move = (u8, i32, i32);

pub const STITCH: u8 = 0;
pub const JUMP: u8 = 1;
pub const TRIM: u8 = 2;
pub const CHANGE: u8 = 3;
pub const END: u8 = 4;

/// No place lies further out on either axis.
pub const EDGE: i32 = 16_000;

/// No list has more colour changes.
pub const CHANGES: usize = 254;

/// Names of every kind, all in UTF-8.
pub const NAMES: [&str; 12] = [
    "",
    "a",
    "eight888",
    "ninechars",
    "sixteen letters!",
    "seventeen letters",
    "Bl\u{fc}te \u{e9}t\u{e9} \u{1f9f5}",
    "\u{1}tab\tcr\rlf\n\u{7f}del",
    "  blanks  ",
    "\u{80}\u{ff}\u{7ff}\u{ffff}",
    "LA:TC:#12",
    "a name far longer than any format keeps, with \u{e4} in it",
];

/// The lists of one format for the list of writes.
pub fn all(format: Format, seed: u64) -> Vec<List> {
    gathered(format, seed, |at| taken(format, at))
}

/// The same with every script in every format.
pub fn every(format: Format, seed: u64) -> Vec<List> {
    gathered(format, seed, |_| true)
}

fn gathered(format: Format, seed: u64, taken: impl Fn(usize) -> bool) -> Vec<List> {
    let mut random = Random::new(seed ^ format as u64);
    let mut scripts = kinds();
    scripts.extend(steps(format));
    scripts.extend(rows());
    scripts.extend(sizes(format));
    if format == Format::Vp3 {
        scripts.extend(vp3_lists::scripts());
    }
    scripts.retain(|script| inside(script));
    let mut lists: Vec<List> = Vec::new();
    for (at, script) in scripts.iter().enumerate() {
        if taken(at) {
            lists.push(list(NAMES[at % NAMES.len()], script, &mut random));
        }
    }
    lists.extend(many_threads(&mut random));
    for at in 0..random_count(format) {
        let length = if at % 30 == 29 { 150 } else { 1 + at % 24 };
        let script = wander(format, length, &mut random);
        lists.push(list(NAMES[at % NAMES.len()], &script, &mut random));
    }
    lists.push(many_changes(format, &mut random));
    lists
}

/// Whether a list with its threads is in document 01's domain.
pub fn accepted(format: Format, cmds: &[Command], threads: &[[u8; 3]]) -> bool {
    let (least, greatest) = format.steps();
    let (mut x, mut y) = (0, 0);
    for (at, cmd) in cmds.iter().enumerate() {
        let (dx, dy) = (cmd.0 - x, cmd.1 - y);
        (x, y) = (cmd.0, cmd.1);
        let near = x.abs() <= EDGE && y.abs() <= EDGE;
        let still = cmd.2 < TRIM || (dx, dy) == (0, 0);
        let fits = [dx, dy].iter().all(|d| (least..=greatest).contains(d));
        let last = at + 1 == cmds.len();
        if !(near && still && fits && cmd.2 <= END && (cmd.2 == END) == last) {
            return false;
        }
    }
    let changes = cmds.iter().filter(|cmd| cmd.2 == CHANGE).count();
    (1..=65_535).contains(&cmds.len()) && changes <= CHANGES && threads.len() <= 255
}

/// PES holds a PEC part, and thumbnails make both long: they share the
/// scripts between them. VP3 takes some of its own, for it has the most.
fn taken(format: Format, at: usize) -> bool {
    match format {
        Format::Pes => matches!(at % 4, 0 | 3),
        Format::Pec => matches!(at % 4, 1 | 2),
        Format::Vp3 => at.is_multiple_of(3),
        _ => true,
    }
}

/// Whether no place of a script lies too far out. Only long steps of VP3 lead there.
pub fn inside(script: &[Move]) -> bool {
    let near = |&(x, y, _): &Command| x.abs() <= EDGE && y.abs() <= EDGE;
    commands(script).iter().all(near)
}

/// Short lists whose files are worth reading whole.
pub fn short(format: Format, random: &mut Random) -> Vec<List> {
    let scripts = rows();
    let mut lists: Vec<List> = Vec::new();
    for (at, script) in scripts.iter().enumerate() {
        lists.push(list(NAMES[at % NAMES.len()], script, random));
    }
    for (at, name) in NAMES[..6].iter().enumerate() {
        let script = wander(format, 4 + at, random);
        lists.push(list(name, &script, random));
    }
    lists
}

/// A random list of so many commands and an end.
pub fn random(format: Format, length: usize, random: &mut Random) -> List {
    let script = wander(format, length, random);
    list(random.pick(&NAMES), &script, random)
}

/// How many random lists; fewer where the files are long.
fn random_count(format: Format) -> usize {
    match format {
        Format::Pes | Format::Pec => 20,
        Format::Vp3 => 30,
        Format::Dst | Format::Jef => 60,
        Format::Exp => 110,
    }
}

/// A script's list, with about as many threads as blocks.
pub fn list(name: &str, script: &[Move], random: &mut Random) -> List {
    let changes = script.iter().filter(|step| step.0 == CHANGE).count();
    let count = match random.below(6) {
        0 => 0,
        1 => changes,
        2 => changes + 2,
        _ => changes + 1,
    };
    List {
        name: name.as_bytes().to_vec(),
        cmds: commands(script),
        threads: threads(count.min(255), random),
    }
}

/// The commands of a script, and an end.
pub fn commands(script: &[Move]) -> Vec<Command> {
    let (mut x, mut y) = (0, 0);
    let mut cmds = Vec::new();
    for &(kind, dx, dy) in script {
        if kind < TRIM {
            (x, y) = (x + dx, y + dy);
        }
        cmds.push((x, y, kind));
    }
    cmds.push((x, y, END));
    cmds
}

/// Colours of the charts, corners of the cube, neighbours of the colour
/// before, and any.
pub fn threads(count: usize, random: &mut Random) -> Vec<[u8; 3]> {
    let mut found: Vec<[u8; 3]> = Vec::new();
    for _ in 0..count {
        let before = found.last().copied().unwrap_or([0; 3]);
        found.push(colour(before, random));
    }
    found
}

pub fn colour(before: [u8; 3], random: &mut Random) -> [u8; 3] {
    match random.below(6) {
        0 => {
            let (r, g, b, _) = random.pick(&PEC_PALETTE);
            [r, g, b]
        }
        1 => {
            let (r, g, b, _, _) = random.pick(&JEF_PALETTE);
            [r, g, b]
        }
        2 => [0; 3].map(|_| random.pick(&[0, 255])),
        3 => before.map(|part| part.saturating_add(random.pick(&[0, 1, 2]))),
        4 => before,
        _ => [0; 3].map(|_| random.byte()),
    }
}

/// Every row of up to three kinds before the end, with and without moves on
/// both axes.
fn kinds() -> Vec<Vec<Move>> {
    const STEPS: [(i32, i32); 3] = [(5, -3), (0, 4), (-6, -7)];
    let mut scripts = Vec::new();
    for length in 0..=3 {
        for code in 0..4_usize.pow(length) {
            let kind = |at: u32| (code / 4_usize.pow(at) % 4) as u8;
            let step = |at: u32| {
                let (dx, dy) = STEPS[(at as usize + code) % 3];
                (kind(at), dx, dy)
            };
            scripts.push((0..length).map(step).collect());
        }
    }
    scripts
}

/// Steps at which some format's bytes change, within the format's limit.
pub fn edges(format: Format) -> Vec<i32> {
    let steps = match format {
        Format::Pes | Format::Pec => vec![1, 62, 63, 64, 65, 127, 128, 129, 255, 256, 2046, 2047],
        Format::Dst => vec![1, 2, 4, 5, 13, 14, 40, 41, 120, 121],
        Format::Exp | Format::Jef => vec![1, 2, 63, 64, 126, 127],
        Format::Vp3 => vec![
            1, 2, 126, 127, 128, 129, 255, 256, 257, 2048, 3200, 15_999, 16_000, 31_999, 32_000,
        ],
    };
    let mut both: Vec<i32> = steps.iter().flat_map(|&step| [step, -step]).collect();
    both.extend([0, -2048]);
    both.retain(|&step| step >= format.steps().0);
    both
}

fn steps(format: Format) -> Vec<Vec<Move>> {
    let mut scripts = Vec::new();
    for (at, &step) in edges(format).iter().enumerate() {
        scripts.push(match at % 3 {
            0 => vec![(STITCH, step, 0), (JUMP, 0, step)],
            1 => vec![(JUMP, step, 0), (STITCH, 0, step)],
            _ => vec![(STITCH, 0, step), (CHANGE, 0, 0), (JUMP, step, 0)],
        });
        scripts.push(vec![(STITCH, step, -step.max(-2047)), (STITCH, 1, 1)]);
    }
    let (least, greatest) = (format.steps().0.max(-130), format.steps().1.min(130));
    let sweep = |step: i32| (STITCH, step, least + greatest - step);
    scripts.push((least..=greatest).map(sweep).collect());
    scripts
}

/// Kinds in rows, first and last, and designs that are flat.
fn rows() -> Vec<Vec<Move>> {
    let stitch = (STITCH, 3, -4);
    let jump = (JUMP, -7, 5);
    let (trim, change) = ((TRIM, 0, 0), (CHANGE, 0, 0));
    vec![
        vec![stitch; 5],
        vec![jump; 4],
        vec![trim; 3],
        vec![change; 3],
        vec![jump, jump, stitch, jump, jump, stitch, stitch, jump],
        vec![
            change, change, stitch, change, change, change, stitch, change,
        ],
        vec![trim, jump, stitch, trim, trim, jump, stitch, trim],
        vec![jump, change, stitch, jump, change, jump, stitch],
        vec![stitch, change, stitch, stitch, trim, change, jump, stitch],
        vec![(STITCH, 0, 0), (STITCH, 0, 0), (JUMP, 0, 0), (STITCH, 0, 0)],
        vec![(STITCH, 9, 0); 6],
        vec![(STITCH, 0, -9); 6],
        vec![(JUMP, 60, 60), (STITCH, 0, 0), (STITCH, -1, 0)],
        [
            vec![change; 9],
            vec![stitch],
            vec![change; 17],
            vec![stitch],
        ]
        .concat(),
    ]
}

/// Designs of the widths and heights at which a hoop or a hoop's edge
/// changes, and places as far out as they go.
fn sizes(format: Format) -> Vec<Vec<Move>> {
    const SIZES: [i32; 18] = [
        1, 499, 500, 501, 502, 1099, 1100, 1101, 1259, 1260, 1399, 1400, 1401, 1999, 2000, 2001,
        2002, 5000,
    ];
    let mut scripts = vec![
        reach(format, EDGE, EDGE),
        reach(format, -EDGE, -EDGE),
        reach(format, EDGE, -3),
    ];
    for (at, &size) in SIZES.iter().enumerate() {
        let other = SIZES[(at * 5 + 3) % 17];
        let pairs = [(size, 10), (10, -size), (-size, size), (size, other)];
        let count = if format == Format::Jef { 3 } else { 1 };
        for &(w, h) in pairs.iter().cycle().skip(at).take(count) {
            scripts.push(reach(format, w, h));
        }
    }
    scripts
}

/// Jumps from (0, 0) to a place, as long as the format allows, and a stitch
/// back.
fn reach(format: Format, x: i32, y: i32) -> Vec<Move> {
    let limit = format.steps().1;
    let count = (x.abs().max(y.abs()) + limit - 1) / limit;
    let part = |whole: i32, at: i32| (whole * (at + 1) / count) - (whole * at / count);
    let mut script = vec![(STITCH, 0, 0)];
    script.extend((0..count).map(|at| (JUMP, part(x, at), part(y, at))));
    script.push((STITCH, -x.signum(), -y.signum()));
    script
}

/// A random script; half of its steps are boundary ones.
pub fn wander(format: Format, length: usize, random: &mut Random) -> Vec<Move> {
    const KINDS: [u8; 12] = [0, 0, 0, 0, 0, 0, 0, 1, 1, 1, 2, 3];
    let edges = edges(format);
    let (least, greatest) = format.steps();
    let (mut x, mut y) = (0, 0);
    let mut script = Vec::new();
    while script.len() < length {
        let mut step = || match random.below(6) {
            0..3 => random.pick(&edges),
            3 => 0,
            4 => random.between(-20, 20),
            _ => random.between(least, greatest),
        };
        let (dx, dy) = (step(), step());
        let kind = random.pick(&KINDS);
        if (x + dx).abs().max((y + dy).abs()) > EDGE {
            continue;
        }
        if kind < TRIM {
            (x, y) = (x + dx, y + dy);
        }
        script.push((kind, dx, dy));
    }
    script
}

/// Short lists with no thread, one, more than the blocks, and more than a
/// chart holds.
fn many_threads(random: &mut Random) -> Vec<List> {
    const COUNTS: [usize; 10] = [0, 1, 2, 5, 63, 64, 65, 80, 254, 255];
    let script = [(STITCH, 4, 4), (CHANGE, 0, 0), (STITCH, -9, 2)];
    let mut lists = Vec::new();
    for count in COUNTS {
        let mut made = list("threads", &script, random);
        made.threads = threads(count, random);
        lists.push(made);
    }
    let distinct = |at: usize| [at as u8, (at * 3) as u8, (at * 7) as u8];
    let mut made = list("distinct", &script, random);
    made.threads = (0..70).map(distinct).collect();
    lists.push(made);
    lists
}

/// As many colour changes as a list may have; fewer in PES, where the file
/// would be no different in kind and is long.
fn many_changes(format: Format, random: &mut Random) -> List {
    let count = if format == Format::Pes { 12 } else { CHANGES };
    let mut script = Vec::new();
    for at in 0..count {
        script.push((CHANGE, 0, 0));
        if at % 3 == 0 {
            script.push((STITCH, random.between(-9, 9), 1));
        }
    }
    list("changes", &script, random)
}
