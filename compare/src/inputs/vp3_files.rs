//! VP3 files to read: every kind of boundary file one by one, and random ones, whole and
//! odd.

use crate::inputs::lists::{CHANGE, JUMP, Move, STITCH, TRIM};
use crate::inputs::vp3_parts::{BLOCK, Colour, HEAD, OPENING, Whole};
use crate::inputs::{files, lists, records, vp3_damage, vp3_limits};
use crate::oracle::{self, Format};
use crate::random::Random;

/// Bytes that matter to the stitches of VP3.
pub const BYTES: [u8; 16] = [
    0x00, 0x01, 0x01, 0x02, 0x03, 0x03, 0x04, 0x7F, 0x80, 0x80, 0x80, 0x80, 0x80, 0x81, 0xFE, 0xFF,
];

/// The longest shift fields, and those about which the division by 100 changes.
const SHIFTS: [i32; 20] = [
    0,
    1,
    -1,
    99,
    -99,
    100,
    -100,
    101,
    -101,
    199,
    -199,
    200,
    -200,
    1_600_000,
    -1_600_000,
    i32::MAX,
    i32::MIN,
    i32::MAX - 47,
    i32::MIN + 48,
    65_536,
];

/// The boundary files; most are short.
pub fn boundary() -> Vec<Vec<u8>> {
    let small = small().bytes();
    let mut found = openings();
    found.extend(vp3_damage::cuts(&small));
    found.extend(vp3_damage::short_parts(&small));
    found.extend(vp3_damage::two_faults(&small));
    found.extend(controls(1));
    found.extend(stitch_ends());
    found.extend(left_over());
    found.extend(steps());
    found.extend(shifts());
    found.extend(many_blocks());
    for file in written().into_iter().chain([small]) {
        found.extend(vp3_damage::lengths(&file));
        found.extend(vp3_damage::counts(&file));
        found.push(file);
    }
    found.extend(vp3_limits::SIDES.into_iter().flat_map(vp3_limits::files));
    found
}

/// Fewer of them, for the list of reads.
pub fn stored() -> Vec<Vec<u8>> {
    let small = small().bytes();
    let mut found = openings();
    found.extend(vp3_damage::cuts(&small));
    found.extend(vp3_damage::short_parts(&small).into_iter().step_by(3));
    found.extend(vp3_damage::two_faults(&small));
    found.extend(vp3_damage::lengths(&small));
    found.extend(vp3_damage::counts(&small));
    found.extend(controls(16));
    found.extend(stitch_ends());
    found.extend(left_over());
    found.extend(steps());
    found.extend(shifts());
    found.extend(written());
    for side in vp3_limits::SIDES {
        found.extend([0, 1].map(|past| vp3_limits::start(side, past)));
    }
    found.push(small);
    found
}

/// A short file with something in every part.
fn small() -> Whole {
    let first = Colour {
        texts: [b"a".to_vec(), b"#12".to_vec(), Vec::new()],
        left_over: vec![0],
        ..Colour::of(&[1, 2, 0x80, 0x03, 3, 0xFC], (250, -399))
    };
    let second = Colour {
        thread: [0xFE, 0x80, 0x7F],
        texts: [Vec::new(), Vec::new(), b"b".to_vec()],
        left_over: vec![1, 1],
        ..Colour::of(
            &[5, 6, 0x80, 0x01, 1, 0, 0xFF, 0, 0x80, 0x02, 7, 0x80, 9],
            (-100, 7),
        )
    };
    Whole {
        texts: [b"ab".to_vec(), b"c".to_vec(), Vec::new(), b"d".to_vec()],
        blocks: vec![first, second],
        left_over: [vec![0; 3], vec![1; 2], vec![0x80; 1]],
        count: None,
        fill: 0xA5,
    }
}

/// Fronts of the opening, and openings with one byte wrong.
fn openings() -> Vec<Vec<u8>> {
    let mut found: Vec<Vec<u8>> = (0..=OPENING.len())
        .map(|end| OPENING[..end].to_vec())
        .collect();
    for at in 0..OPENING.len() {
        for bit in [0x01, 0x20, 0x80] {
            let mut bytes = small().bytes();
            bytes[at] ^= bit;
            found.push(bytes);
        }
    }
    found.push(Whole::default().bytes());
    found
}

/// A file of one block.
fn one(stitches: &[u8]) -> Vec<u8> {
    Whole::of(vec![Colour::of(stitches, (0, 0))]).bytes()
}

/// Every pair that opens with 80, so many to a file: with stitches before and behind
/// it, and last.
fn controls(each: usize) -> Vec<Vec<u8>> {
    let all: Vec<u8> = (0..=255).collect();
    let pair = |&control: &u8| [1, 2, 0x80, control, 3, 0xFC, 5, 6, 7, 8];
    let mut found = Vec::new();
    for some in all.chunks(each) {
        let stitches: Vec<u8> = some.iter().flat_map(pair).collect();
        found.push(one(&stitches));
        let last = some[some.len() - 1];
        found.push(one(&[&stitches[..], &[0x80, last]].concat()));
    }
    found
}

/// Stitch bytes that run out at every place, ends of runs in all places, and blocks that
/// only end; a block follows, and bytes left over that are no stitch bytes.
fn stitch_ends() -> Vec<Vec<u8>> {
    const END: [u8; 2] = [0x80, 0x03];
    let long = [0x80, 0x01, 0x12, 0x34, 0x80, 0x03];
    let mut rows: Vec<Vec<u8>> = (0..=long.len()).map(|end| long[..end].to_vec()).collect();
    rows.extend((1..long.len()).map(|end| [&[1, 2], &long[..end]].concat()));
    rows.extend((1..=long.len()).map(|end| [&long[..], &long[..end]].concat()));
    rows.extend([vec![5], vec![5, 6, 7], vec![0x80], vec![5, 6, 0x80]]);
    rows.push(END.repeat(3));
    rows.push([&END[..], &[1, 1], &END, &END, &[0, 0], &END].concat());
    rows.push([&[1, 1][..], &END, &[2, 2, 0x80, 0x02, 3, 3], &END, &[4]].concat());
    let file = |row: &Vec<u8>| {
        let mut first = Colour::of(row, (700, 300));
        first.left_over = vec![0x80, 0x03, 1, 1, 1, 1];
        Whole::of(vec![first, Colour::of(&[1, 2], (0, 0))]).bytes()
    };
    rows.iter().map(file).collect()
}

/// Bytes left over in each part, and long texts.
fn left_over() -> Vec<Vec<u8>> {
    let mut found = Vec::new();
    for (place, length) in (0..4).flat_map(|place| [1, 4, 60].map(|length| (place, length))) {
        let mut whole = small();
        let bytes = vec![0x01; length];
        match place {
            3 => whole.blocks[0].left_over = bytes,
            _ => whole.left_over[place] = bytes,
        }
        found.push(whole.bytes());
    }
    for text in 0..7 {
        let mut whole = small();
        let long = vec![0x80; [255, 256, 300][text % 3]];
        match text {
            0..4 => whole.texts[text] = long,
            _ => whole.blocks[1].texts[text - 4] = long,
        }
        found.push(whole.bytes());
    }
    found
}

/// Every pair of boundary steps, short and long.
fn steps() -> Vec<Vec<u8>> {
    const SHORT: [u8; 7] = [0x00, 0x01, 0x03, 0x7F, 0x80, 0x81, 0xFF];
    const LONG: [i16; 9] = [0, 1, -1, 127, 128, -128, 256, i16::MAX, i16::MIN];
    let mut found = Vec::new();
    for x in SHORT {
        let pairs: Vec<u8> = SHORT.iter().flat_map(|&y| [x, y]).collect();
        found.push(one(&pairs));
    }
    for x in LONG {
        let step = |y: &i16| {
            let ([a, b], [c, d]) = (x.to_be_bytes(), y.to_be_bytes());
            [0x80, 0x01, a, b, c, d]
        };
        found.push(one(&LONG.iter().flat_map(step).collect::<Vec<u8>>()));
    }
    found
}

/// Shifts of all kinds on both axes, and a block behind them.
fn shifts() -> Vec<Vec<u8>> {
    let mut found = Vec::new();
    for (at, &x) in SHIFTS.iter().enumerate() {
        let y = SHIFTS[(7 * at + 3) % SHIFTS.len()];
        let stitches = [1, 0, 0, 1];
        let blocks = [(x, 0), (0, y), (x, y), (0, 0)].map(|shift| Colour::of(&stitches, shift));
        found.push(Whole::of(blocks.into()).bytes());
    }
    found
}

/// Blocks with and without stitches, more than 255 too.
fn many_blocks() -> Vec<Vec<u8>> {
    let mut found = Vec::new();
    for (count, every) in [
        (1, 2),
        (3, 2),
        (6, 3),
        (16, 5),
        (255, 100),
        (257, 256),
        (300, 7),
    ] {
        let block = |at: usize| {
            let stitches = if at % every == every - 1 {
                &[1, 1][..]
            } else {
                &[]
            };
            let mut block = Colour::of(stitches, (100 * at as i32, -50));
            block.thread = [at as u8, (at / 256) as u8, 0xFF - at as u8];
            block
        };
        found.push(Whole::of((0..count).map(block).collect()).bytes());
    }
    found
}

/// Files written by the published Rust.
fn written() -> Vec<Vec<u8>> {
    const SCRIPTS: [&[Move]; 4] = [
        &[],
        &[(STITCH, 5, 6), (TRIM, 0, 0), (STITCH, 200, -3)],
        &[
            (CHANGE, 0, 0),
            (STITCH, -5, 6),
            (CHANGE, 0, 0),
            (CHANGE, 0, 0),
        ],
        &[
            (JUMP, 9, 9),
            (STITCH, 1, -7),
            (CHANGE, 0, 0),
            (JUMP, -300, 5),
            (STITCH, 0, 0),
        ],
    ];
    let threads = [[1, 2, 3], [255, 128, 0]];
    let write =
        |script: &&[Move]| oracle::write(Format::Vp3, b"", &lists::commands(script), &threads);
    SCRIPTS.iter().map(write).collect()
}

/// A whole file of these stitch bytes, in one block or in up to four.
pub fn plain(body: &[u8], random: &mut Random) -> Vec<u8> {
    whole(body, random).bytes()
}

fn whole(mut body: &[u8], random: &mut Random) -> Whole {
    let mut file = Whole {
        fill: random.byte(),
        ..Whole::default()
    };
    file.texts = [(); 4].map(|()| some_bytes(5, random));
    file.left_over = [(); 3].map(|()| some_bytes(5, random));
    for more in (0..random.below(4)).rev() {
        let end = if more == 0 {
            body.len()
        } else {
            random.below(body.len() + 1)
        };
        let (stitches, rest) = body.split_at(end);
        file.blocks.push(block(stitches, random));
        body = rest;
    }
    if !body.is_empty() {
        file.blocks.push(block(body, random));
    }
    file
}

fn block(stitches: &[u8], random: &mut Random) -> Colour {
    let mut shift = || match random.below(3) {
        0 => random.pick(&SHIFTS),
        1 => 100 * random.between(-500, 500),
        _ => random.draw() as i32,
    };
    let shift = (shift(), shift());
    Colour {
        thread: [random.byte(), random.byte(), random.byte()],
        texts: [(); 3].map(|()| some_bytes(5, random)),
        left_over: some_bytes(4, random),
        ..Colour::of(stitches, shift)
    }
}

/// As a rule none.
fn some_bytes(most: usize, random: &mut Random) -> Vec<u8> {
    match random.below(3) {
        0 => files::body(random.below(most + 1), &BYTES, random),
        _ => Vec::new(),
    }
}

/// A file with something wrong in its parts, or just not wrong.
pub fn odd(random: &mut Random) -> Vec<u8> {
    let length = random.below(60);
    let body = records::mixed(Format::Vp3, length, random);
    let mut whole = whole(&body, random);
    match random.below(12) {
        0 | 1 => return vp3_limits::any(random),
        2 | 3 => return vp3_damage::any_count(&whole.bytes(), random),
        4 => whole.blocks.extend(empty_blocks(random)),
        5 => whole.left_over[random.below(3)] = files::body(40, &BYTES, random),
        6 | 7 => return vp3_damage::any_short_part(&whole.bytes(), random),
        8 => return two_faults(&whole, random),
        _ => return vp3_damage::any_length(&whole.bytes(), random),
    }
    whole.bytes()
}

fn two_faults(whole: &Whole, random: &mut Random) -> Vec<u8> {
    let copies = vp3_damage::two_faults(&whole.bytes());
    copies[random.below(copies.len())].clone()
}

/// Up to 300 blocks without stitches, and one with some.
fn empty_blocks(random: &mut Random) -> Vec<Colour> {
    let count = random.pick(&[1, 2, 7, 8, 9, 40, 254, 255, 256, 300]);
    let mut blocks = vec![Colour::of(&[], (100, 200)); count];
    blocks.push(block(&[1, 1, 2, 2], random));
    blocks
}

/// A whole file of just so many bytes: of one block, of some, or of as many as there can
/// be.
pub fn long(length: usize, random: &mut Random) -> Vec<u8> {
    let each = random.pick(&[0, 2, 30, 5_000, length]);
    let mut left = length - HEAD - BLOCK;
    let mut blocks = Vec::new();
    while left >= each + BLOCK {
        let mut shift = || random.between(-99_999, 99_999);
        let shift = (shift(), shift());
        blocks.push(Colour::of(&stitches(each, random), shift));
        left -= each + BLOCK;
    }
    blocks.push(Colour::of(&stitches(left, random), (0, 0)));
    Whole::of(blocks).bytes()
}

/// A file of so many bytes that is wrong far behind its start: more blocks by the count
/// than there are, a length that is too large, or stitches that lead past 32 bits.
pub fn odd_long(length: usize, random: &mut Random) -> Vec<u8> {
    let file = long(length, random);
    match random.below(3) {
        0 => vp3_damage::any_count(&file, random),
        1 => vp3_damage::any_length(&file, random),
        _ => {
            let step = random.pick(&[[0x7F, 0xFF, 0, 0], [0x80, 0, 0, 0], [0, 0, 0x7F, 0xFF]]);
            let stitch = [&[0x80, 0x01], &step[..]].concat();
            one(&stitch.repeat((length - HEAD - BLOCK) / stitch.len()))
        }
    }
}

/// Stitch bytes of just this length.
fn stitches(length: usize, random: &mut Random) -> Vec<u8> {
    let mut bytes = records::mixed(Format::Vp3, length, random);
    bytes.truncate(length);
    bytes
}
