//! VP3 files whose block starts and places come to the ends of 32 signed bits: exactly,
//! and past them by one, on either side and on either axis.

use crate::inputs::vp3_parts::{Colour, Whole};
use crate::inputs::{vp3_damage, vp3_marks};
use crate::random::Random;

/// An axis and a side of it.
#[derive(Clone, Copy)]
pub struct Side {
    along_y: bool,
    negative: bool,
}

pub const SIDES: [Side; 4] = [
    Side::new(false, false),
    Side::new(false, true),
    Side::new(true, false),
    Side::new(true, true),
];

/// The longest shift of one block, and how many of them come near the limit.
const LONGEST: i32 = i32::MAX / 100;
const COUNT: usize = 100;

impl Side {
    const fn new(along_y: bool, negative: bool) -> Side {
        Side { along_y, negative }
    }

    /// How far it is to the limit behind so many longest shifts.
    fn rest(self) -> i32 {
        let most = if self.negative {
            1 << 31
        } else {
            (1 << 31) - 1
        };
        (most - LONGEST as i64 * COUNT as i64) as i32
    }

    /// The shift fields for a way out along the side, with a part of a place that does
    /// not count; the field of y is negated.
    fn shift(self, way: i32, part: i32) -> (i32, i32) {
        let field = 100 * way + part * way.signum();
        match (self.along_y, self.negative) {
            (false, false) => (field, 0),
            (false, true) => (-field, 0),
            (true, false) => (0, -field),
            (true, true) => (0, field),
        }
    }

    /// A step of so much out along the side, as a pair.
    fn pair(self, step: i8) -> [u8; 2] {
        let step = if self.negative { -step } else { step } as u8;
        if self.along_y { [0, step] } else { [step, 0] }
    }

    /// The same as a long stitch.
    fn long(self, step: i16) -> Vec<u8> {
        let [high, low] = if self.negative { -step } else { step }.to_be_bytes();
        match self.along_y {
            true => vec![0x80, 0x01, 0, 0, high, low],
            false => vec![0x80, 0x01, high, low, 0, 0],
        }
    }

    /// Blocks without stitches, the last of which leads so far past the limit, or not
    /// as far as it.
    fn way(self, past: i32) -> Vec<Colour> {
        let mut blocks = vec![Colour::of(&[], self.shift(LONGEST, 47)); COUNT];
        blocks.push(Colour::of(&[], self.shift(self.rest() + past, 99)));
        blocks
    }

    /// The same, and a block of these stitches that starts there.
    fn there(self, past: i32, stitches: &[u8]) -> Vec<Colour> {
        let mut blocks = self.way(past);
        blocks.push(Colour::of(stitches, (0, 0)));
        blocks
    }
}

/// The files of one side.
pub fn files(side: Side) -> Vec<Vec<u8>> {
    let mut found = vec![start(side, 0), start(side, 1), start(side, -1)];
    found.extend(last_block(side));
    found.extend(stitches(side));
    found.extend(behind_a_start(side));
    found
}

/// A block that starts so far past the limit and has a stitch on the spot.
pub fn start(side: Side, past: i32) -> Vec<u8> {
    Whole::of(side.there(past, &[0, 0])).bytes()
}

/// A random one.
pub fn any(random: &mut Random) -> Vec<u8> {
    let side = random.pick(&SIDES);
    let files = files(side);
    files[random.below(files.len())].clone()
}

/// The shift that passes the limit is that of the last block, by the blocks or by the
/// count; or by the count a block follows that is not there.
fn last_block(side: Side) -> Vec<Vec<u8>> {
    let mut last = Whole::of(side.way(1));
    let none_follows = last.bytes();
    last.count = Some(last.blocks.len() as u16 + 1);
    let one_missing = last.bytes();
    last.blocks.push(Colour::of(&[1, 1], (0, 0)));
    last.count = Some(last.blocks.len() as u16 - 1);
    vec![none_follows, one_missing, last.bytes()]
}

/// Stitches to the limit and past it, and one past it whose bytes run out.
fn stitches(side: Side) -> Vec<Vec<u8>> {
    let cut = &side.long(100)[..5];
    let rows: [(i32, Vec<u8>); 11] = [
        (0, side.pair(1).to_vec()),
        (0, side.pair(-1).to_vec()),
        (-1, side.pair(1).to_vec()),
        (-1, side.pair(2).to_vec()),
        (-127, side.pair(127).to_vec()),
        (0, side.long(1)),
        (-32_767, side.long(32_767)),
        (-32_766, side.long(32_767)),
        (0, cut.to_vec()),
        (
            -1,
            [&side.pair(-5), &side.pair(6)[..], &side.pair(-1)].concat(),
        ),
        (
            -1,
            [
                &[0x80, 0x03],
                &side.pair(1)[..],
                &[0x80, 0x03],
                &side.pair(1),
            ]
            .concat(),
        ),
    ];
    let file = |(past, stitches): &(i32, Vec<u8>)| Whole::of(side.there(*past, stitches)).bytes();
    rows.iter().map(file).collect()
}

/// What comes behind a start or a place past the limit, and would be 4: its part ends
/// within the shift y or behind it, or by the count a block is missing.
fn behind_a_start(side: Side) -> Vec<Vec<u8>> {
    let mut found = Vec::new();
    for past in [0, 1] {
        let file = start(side, past);
        let colours = vp3_marks::of(&file).expect("a whole file").colours;
        let part = &colours[COUNT];
        for kept in [0, 3, 4, 6, 7, 8, 11] {
            let lost = part.start + SHIFT + kept..part.end;
            found.push(vp3_damage::without(&file, lost));
        }
        let mut missing = Whole::of(side.there(past - 1, &side.pair(1)));
        missing.count = Some(missing.blocks.len() as u16 + 1);
        found.push(missing.bytes());
    }
    found
}

/// Where the shift stands in a colour part without texts.
const SHIFT: usize = 8 + 2 + 3 + 3 + 2 + 3 * 2;
