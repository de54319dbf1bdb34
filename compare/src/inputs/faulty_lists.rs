//! As many lists to write as are wanted, with faults and without: the boundary lists,
//! random ones, and lists with faults put in; most are short.

use crate::inputs::lists::{self, CHANGE, EDGE, JUMP, List, Move, STITCH, TRIM};
use crate::inputs::{boundary_lists, distance_lists, faults, files, hard_lists, thumbnail_designs};
use crate::oracle::Format;
use crate::port::Lists;
use crate::random::Random;

/// What a write is asked, fit or not.
#[derive(Clone)]
pub struct Asked {
    pub ext: Vec<u8>,
    pub list: Lists,
}

/// About as many commands as a list may have.
const COUNTS: [usize; 7] = [65_536, 65_535, 65_534, 65_537, 131_072, 65_535, 70_000];

/// More commands than a list may have.
const TOO_MANY: [usize; 4] = [65_536, 65_537, 70_000, 131_072];

/// One turn of so many has such a list.
const SELDOM: usize = 1_000;

/// The boundary lists of each format, the refused ones of far threads, and the long ones.
pub struct Boundary {
    lists: Vec<Vec<List>>,
    refused: Vec<Vec<Asked>>,
    long: Vec<Vec<List>>,
}

impl Boundary {
    pub fn new(seed: u64) -> Boundary {
        Boundary {
            lists: Format::ALL
                .map(|format| hard_lists::boundary(format, seed))
                .into(),
            refused: Format::ALL.map(distance_lists::refused).into(),
            long: Format::ALL
                .map(|format| boundary_lists::long(format, seed))
                .into(),
        }
    }

    /// The next to ask, the formats by turns: of each format in turn a list
    /// without faults, boundary ones first, and one with faults, those of far
    /// threads first; now and then a dense design or a list of too many commands
    /// instead of the latter.
    pub fn next(&self, at: usize, random: &mut Random) -> Asked {
        let (which, turn) = (at % Format::ALL.len(), at / Format::ALL.len());
        let (format, lists) = (Format::ALL[which], &self.lists[which]);
        if turn % 2 == 1
            && let Some(refused) = self.refused[which].get(turn / 2)
        {
            return refused.clone();
        }
        if turn % SELDOM == SELDOM - 1 {
            let list = base(format, lists, random);
            return too_many(asked(format, &list, random), which, turn / SELDOM);
        }
        if turn % 64 == 63 && matches!(format, Format::Pes | Format::Pec) {
            let script = thumbnail_designs::dense(format, random);
            return asked(format, &lists::list("dense", &script, random), random);
        }
        if turn % 2 == 1 {
            let list = base(format, lists, random);
            return faulty(format, &list, random);
        }
        match lists.get(turn / 2) {
            Some(list) => asked(format, list, random),
            None => asked(format, &hard_lists::any(format, random), random),
        }
    }

    /// A long list without faults or with some, or one about as long as may be.
    pub fn long(&self, at: usize, random: &mut Random) -> Asked {
        let (which, turn) = (at % Format::ALL.len(), at / Format::ALL.len());
        let (format, lists) = (Format::ALL[which], &self.long[which]);
        let list = &lists[random.below(lists.len())];
        match (which + turn) % 4 {
            1 => faulty(format, list, random),
            3 => asked(format, list, random),
            _ => {
                let mut asked = asked(format, list, random);
                stretch(&mut asked.list, COUNTS[at / 2 % COUNTS.len()]);
                if turn % 3 == 1 {
                    faults::put(&mut asked, format, random);
                }
                asked
            }
        }
    }
}

/// A list of too many commands: each count in each format by turns, now and then
/// under an extension that is none. Some have an end besides, so that they are in
/// order if only the low bits of their count are taken, or only so many commands
/// as may be.
fn too_many(mut asked: Asked, which: usize, turn: usize) -> Asked {
    let count = TOO_MANY[turn % TOO_MANY.len()];
    stretch(&mut asked.list, count);
    let front = [count, count % 65_536, 65_535][(which + turn) % 3];
    if front > 0 {
        asked.list.kinds[front - 1] = lists::END;
    }
    if (which + turn) % 5 == 4 {
        asked.ext.push(b's');
    }
    asked
}

/// Up to three faults in a list.
fn faulty(format: Format, list: &List, random: &mut Random) -> Asked {
    let mut asked = asked(format, list, random);
    for _ in 0..random.pick(&[1, 1, 1, 2, 2, 3]) {
        faults::put(&mut asked, format, random);
    }
    asked
}

/// A list as it is handed over, its extension in letters of either case, some
/// names of any bytes.
fn asked(format: Format, list: &List, random: &mut Random) -> Asked {
    let ext = match random.below(6) {
        0 => files::any_case(format, random),
        _ => format.ext().as_bytes().to_vec(),
    };
    let mut list = Lists::of(list);
    match random.below(200) {
        0 => list.name = bytes(random.pick(&[300, 5_000]), random),
        1..10 => list.name = bytes(random.below(40), random),
        _ => {}
    }
    Asked { ext, list }
}

fn bytes(length: usize, random: &mut Random) -> Vec<u8> {
    (0..length).map(|_| random.byte()).collect()
}

/// A list to put faults into, most of 1 to 41 commands.
fn base(format: Format, boundary: &[List], random: &mut Random) -> List {
    let length = random.below(41);
    let script = match random.below(60) {
        0 => return boundary[random.below(boundary.len())].clone(),
        1 => edge(format, random),
        2 => lists::wander(format, 8 * length, random),
        3 => vec![random.pick(&[(JUMP, 1, 0), (TRIM, 0, 0), (CHANGE, 0, 0)]); length],
        4..20 => plain(length, random),
        _ => lists::wander(format, length, random),
    };
    let mut list = lists::list("", &script, random);
    list.name = hard_lists::name(random);
    if random.below(8) == 0 {
        list.threads = distance_lists::any(random);
    }
    list
}

/// Stitches of short steps.
fn plain(length: usize, random: &mut Random) -> Vec<Move> {
    let mut step = || random.between(-20, 20);
    (0..length).map(|_| (STITCH, step(), step())).collect()
}

/// To the edge or a step past it, by steps that the format allows.
fn edge(format: Format, random: &mut Random) -> Vec<Move> {
    let side = random.pick(&[EDGE, -EDGE]);
    let other = random.between(-EDGE, EDGE);
    let (there, out) = match random.below(2) {
        0 => ((side, other), (side.signum(), 0)),
        _ => ((other, side), (0, side.signum())),
    };
    let mut script = boundary_lists::way(format, (0, 0), there);
    let kind = random.pick(&[STITCH, JUMP]);
    if random.below(3) > 0 {
        script.push((kind, out.0, out.1));
    }
    if random.below(2) > 0 {
        script.push((kind, -out.0, -out.1));
    }
    script
}

/// Gives a list so many commands: stitches on the spot before its end, or only
/// its front and an end.
fn stretch(list: &mut Lists, length: usize) {
    for cells in [&mut list.xs, &mut list.ys] {
        cells.truncate(length - 1);
        cells.resize(length, cells.last().copied().unwrap_or(0));
    }
    list.kinds.pop();
    list.kinds.resize(length - 1, STITCH);
    list.kinds.push(lists::END);
}
