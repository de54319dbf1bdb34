//! Lists to export as jobs, with faults and without: boundary ones, then those of `faulty_lists`
//! under names of about the length that may be.

use crate::inputs::faulty_lists::Boundary;
use crate::inputs::lists::{END, JUMP, List, STITCH, TRIM};
use crate::inputs::{hard_lists, jobs, random_jobs};
use crate::oracle::{Command, Format};
use crate::port::Lists;
use crate::random::Random;

/// One list of so many is a long one.
const SELDOM: usize = 1_000;

/// Places inside the range, past it, and far past it with low bits of one inside.
const FAR: [i32; 14] = [
    15_999,
    16_000,
    16_001,
    16_384,
    32_767,
    32_768,
    49_536,
    65_535,
    65_536,
    65_537,
    1 << 24,
    1 << 30,
    i32::MAX - 16_000,
    i32::MAX,
];

/// The boundary lists, short ones first; those of VP3 at the end have steps past the limits of all
/// other formats.
pub fn boundary(seed: u64) -> Vec<Lists> {
    let mut lists = names();
    lists.extend(slices());
    lists.extend(kinds());
    lists.extend(places());
    lists.extend(threads());
    for (at, list) in hard_lists::boundary(Format::Vp3, seed).iter().enumerate() {
        let name = long_name(at % 71);
        lists.push(Lists {
            name,
            ..Lists::of(list)
        });
    }
    lists.extend(counts());
    lists
}

/// Any list; half of them under a random name.
pub fn any(boundary: &Boundary, at: usize, random: &mut Random) -> Lists {
    let mut list = match at % SELDOM {
        0 => boundary.long(at / SELDOM, random).list,
        _ => boundary.next(at, random).list,
    };
    if random.below(2) == 0 {
        list.name = random_jobs::name(random);
    }
    list
}

fn lists(name: &[u8], cmds: &[Command], threads: usize) -> Lists {
    Lists::of(&List {
        name: name.to_vec(),
        cmds: cmds.to_vec(),
        threads: (0..threads).map(|at| [at as u8, 1, 255]).collect(),
    })
}

/// A list that is in order.
fn plain() -> Lists {
    let cmds = [
        (5, -3, JUMP),
        (-300, 700, STITCH),
        (-300, 700, TRIM),
        (16_000, -16_000, STITCH),
        (16_000, -16_000, END),
    ];
    lists(b"plain", &cmds, 2)
}

fn long_name(length: usize) -> Vec<u8> {
    (0..length).map(|at| (3 * at) as u8).collect()
}

/// Names of every length about 64 and of lengths with low bits of one that may be; of a list in
/// order, of none, and of one for each of 7 to 9.
fn names() -> Vec<Lists> {
    const LONG: [usize; 9] = [127, 128, 255, 256, 257, 320, 65_535, 65_536, 65_546];
    let outside = [(16_001, 0, STITCH), (16_001, 0, END)];
    let moved = [(0, 1, TRIM), (0, 1, END)];
    let mut found = Vec::new();
    for name in (0..=70).chain(LONG).map(long_name) {
        found.push(Lists {
            name: name.clone(),
            ..plain()
        });
        found.push(lists(&name, &[], 0));
        found.push(lists(&name, &outside, 0));
        found.push(lists(&name, &[(0, 0, END)], 256));
        found.push(lists(&name, &moved, 255));
    }
    found
}

/// Each slice, and all of them, of every length about that of the others.
fn slices() -> Vec<Lists> {
    let mut found = Vec::new();
    for length in 0..9 {
        for which in 1..8 {
            let mut list = plain();
            if which & 1 > 0 {
                list.xs.resize(length, 16_000);
            }
            if which & 2 > 0 {
                list.ys.resize(length, -16_000);
            }
            if which & 4 > 0 {
                list.kinds.resize(length, END);
            }
            found.push(list);
        }
    }
    found
}

/// Every kind at every command.
fn kinds() -> Vec<Lists> {
    let mut found = Vec::new();
    for at in 0..plain().kinds.len() {
        for kind in 0..=255 {
            let mut list = plain();
            list.kinds[at] = kind;
            found.push(list);
        }
    }
    found
}

/// Far places on both sides, on each axis of each command.
fn places() -> Vec<Lists> {
    let mut found = Vec::new();
    for place in FAR.into_iter().flat_map(|far| [far, -far, !far]) {
        for at in 0..plain().kinds.len() {
            let (mut x, mut y) = (plain(), plain());
            x.xs[at] = place;
            y.ys[at] = place;
            found.extend([x, y]);
        }
    }
    found
}

/// Thread bytes about a thread, about as many as may be, and far more.
fn threads() -> Vec<Lists> {
    const MANY: [usize; 8] = [
        1_535, 1_536, 65_535, 65_536, 65_538, 66_303, 196_608, 196_611,
    ];
    let lengths = (0..10).chain(759..775).chain(MANY);
    let list = |length: usize| Lists {
        threads: (0..length).map(|at| (5 * at) as u8).collect(),
        ..plain()
    };
    lengths.map(list).collect()
}

/// About so many commands as a field has, and as a list may have.
fn counts() -> Vec<Lists> {
    const COUNTS: [usize; 19] = [
        1, 2, 998, 999, 1_000, 1_001, 1_999, 2_000, 2_001, 3_000, 13_107, 13_108, 64_999, 65_000,
        65_534, 65_535, 65_536, 65_537, 131_072,
    ];
    let list = |count: usize| lists(&long_name(64), &jobs::stitches(count), count % 256);
    COUNTS.into_iter().map(list).collect()
}
