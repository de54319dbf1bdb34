//! Faults put into lists, and what is just none: at the first command, at the
//! last and anywhere.

use crate::inputs::faulty_lists::Asked;
use crate::inputs::files::EXTS;
use crate::inputs::lists::{CHANGE, EDGE, END, JUMP, STITCH, TRIM};
use crate::oracle::Format;
use crate::port::Lists;
use crate::random::Random;

type Fault = fn(&mut Asked, Format, &mut Random);

/// Those that come late in the order of refusals, and that a list can have in
/// many places, come more often.
const FAULTS: [Fault; 26] = [
    unknown, unequal, emptied, kind, kind, unended, early, twice, far, far, far, changes, changes,
    threads, threads, moved, moved, moved, moved, stepped, stepped, stepped, stepped, stepped,
    stepped, stepped,
];

/// Puts in one fault.
pub fn put(asked: &mut Asked, format: Format, random: &mut Random) {
    let fault = random.pick(&FAULTS);
    fault(asked, format, random);
}

/// How many commands the shortest slice has.
fn count(list: &Lists) -> usize {
    list.xs.len().min(list.ys.len()).min(list.kinds.len())
}

/// A command: the first, the last, the one before, one beside a multiple of
/// eight, or any.
fn place(list: &Lists, random: &mut Random) -> Option<usize> {
    let last = count(list).checked_sub(1)?;
    Some(match random.below(8) {
        0 => 0,
        1 => last,
        2 => last.saturating_sub(1),
        3 => (8 * random.below(last / 8 + 1)).saturating_sub(random.below(2)),
        _ => random.below(last + 1),
    })
}

/// Another extension, most of them near the format's own.
fn unknown(asked: &mut Asked, _: Format, random: &mut Random) {
    let ext = &mut asked.ext;
    match random.below(5) {
        0 => ext.push(random.pick(b"s \0")),
        1 => {
            ext.pop();
        }
        2 if !ext.is_empty() => {
            let at = random.below(ext.len());
            ext[at] ^= 1 << random.below(8);
        }
        3 => ext.resize(random.pick(&[6, 8, 35, 259]), b'c'),
        _ => *ext = random.pick(&EXTS).to_vec(),
    }
}

/// One slice shorter or longer than the others.
fn unequal(asked: &mut Asked, _: Format, random: &mut Random) {
    fn change<T: Copy + Default>(cells: &mut Vec<T>, random: &mut Random) {
        let last = cells.last().copied().unwrap_or_default();
        let by = random.pick(&[1, 1, 1, 2, 7, 8, 16]);
        match random.below(2) {
            0 => cells.truncate(cells.len().saturating_sub(by)),
            _ => cells.resize(cells.len() + by, last),
        }
    }
    let list = &mut asked.list;
    match random.below(3) {
        0 => change(&mut list.xs, random),
        1 => change(&mut list.ys, random),
        _ => change(&mut list.kinds, random),
    }
}

/// No commands, or one slice of none; else the front of the list.
fn emptied(asked: &mut Asked, _: Format, random: &mut Random) {
    let list = &mut asked.list;
    let length = match random.below(2) {
        0 => 0,
        _ => random.below(count(list) + 1),
    };
    let which = random.pick(&[7, 7, 7, 1, 2, 4]);
    if which & 1 > 0 {
        list.xs.truncate(length);
    }
    if which & 2 > 0 {
        list.ys.truncate(length);
    }
    if which & 4 > 0 {
        list.kinds.truncate(length);
    }
}

/// A kind over 4, some of which look like others in their low bits.
fn kind(asked: &mut Asked, _: Format, random: &mut Random) {
    let Some(at) = place(&asked.list, random) else {
        return;
    };
    let any = random.byte().max(5);
    asked.list.kinds[at] = random.pick(&[5, 5, 6, 7, 8, 12, 0x24, 0x80, 0x83, 0x84, 0xFF, any]);
}

fn unended(asked: &mut Asked, _: Format, random: &mut Random) {
    let list = &mut asked.list;
    match (random.below(2), list.kinds.last_mut()) {
        (0, Some(last)) => *last = random.pick(&[STITCH, JUMP, TRIM, CHANGE]),
        _ => {
            list.xs.pop();
            list.ys.pop();
            list.kinds.pop();
        }
    }
}

fn early(asked: &mut Asked, _: Format, random: &mut Random) {
    if let Some(at) = place(&asked.list, random) {
        asked.list.kinds[at] = END;
    }
}

fn twice(asked: &mut Asked, _: Format, _: &mut Random) {
    let list = &mut asked.list;
    list.xs.push(list.xs.last().copied().unwrap_or(0));
    list.ys.push(list.ys.last().copied().unwrap_or(0));
    list.kinds.push(END);
}

/// A place outside, or at the edge.
fn far(asked: &mut Asked, _: Format, random: &mut Random) {
    const FAR: [i32; 16] = [
        EDGE,
        EDGE + 1,
        EDGE + 1,
        EDGE + 1,
        EDGE + 2,
        16_384,
        32_767,
        32_768,
        49_536,
        65_535,
        65_536,
        65_537,
        1 << 24,
        1 << 30,
        i32::MAX - 16_000,
        i32::MAX,
    ];
    let Some(at) = place(&asked.list, random) else {
        return;
    };
    let far = random.pick(&FAR);
    let far = random.pick(&[far, -far, !far]);
    match random.below(2) {
        0 => asked.list.xs[at] = far,
        _ => asked.list.ys[at] = far,
    }
}

/// About as many colour changes as a list may have, in one place.
fn changes(asked: &mut Asked, _: Format, random: &mut Random) {
    let Some(at) = place(&asked.list, random) else {
        return;
    };
    let list = &mut asked.list;
    let there = list.kinds.iter().filter(|&&kind| kind == CHANGE).count();
    let wanted: usize = random.pick(&[254, 255, 255, 256, 257, 300]);
    let more = wanted.saturating_sub(there);
    let (x, y) = match at.checked_sub(1) {
        Some(before) => (list.xs[before], list.ys[before]),
        None => (0, 0),
    };
    list.xs.splice(at..at, vec![x; more]);
    list.ys.splice(at..at, vec![y; more]);
    list.kinds.splice(at..at, vec![CHANGE; more]);
}

/// About as many threads as a list may have, or a part of one.
fn threads(asked: &mut Asked, _: Format, random: &mut Random) {
    let bytes = &mut asked.list.threads;
    let length = match random.below(8) {
        0 => bytes.len() + 1,
        1 => bytes.len() + 2,
        2 => bytes.len().saturating_sub(1),
        3 => random.pick(&[1, 2, 65_535, 65_536, 3 * 65_536, 3 * 65_537]),
        _ => random.pick(&[762, 763, 764, 765, 766, 767, 768, 768, 769, 771, 1_536]),
    };
    while bytes.len() < length.min(800) {
        bytes.push(random.byte());
    }
    bytes.resize(length, 7);
}

/// A trim, colour change or end that moves, alone or with all that follows.
fn moved(asked: &mut Asked, _: Format, random: &mut Random) {
    let Some(mut at) = place(&asked.list, random) else {
        return;
    };
    let list = &mut asked.list;
    match list.kinds[at] {
        kind if kind >= TRIM => {}
        _ if random.below(2) == 0 => list.kinds[at] = random.pick(&[TRIM, CHANGE]),
        _ => at = count(list) - 1,
    }
    let step = random.pick(&[1, -1, 1, -1, 2, 16, 100, 256]);
    shift(asked, at, step, random);
}

/// A step at the format's limit, one past it or far past it.
fn stepped(asked: &mut Asked, format: Format, random: &mut Random) {
    let Some(at) = place(&asked.list, random) else {
        return;
    };
    let (least, greatest) = format.steps();
    let step = match random.below(9) {
        0 => least,
        1 => greatest,
        2 => random.pick(&[255, 256, 512, 4_095, 4_096, 8_192]),
        3 => -random.pick(&[255, 256, 512, 4_095, 4_096, 8_192]),
        4..7 => least - 1,
        _ => greatest + 1,
    };
    let list = &mut asked.list;
    if random.below(4) > 0 && at + 1 < count(list) && list.kinds[at] >= TRIM {
        list.kinds[at] = random.pick(&[STITCH, JUMP]);
    }
    // The step as it is now is taken off on both axes.
    let before = at.checked_sub(1);
    let here = |cells: &[i32]| before.map_or(0, |before| cells[before]);
    let (x, y) = (here(&list.xs), here(&list.ys));
    let off = (list.xs[at].saturating_sub(x), list.ys[at].saturating_sub(y));
    add(&mut list.xs[at..], off.0.saturating_neg());
    add(&mut list.ys[at..], off.1.saturating_neg());
    shift(asked, at, step, random);
}

/// Moves a command on one axis, as a rule with all that follows.
fn shift(asked: &mut Asked, at: usize, by: i32, random: &mut Random) {
    let end = match random.below(3) {
        0 => at + 1,
        _ => count(&asked.list),
    };
    let list = &mut asked.list;
    match random.below(2) {
        0 => add(&mut list.xs[at..end], by),
        _ => add(&mut list.ys[at..end], by),
    }
}

fn add(cells: &mut [i32], by: i32) {
    for cell in cells {
        *cell = cell.saturating_add(by);
    }
}
