//! Document 01's refusals of a list, stated plainly and apart from the port and
//! from the published Rust, which has none of them: each over the whole list.

use crate::inputs::faulty_lists::Asked;
use crate::oracle::Format;
use crate::port::Lists;

const LONGEST: usize = 65_535;
const FURTHEST: i64 = 16_000;
const CHANGES: usize = 254;
const THREADS: usize = 255;

const TRIM: u8 = 2;
const CHANGE: u8 = 3;
const END: u8 = 4;

/// The extension's format.
pub fn format(ext: &[u8]) -> Option<Format> {
    let small = ext.to_ascii_lowercase();
    match &small[..] {
        b"pes" => Some(Format::Pes),
        b"pec" => Some(Format::Pec),
        b"dst" => Some(Format::Dst),
        b"exp" => Some(Format::Exp),
        b"jef" => Some(Format::Jef),
        b"vp3" => Some(Format::Vp3),
        _ => None,
    }
}

/// The first number whose condition holds; 0 if the list is accepted.
pub fn of(asked: &Asked) -> u8 {
    let list = &asked.list;
    let Some(format) = format(&asked.ext) else {
        return 1;
    };
    match of_list(list) {
        0 if steps_too_far(format, list) => 10,
        number => number,
    }
}

/// The same of those that go by no format: 6 to 9.
pub fn of_list(list: &Lists) -> u8 {
    let conditions = [
        (6, is_no_list(list)),
        (7, leads_outside(list)),
        (8, has_too_many(list)),
        (9, moves_standing(list)),
    ];
    let first = conditions.into_iter().find(|&(_, holds)| holds);
    first.map_or(0, |(number, _)| number)
}

/// Empty, too long, slices of unequal length, a kind over 4, or the end missing,
/// early or repeated.
fn is_no_list(list: &Lists) -> bool {
    let count = list.kinds.len();
    let equal = list.xs.len() == count && list.ys.len() == count;
    let known = list.kinds.iter().all(|&kind| kind <= END);
    let ends = list.kinds.iter().filter(|&&kind| kind == END).count();
    let ended = list.kinds.last() == Some(&END) && ends == 1;
    !(equal && (1..=LONGEST).contains(&count) && known && ended)
}

fn leads_outside(list: &Lists) -> bool {
    let outside = |&place: &i32| i64::from(place).abs() > FURTHEST;
    list.xs.iter().chain(&list.ys).any(outside)
}

fn has_too_many(list: &Lists) -> bool {
    let changes = list.kinds.iter().filter(|&&kind| kind == CHANGE).count();
    let bytes = list.threads.len();
    changes > CHANGES || bytes > 3 * THREADS || !bytes.is_multiple_of(3)
}

/// A trim, colour change or end that is not where the command before was.
fn moves_standing(list: &Lists) -> bool {
    let stands = |kind: u8| [TRIM, CHANGE, END].contains(&kind);
    let moved = |(&kind, step): (&u8, (i64, i64))| stands(kind) && step != (0, 0);
    list.kinds.iter().zip(steps(list)).any(moved)
}

/// VP3 has no limit beyond the range of places.
fn steps_too_far(format: Format, list: &Lists) -> bool {
    let fits = |step: i64| match format {
        Format::Dst => (-121..=121).contains(&step),
        Format::Exp | Format::Jef => (-127..=127).contains(&step),
        Format::Pes | Format::Pec => (-2_048..=2_047).contains(&step),
        Format::Vp3 => true,
    };
    steps(list).any(|(x, y)| !fits(x) || !fits(y))
}

/// The changes of place, the first from (0, 0).
fn steps(list: &Lists) -> impl Iterator<Item = (i64, i64)> {
    let places = list.xs.iter().zip(&list.ys);
    let places = places.map(|(&x, &y)| (i64::from(x), i64::from(y)));
    let before = std::iter::once((0, 0)).chain(places.clone());
    places.zip(before).map(|((x, y), (a, b))| (x - a, y - b))
}
