//! Lists to write, hard ones: the boundary lists of the list of writes first, then
//! those for the distance of threads and more boundary lists; and random ones with
//! random names, without end.

use crate::inputs::lists::{self, List};
use crate::inputs::{boundary_lists, distance_lists, thumbnail_designs};
use crate::oracle::Format;
use crate::random::Random;

/// The boundary lists of one format.
pub fn boundary(format: Format, seed: u64) -> Vec<List> {
    let mut found = lists::every(format, seed);
    found.extend(distance_lists::all(format));
    found.extend(boundary_lists::all(format, seed));
    found
}

/// A random list; most are short. Every third of PEC and PES is for its
/// thumbnails, and every fourth of all has other threads, often many.
pub fn any(format: Format, random: &mut Random) -> List {
    let pictured = matches!(format, Format::Pes | Format::Pec);
    let mut list = if pictured && random.below(3) == 0 {
        let script = thumbnail_designs::any(format, random);
        lists::list("picture", &script, random)
    } else {
        let length = match random.below(200) {
            0 => random.below(4_000),
            1..20 => random.below(300),
            _ => random.below(40),
        };
        lists::random(format, length, random)
    };
    if random.below(4) == 0 {
        list.threads = distance_lists::any(random);
    }
    if random.below(2) == 0 {
        list.name = name(random);
    }
    list
}

/// A name in UTF-8: letters, controls, blanks and characters of more bytes.
pub fn name(random: &mut Random) -> Vec<u8> {
    let length = random.below(30);
    let letter = |random: &mut Random| match random.below(6) {
        0 => char::from(random.byte() % 0x20),
        1 => char::from(0x7B + random.byte() % 5),
        2 => char::from(0x80 + random.byte() % 0x80),
        3 => '\u{1f9f5}',
        _ => char::from(0x20 + random.byte() % 0x5F),
    };
    let name: String = (0..length).map(|_| letter(random)).collect();
    name.into_bytes()
}
