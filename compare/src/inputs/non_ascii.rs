//! Bytes from 128 up in PEC labels and DST headers, where document 01's rules speak
//! of bytes and the published Rust reads UTF-8.

use crate::inputs::files::{self, File};
use crate::oracle::Format;
use crate::random::Random;

/// Stands for each of them where the Rust is asked: no rule names it.
const LETTER: u8 = b'x';

/// Some of them, blanks of Unicode among them.
const HIGH: [&[u8]; 7] = [
    &[0x80],
    &[0xFF],
    &[0xC2, 0xA0],
    &[0xC2, 0x85],
    &[0xE2, 0x80, 0x80],
    &[0xE3, 0x80, 0x80],
    &[0xC3, 0xA4],
];

/// The file with a letter for each of them, about which the rules and the Rust
/// say the same. None where a label lies over other fields.
pub fn in_ascii(file: &File) -> Option<Vec<u8>> {
    let mut bytes = file.bytes.clone();
    if files::in_domain(file) {
        return Some(bytes);
    }
    let (start, length) = match std::str::from_utf8(&file.ext).ok().and_then(Format::of)? {
        Format::Dst => (0, 512),
        Format::Pec => (8 + 3, 16),
        _ => (files::start(&bytes).filter(|&start| start >= 9)? + 3, 16),
    };
    for byte in bytes.iter_mut().skip(start).take(length) {
        if !byte.is_ascii() {
            *byte = LETTER;
        }
    }
    Some(bytes)
}

/// Puts some of them behind a colon or anywhere in the first bytes.
pub fn raise(file: &mut File, random: &mut Random) {
    let bytes = &mut file.bytes;
    let mut place = random.pick(&[27, 48, 512]);
    place = random.below(place);
    if random.below(2) == 0 {
        let colon = bytes.iter().skip(place).position(|&byte| byte == b':');
        place += colon.map_or(0, |colon| colon + 1);
    }
    let places = bytes.iter_mut().skip(place);
    for (there, &byte) in places.zip(random.pick(&HIGH)) {
        *there = byte;
    }
}
