//! Damaged copies of a whole VP3 file: lengths and counts that are wrong, and cuts.

use crate::inputs::vp3_marks::{self, Length};
use crate::random::Random;
use std::ops::Range;

/// Each length one and two too large and too small, none, as large as its enclosing
/// part allows and one larger, half of the field's range and the greatest.
pub fn lengths(file: &[u8]) -> Vec<Vec<u8>> {
    let marks = vp3_marks::of(file).expect("a whole file");
    let copies = |length: &Length| {
        let values = values(length);
        let copy = |&value: &usize| with_number(file, length.at, length.bytes, value);
        values.iter().map(copy).collect::<Vec<_>>()
    };
    marks.lengths.iter().flat_map(copies).collect()
}

/// A file with one length wrong, or two.
pub fn any_length(file: &[u8], random: &mut Random) -> Vec<u8> {
    let mut copy = file.to_vec();
    for _ in 0..random.pick(&[1, 1, 1, 2]) {
        if let Some(marks) = vp3_marks::of(&copy) {
            let length = random.pick(&marks.lengths);
            let near = (length.told + random.below(9)).saturating_sub(4);
            let value = match random.below(2) {
                0 => near,
                _ => random.pick(&values(&length)),
            };
            copy = with_number(&copy, length.at, length.bytes, value);
        }
    }
    copy
}

/// What a length is set to instead.
fn values(length: &Length) -> Vec<usize> {
    let &Length {
        told, room, bytes, ..
    } = length;
    let greatest = (1 << (8 * bytes)) - 1;
    let half = greatest / 2;
    let mut values = vec![
        told + 1,
        told + 2,
        room,
        room + 1,
        0,
        half,
        half + 1,
        greatest,
    ];
    values.extend(told.checked_sub(1));
    values.extend(told.checked_sub(2));
    values.retain(|&value| value != told && value <= greatest);
    values.sort();
    values.dedup();
    values
}

/// More blocks by the count than there are, and fewer.
pub fn counts(file: &[u8]) -> Vec<Vec<u8>> {
    let at = vp3_marks::of(file).expect("a whole file").count;
    let told = vp3_marks::number(&file[at..at + 2]);
    let mut values: Vec<usize> = (0..told).collect();
    values.extend([told + 1, told + 2, 255, 256, 32_767, 32_768, 65_535]);
    let copy = |value| with_number(file, at, 2, value);
    values.into_iter().map(copy).collect()
}

/// A file with one block more or less by the count, or with any count.
pub fn any_count(file: &[u8], random: &mut Random) -> Vec<u8> {
    let at = vp3_marks::of(file).expect("a whole file").count;
    let told = vp3_marks::number(&file[at..at + 2]);
    let value = match random.below(4) {
        0 => random.below(65_536),
        1 => told.saturating_sub(1),
        _ => told + 1 + random.below(2),
    };
    with_number(file, at, 2, value)
}

/// Every front of a file.
pub fn cuts(file: &[u8]) -> Vec<Vec<u8>> {
    (0..file.len()).map(|end| file[..end].to_vec()).collect()
}

/// Every part cut short by one byte and more to all of them, what follows it still
/// behind it and all other lengths made right: its last fields are cut.
pub fn short_parts(file: &[u8]) -> Vec<Vec<u8>> {
    let marks = vp3_marks::of(file).expect("a whole file");
    let mut copies = Vec::new();
    for part in marks.lengths.iter().filter(|length| length.bytes == 4) {
        let end = part.at + part.bytes + part.told;
        copies.extend((1..=part.told).map(|by| without(file, end - by..end)));
    }
    copies
}

/// A whole file without some of its bytes; the lengths of what they were in follow.
pub fn without(file: &[u8], bytes: Range<usize>) -> Vec<u8> {
    let marks = vp3_marks::of(file).expect("a whole file");
    let mut copy = file.to_vec();
    for length in &marks.lengths {
        let begin = length.at + length.bytes;
        let first = begin.max(bytes.start);
        let last = (begin + length.told).min(bytes.end);
        let fewer = last.saturating_sub(first);
        set_number(&mut copy[length.at..begin], length.told - fewer);
    }
    copy.drain(bytes);
    copy
}

/// Every part cut short to one byte, and besides each length in turn past its part: of the
/// two faults the first by place counts.
pub fn two_faults(file: &[u8]) -> Vec<Vec<u8>> {
    let marks = vp3_marks::of(file).expect("a whole file");
    let mut copies = Vec::new();
    for part in marks.lengths.iter().filter(|length| length.bytes == 4) {
        let begin = part.at + part.bytes;
        let lost = begin + 1..begin + part.told;
        let cut = without(file, lost.clone());
        let stay = |length: &&Length| length.at < begin || length.at >= lost.end;
        for length in marks.lengths.iter().filter(stay) {
            let moved = if length.at < begin { 0 } else { lost.len() };
            let at = length.at - moved;
            copies.push(with_number(&cut, at, length.bytes, usize::MAX));
        }
    }
    copies
}

/// A random part of a whole file cut short, as a rule by few bytes.
pub fn any_short_part(file: &[u8], random: &mut Random) -> Vec<u8> {
    let mut lengths = vp3_marks::of(file).expect("a whole file").lengths;
    lengths.retain(|length| length.bytes == 4);
    let part = random.pick(&lengths);
    let end = part.at + part.bytes + part.told;
    let most = random.pick(&[part.told, 60]).min(part.told);
    let by = random.below(most + 1);
    without(file, end - by..end)
}

/// A copy with another number in so many bytes.
fn with_number(file: &[u8], at: usize, bytes: usize, value: usize) -> Vec<u8> {
    let mut copy = file.to_vec();
    set_number(&mut copy[at..at + bytes], value);
    copy
}

fn set_number(field: &mut [u8], value: usize) {
    let bytes = value.to_be_bytes();
    field.copy_from_slice(&bytes[bytes.len() - field.len()..]);
}
