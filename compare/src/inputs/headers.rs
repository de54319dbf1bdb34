//! Files with odd headers: starts, offsets, counts and tables at and past
//! their limits, header lines of all forms; of VP3, odd parts.

use crate::inputs::files::{self, LABELS, LINES};
use crate::inputs::{records, vp3_files};
use crate::oracle::Format;
use crate::random::Random;

/// A file of the format with a header in order and this body.
pub fn plain(format: Format, body: &[u8], random: &mut Random) -> Vec<u8> {
    match format {
        Format::Exp => body.to_vec(),
        Format::Dst => {
            let lines: String = (0..random.below(5)).map(|_| random.pick(&LINES)).collect();
            files::dst_file(&lines, body).bytes
        }
        Format::Pec => files::pec_file(part(body, random)).bytes,
        Format::Pes => {
            let gap = random.pick(&[0, 0, 8, 31]);
            files::pes_file(12 + gap as i32, gap, &part(body, random)).bytes
        }
        Format::Jef => {
            let count = random.below(6);
            let table: Vec<i32> = (0..count).map(|_| random.between(-200, 200)).collect();
            files::jef_file(116 + 4 * count as i32, count as i32, &table, body)
        }
        Format::Vp3 => vp3_files::plain(body, random),
    }
}

/// A file of the format with an odd header; EXP has none.
pub fn odd(format: Format, random: &mut Random) -> Vec<u8> {
    match format {
        Format::Exp => plain(format, &blocks(format, random), random),
        Format::Dst => odd_dst(random),
        Format::Pec => odd_pec(random),
        Format::Pes => odd_pes(random),
        Format::Jef => odd_jef(random),
        Format::Vp3 => vp3_files::odd(random),
    }
}

/// Few records, or as many blocks as a table of colours may have.
fn blocks(format: Format, random: &mut Random) -> Vec<u8> {
    match random.below(12) {
        0 => many_blocks(format, random),
        _ => {
            let length = random.below(100);
            records::mixed(format, length, random)
        }
    }
}

/// Up to 262 blocks with a stitch in each, or in some.
fn many_blocks(format: Format, random: &mut Random) -> Vec<u8> {
    let rare = random.pick(&[1, 1, 4, 60]);
    let mut bytes = Vec::new();
    for _ in 0..random.pick(&[20, 60, 250, 258, 262]) {
        if random.below(rare) == 0 {
            bytes.extend(records::record(format, records::Kind::Stitch, random));
        }
        bytes.extend(records::record(format, records::Kind::Change, random));
    }
    bytes.extend(records::record(format, records::Kind::Stitch, random));
    bytes
}

/// A PEC part with any count; some have as many colours as they count.
fn part(body: &[u8], random: &mut Random) -> Vec<u8> {
    let count = match random.below(3) {
        0 => random.byte(),
        1 => random.pick(&[0, 1, 2, 254, 255]),
        _ => random.byte() % 8,
    };
    let colours = match random.below(3) {
        0 => 3,
        _ => usize::from(count) + 1,
    };
    let colours: Vec<u8> = (0..colours).map(|_| random.byte()).collect();
    let label = random.pick(&LABELS);
    files::pec_part(label, count, &colours, body)
}

/// A part, or the front of one: cut about its count byte, in its colours and
/// about the first stitch.
fn cut_part(random: &mut Random) -> Vec<u8> {
    let body = blocks(Format::Pec, random);
    let mut part = part(&body, random);
    let counted = i32::from(part[48]);
    let end = match random.below(10) {
        0 => random.between(0, 46),
        1..3 => random.between(46, 52),
        3 => 49 + counted + random.between(-1, 3),
        4 => random.between(524, 536),
        _ => i32::MAX,
    };
    part.truncate(end as usize);
    part
}

fn odd_pec(random: &mut Random) -> Vec<u8> {
    let mut bytes = files::pec_file(cut_part(random)).bytes;
    match random.below(20) {
        0 => bytes.truncate(random.below(13)),
        1 => bytes[random.below(8)] = random.byte(),
        _ => {}
    }
    bytes
}

/// A PES with its start below zero, inside, at and past the end.
fn odd_pes(random: &mut Random) -> Vec<u8> {
    let part = cut_part(random);
    let gap = random.pick(&[0, 0, 0, 4, 30, 100]);
    let length = (12 + gap + part.len()) as i32;
    let start = match random.below(12) {
        0 => random.pick(&[i32::MIN, i32::MIN + 1, -65_536, -256, -1]),
        1 => random.pick(&[length - 1, length, length + 1, 65_535, 1 << 24, i32::MAX]),
        2 => length - random.between(45, 53),
        3 => length - random.between(520, 540),
        4 => random.between(0, length),
        5 => random.between(0, 12),
        _ => 12 + gap as i32,
    };
    let mut bytes = files::pes_file(start, gap, &part).bytes;
    match random.below(20) {
        0 => bytes.truncate(random.below(14)),
        1 => bytes[random.below(4)] = random.pick(b"#PESpesC "),
        2 => bytes[4 + random.below(4)] = random.byte(),
        _ => {}
    }
    bytes
}

/// A JEF with its offset, count and table entries at and past their limits.
fn odd_jef(random: &mut Random) -> Vec<u8> {
    let entries = match random.below(8) {
        0 => random.pick(&[100, 254, 255, 256, 257, 260]),
        _ => random.below(6),
    };
    let table: Vec<i32> = (0..entries).map(|_| jef_entry(random)).collect();
    let body = match entries {
        100.. => many_blocks(Format::Jef, random),
        _ => blocks(Format::Jef, random),
    };
    let right = 116 + 4 * table.len() as i32;
    let length = right + body.len() as i32;
    let offset = match random.below(8) {
        0 => random.pick(&[i32::MIN, i32::MIN + 1, -65_536, -4, -1]),
        1 => random.pick(&[length - 2, length - 1, length, length + 1, i32::MAX]),
        2 => random.pick(&[0, 0, 1, 2, 4, 23, 24, 28, 60, 115, 116, 120]),
        3 => right + random.between(-8, 8),
        _ => right,
    };
    let count = match random.below(4) {
        0 => random.pick(&[i32::MIN, -256, -1, 0, 1, 255, 256, 257, 65_536, i32::MAX]),
        1 => table.len() as i32 + random.between(-2, 2),
        _ => table.len() as i32,
    };
    let mut bytes = files::jef_file(offset, count, &table, &body);
    if random.below(3) == 0 {
        let more = files::body(88, &files::PAIRS, random);
        bytes[28..116].copy_from_slice(&more);
        bytes[4..24].copy_from_slice(&more[..20]);
    }
    if random.below(8) == 0 {
        bytes.truncate(random.pick(&[3, 4, 23, 24, 27, 28, 29, 116, 119, 120, 121, 124]));
    }
    bytes
}

fn jef_entry(random: &mut Random) -> i32 {
    match random.below(4) {
        0 => random.pick(&[
            i32::MIN,
            i32::MIN + 1,
            -79,
            -78,
            78,
            79,
            80,
            158,
            256,
            i32::MAX,
        ]),
        1 => random.draw() as i32,
        _ => random.between(-200, 200),
    }
}

/// A DST with lines of all forms; the last may be cut by the header's end, or
/// go on in the records.
fn odd_dst(random: &mut Random) -> Vec<u8> {
    let length = random.below(600);
    let mut text = match random.below(6) {
        0 => short_lines(length, random),
        _ => lines(length, random),
    };
    if random.below(3) != 0 || text.len() < 512 {
        let fill = random.pick(b"   \r\x1A\0");
        text.resize(512, fill);
    }
    text.extend(match random.below(3) {
        0 => any_thirds(random),
        _ => blocks(Format::Dst, random),
    });
    text
}

/// Records with any bytes at all.
fn any_thirds(random: &mut Random) -> Vec<u8> {
    (0..random.below(90)).map(|_| random.byte()).collect()
}

/// Lines one behind the other up to a length.
fn lines(length: usize, random: &mut Random) -> Vec<u8> {
    let mut text = Vec::new();
    while text.len() < length {
        let line = match random.below(5) {
            0 => random.pick(&LINES).into(),
            1 => label_line(random),
            _ => colour_line(random),
        };
        text.extend(line);
    }
    text
}

/// So short lines that there are more than 128, some colours among them.
fn short_lines(length: usize, random: &mut Random) -> Vec<u8> {
    let mut text = Vec::new();
    while text.len() < length {
        let line = random.pick(&["\r", "\n", "\r", "TC:\r", "LA:\n", "\n\n", "x\r", "TC\r"]);
        text.extend(line.as_bytes());
        if random.below(40) == 0 {
            text.extend(colour_line(random));
        }
    }
    text
}

fn some(most: usize, from: &[u8], random: &mut Random) -> Vec<u8> {
    (0..random.below(most + 1))
        .map(|_| random.pick(from))
        .collect()
}

/// What is cut off at both ends of a text, and what looks like it.
fn blanks(random: &mut Random) -> Vec<u8> {
    match random.below(3) {
        0 => some(3, b"  \t\x0B\x0C\x08\x0E\x1C\x1F\0", random),
        1 => some(2, b" \t", random),
        _ => Vec::new(),
    }
}

fn line_end(random: &mut Random) -> Vec<u8> {
    let ends: [&[u8]; 8] = [b"\r", b"\r", b"\r", b"\n", b"\r\n", b"\n\r", b"", b"\x0B"];
    random.pick(&ends).into()
}

fn label_line(random: &mut Random) -> Vec<u8> {
    let fronts: [&[u8]; 8] = [
        b"LA:", b"LA:", b"LA:", b"LA", b"la:", b" LA:", b"LA :", b"XLA:",
    ];
    let text = some(24, b"abcXYZ 019 \t\0:,#\x7F\x0B", random);
    let front = random.pick(&fronts).to_vec();
    let parts = [front, blanks(random), text, blanks(random)];
    [parts.concat(), line_end(random)].concat()
}

fn colour_line(random: &mut Random) -> Vec<u8> {
    let fronts: [&[u8]; 10] = [
        b"TC:", b"TC:", b"TC:", b"TC:", b"TC:", b"TC", b"tc:", b" TC:", b"TC :", b"TC:TC:",
    ];
    let marks: [&[u8]; 7] = [b"", b"", b"#", b"#", b"##", b"#####", b"# "];
    let rests: [&[u8]; 7] = [b"", b"", b",", b",Name,12", b", #112233", b" x", b";"];
    let parts = [
        random.pick(&fronts).to_vec(),
        blanks(random),
        random.pick(&marks).to_vec(),
        digits(random),
        blanks(random),
        random.pick(&rests).to_vec(),
    ];
    [parts.concat(), line_end(random)].concat()
}

/// Six hexadecimal digits as a rule.
fn digits(random: &mut Random) -> Vec<u8> {
    let count = match random.below(6) {
        0 => random.below(9),
        _ => 6,
    };
    let wrong = random.pick(&[8, 1000, 1000]);
    let mut digit = |at: usize| match random.below(wrong) {
        0 => random.pick(b"gG@`/:-+# ,x\0"),
        _ if at.is_multiple_of(2) && random.below(6) == 0 => b'+',
        _ => random.pick(b"0123456789abcdefABCDEF"),
    };
    (0..count).map(&mut digit).collect()
}
