//! Files to read: short and boundary ones first, then written ones, damaged
//! ones and random ones. Labels of PEC and headers of DST stay below 128,
//! where document 01 holds the rules and the published Rust for equal.

use crate::inputs::{bit_pairs, jump_rows, lists, vp3_files};
use crate::oracle::{self, Format};
use crate::random::Random;

#[derive(Clone)]
pub struct File {
    pub ext: Vec<u8>,
    pub bytes: Vec<u8>,
}

/// The files for the list of reads.
pub fn all(seed: u64) -> Vec<File> {
    let mut random = Random::new(seed);
    let mut files = extensions();
    files.extend(exp(&mut random));
    files.extend(jef(&mut random));
    files.extend(pec(&mut random));
    files.extend(dst(&mut random));
    files.extend(written(&mut random));
    files.extend(jump_rows::boundary(seed));
    files.extend(bit_pairs::boundary());
    files.retain(in_domain);
    files
}

/// The files of VP3 for the list of reads, behind all others: with extensions near its
/// own first.
pub fn all_vp3() -> Vec<File> {
    const NEAR: [&str; 8] = ["VP3", "vP3", "Vp3", "vp", "vp33", "vp4", "vq3", "vp\x13"];
    let stored = vp3_files::stored();
    let whole = stored.last().expect("a whole file");
    let mut files: Vec<File> = NEAR.iter().map(|ext| file(ext, whole.clone())).collect();
    files.extend(stored.into_iter().map(|bytes| file("vp3", bytes)));
    files
}

/// The format's extension in small and large letters.
pub fn any_case(format: Format, random: &mut Random) -> Vec<u8> {
    let turn = |&letter: &u8| match random.pick(&[0, 0x20]) {
        turned if letter.is_ascii_alphabetic() => letter ^ turned,
        _ => letter,
    };
    format.ext().as_bytes().iter().map(turn).collect()
}

pub fn file(ext: &str, bytes: Vec<u8>) -> File {
    let ext = ext.as_bytes().to_vec();
    File { ext, bytes }
}

/// Whether document 01 holds the rules and the published Rust for equal here.
pub fn in_domain(file: &File) -> bool {
    let format = std::str::from_utf8(&file.ext).ok().and_then(Format::of);
    let start = match format {
        Some(Format::Dst) => return file.bytes.iter().take(512).all(u8::is_ascii),
        Some(Format::Pec) => Some(8),
        Some(Format::Pes) => start(&file.bytes),
        _ => None,
    };
    let Some(start) = start else { return true };
    file.bytes.iter().skip(start + 3).take(16).all(u8::is_ascii)
}

/// Where the PEC part of a PES starts, unless that is below zero.
pub fn start(pes: &[u8]) -> Option<usize> {
    let field = pes.get(8..12)?.try_into().ok()?;
    usize::try_from(i32::from_le_bytes(field)).ok()
}

/// Extensions of any case, and other ones.
pub const EXTS: [&[u8]; 24] = [
    b"",
    b"e",
    b"ex",
    b"exp",
    b"EXP",
    b"eXp",
    b"exp ",
    b" exp",
    b"exp\r",
    b".exp",
    b"expp",
    b"pes",
    b"PeS",
    b"pec",
    b"PEC",
    b"dst",
    b"DSt",
    b"jef",
    b"JEF",
    b"vp3",
    b"pen",
    b"\xFF",
    b"e\xC3\xA9",
    b"jef\0",
];

/// Each extension with an empty file and with a short one.
fn extensions() -> Vec<File> {
    let body = [4, 0, 0, 0, 1, 2, 3, 4, 0x80, 1, 0, 0, 5, 6];
    let both = |ext: &&[u8]| {
        [&[][..], &body].map(|bytes| File {
            ext: ext.to_vec(),
            bytes: bytes.to_vec(),
        })
    };
    EXTS.iter().flat_map(both).collect()
}

/// Bytes that matter to the records of EXP and JEF.
pub const PAIRS: [u8; 16] = [
    0x00, 0x01, 0x01, 0x02, 0x04, 0x05, 0x07, 0x10, 0x7F, 0x80, 0x80, 0x80, 0x80, 0x81, 0xF6, 0xFF,
];

/// Bytes that matter to the records of PEC.
pub const STEPS: [u8; 20] = [
    0x00, 0x01, 0x3E, 0x3F, 0x40, 0x41, 0x7F, 0x80, 0x87, 0x88, 0x8F, 0x90, 0xA0, 0xB0, 0xB0, 0xC0,
    0xFE, 0xFE, 0xFF, 0x02,
];

/// Third bytes that matter to the records of DST.
pub const THIRDS: [u8; 14] = [
    0x03, 0x03, 0x03, 0x83, 0x83, 0xC3, 0xC3, 0x43, 0xE3, 0xD3, 0xF3, 0x07, 0xBF, 0x00,
];

/// Bytes most of which are of those that matter.
pub fn body(length: usize, from: &[u8], random: &mut Random) -> Vec<u8> {
    let mut byte = || match random.below(5) {
        0 => random.byte(),
        _ => random.pick(from),
    };
    (0..length).map(|_| byte()).collect()
}

/// Pairs of two bytes that matter, one by one.
fn pairs() -> Vec<[u8; 2]> {
    const ENDS: [u8; 6] = [0x00, 0x01, 0x7F, 0x80, 0x81, 0xFF];
    let both = |&x: &u8| ENDS.map(|y| [x, y]);
    ENDS.iter().flat_map(both).collect()
}

fn exp(random: &mut Random) -> Vec<File> {
    let mut files = vec![file("exp", vec![1]), file("exp", vec![0x80])];
    files.extend(pairs().iter().map(|pair| file("exp", pair.to_vec())));
    for control in 0..=255 {
        let bytes = vec![1, 2, 0x80, control, 3, 0xFC, 5, 6];
        files.push(file("exp", bytes));
    }
    for control in [1, 2, 4, 0x80] {
        for pair in pairs() {
            let bytes = [&[0x80, control], &pair[..], &[7, 7]].concat();
            files.push(file("exp", bytes));
        }
    }
    for count in [7, 8, 9, 16, 40, 300] {
        let bytes = [&[0x80, 1, 0, 0].repeat(count)[..], &[1, 1]].concat();
        files.push(file("exp", bytes));
    }
    let long = body(60, &PAIRS, random);
    files.extend((0..=24).map(|end| file("exp", long[..end].to_vec())));
    for at in 0..260 {
        files.push(file("exp", body(2 + at % 40, &PAIRS, random)));
    }
    files
}

/// A JEF: offset, count at 24, thread table at 116, and a body behind it.
pub fn jef_file(offset: i32, count: i32, table: &[i32], body: &[u8]) -> Vec<u8> {
    let mut bytes = vec![0; 116];
    bytes[..4].copy_from_slice(&offset.to_le_bytes());
    bytes[24..28].copy_from_slice(&count.to_le_bytes());
    bytes.extend(table.iter().flat_map(|entry| entry.to_le_bytes()));
    bytes.extend_from_slice(body);
    bytes
}

const BODY: [u8; 16] = [1, 2, 0x80, 1, 0, 0, 3, 4, 0x80, 2, 5, 5, 6, 6, 0x80, 0x10];

fn jef(random: &mut Random) -> Vec<File> {
    let mut files = jef_headers();
    for control in (0..=0x20).chain([0x7F, 0x80, 0x81, 0xFF]) {
        let bytes = vec![4, 0, 0, 0, 1, 2, 0x80, control, 3, 0xFC, 5, 6];
        files.push(file("jef", bytes));
    }
    let bytes = jef_file(124, 2, &[5, -6], &BODY);
    files.extend((0..=bytes.len()).map(|end| file("jef", bytes[..end].to_vec())));
    for at in 0..150 {
        let count = random.below(4);
        let table: Vec<i32> = (0..count).map(|_| random.between(-200, 200)).collect();
        let body = body(2 + at % 40, &PAIRS, random);
        let told = count as i32 + random.pick(&[0, 0, 0, 1, -1]);
        let offset = 116 + 4 * count as i32 + random.pick(&[0, 0, 0, 0, 2, -2, -1, 40]);
        files.push(file("jef", jef_file(offset, told, &table, &body)));
    }
    for at in 0..120 {
        let body = body(1 + at % 30, &PAIRS, random);
        files.push(file("jef", [&[4, 0, 0, 0], &body[..]].concat()));
    }
    files
}

/// Odd offsets, counts and table entries.
fn jef_headers() -> Vec<File> {
    let mut files = Vec::new();
    for offset in [i32::MIN, -1, 0, 3, 115, 120, 131, 132, 133, i32::MAX] {
        files.push(file("jef", jef_file(offset, 1, &[9], &BODY[..12])));
    }
    for count in [i32::MIN, -1, 0, 1, 2, 3, 4, 255, 256, 257, i32::MAX] {
        files.push(file("jef", jef_file(124, count, &[7, 8], &BODY)));
    }
    let entries = (-80..=-78).chain(-1..=2).chain(77..=80);
    for entry in entries.chain([158, i32::MIN, i32::MAX]) {
        files.push(file("jef", jef_file(124, 2, &[entry, !entry], &BODY)));
    }
    let table: Vec<i32> = (0..258).collect();
    let rows = [0x80, 1, 0, 0].repeat(254);
    let body = [&rows[..], &[1, 1, 0x80, 1, 0, 0].repeat(4)].concat();
    for count in [256, 257] {
        let bytes = jef_file(116 + 4 * 258, count, &table, &body);
        files.push(file("jef", bytes));
    }
    files
}

/// The PEC part: label, count byte, colours and stitches in their places.
pub fn pec_part(label: &[u8], count: u8, colours: &[u8], body: &[u8]) -> Vec<u8> {
    let mut bytes = b"LA:".to_vec();
    bytes.extend_from_slice(label);
    bytes.resize(48, b' ');
    bytes.push(count);
    bytes.extend_from_slice(colours);
    bytes.resize(528, b' ');
    bytes.extend_from_slice(body);
    bytes
}

pub fn pec_file(part: Vec<u8>) -> File {
    file("pec", [b"#PEC0001", &part[..]].concat())
}

/// A PES: its start, a gap of zeros behind the header, and the PEC part.
pub fn pes_file(start: i32, gap: usize, part: &[u8]) -> File {
    let mut bytes = b"#PES0001".to_vec();
    bytes.extend_from_slice(&start.to_le_bytes());
    bytes.resize(12 + gap, 0);
    bytes.extend_from_slice(part);
    file("pes", bytes)
}

/// Labels of 16 bytes, blanks and controls at their ends.
pub const LABELS: [&[u8; 16]; 8] = [
    b"label           ",
    b"                ",
    b"\t\n\x0B\x0C\r label \t\r\n\x0C",
    b"\x1C\x1Dlabel\x1E\x1F       ",
    b"0123456789abcdef",
    b"\0 inner  blank \0",
    b"               x",
    b"\x08label\x0E         ",
];

/// Stitches in three blocks of PEC.
const STITCHES: [u8; 15] = [
    1, 2, 0xFE, 0xB0, 2, 0x80, 0x3F, 0x41, 0xFE, 0xB0, 1, 3, 4, 0xFF, 0,
];

fn pec(random: &mut Random) -> Vec<File> {
    let mut files = pes_starts();
    files.extend(pec_headers());
    for high in 0..16 {
        let bytes: Vec<u8> = (0..16).flat_map(|low| [16 * high + low, 5, 6, 7]).collect();
        files.push(pec_file(pec_part(LABELS[0], 0, &[2], &bytes)));
    }
    for at in 0..70 {
        let label = random.pick(&LABELS);
        let (count, colour) = (random.byte() % 4, random.byte());
        let body = body(2 + at % 30, &STEPS, random);
        let part = pec_part(label, count, &[colour], &body);
        files.push(match at % 3 {
            0 => pes_file(12, 0, &part),
            _ => pec_file(part),
        });
    }
    files
}

/// PEC parts cut short, labels, counts and colours.
fn pec_headers() -> Vec<File> {
    const COLOURS: [(u8, [u8; 3]); 4] = [
        (0, [0, 64, 65]),
        (1, [66, 255, 20]),
        (2, [130, 195, 1]),
        (255, [1; 3]),
    ];
    let whole = pec_file(pec_part(LABELS[0], 1, &[5, 20], &STITCHES));
    let ends = [0, 7, 8, 9, 11, 27, 55, 56, 57, 58, 300];
    let ends = ends.into_iter().chain(535..=551);
    let mut files: Vec<File> = ends
        .map(|end| file("pec", whole.bytes[..end].to_vec()))
        .collect();
    for label in LABELS {
        files.push(pec_file(pec_part(label, 0, &[64], &STITCHES[..2])));
    }
    for (count, colours) in COLOURS {
        files.push(pec_file(pec_part(LABELS[0], count, &colours, &STITCHES)));
    }
    let rows = [&[0xFE, 0xB0, 2].repeat(300)[..], &[1, 1]].concat();
    let table: Vec<u8> = (0..=255).collect();
    files.push(pec_file(pec_part(LABELS[0], 255, &table, &rows)));
    files
}

/// Signatures and starts of PES, in and outside the file.
fn pes_starts() -> Vec<File> {
    let part = pec_part(LABELS[0], 1, &[5, 20], &STITCHES);
    let whole = pes_file(12, 0, &part);
    let mut files = Vec::new();
    for end in (0..=13).chain([60, 61, 62, 539, 540, 541, 545]) {
        files.push(file("pes", whole.bytes[..end].to_vec()));
    }
    for start in [i32::MIN, -1, 0, 8, 11, 20, 51, 52, 53, 100, 1000, i32::MAX] {
        files.push(pes_file(start, 0, &part[..89]));
    }
    for (start, gap) in [(0, 0), (5, 0), (12, 0), (20, 8), (15, 3), (11, 0)] {
        files.push(pes_file(start, gap, &part));
    }
    for text in [&b"#PEC"[..], b"#PE", b"#pes0001", b"PES#0001"] {
        let mut bytes = whole.bytes.clone();
        bytes[..text.len()].copy_from_slice(text);
        bytes.truncate(70);
        files.push(file("pes", bytes));
    }
    let other = [b"#PES....", &[12, 0, 0, 0][..], &part].concat();
    files.push(file("pes", other));
    files
}

/// A DST: header text filled with blanks, and records.
pub fn dst_file(header: &str, records: &[u8]) -> File {
    let mut bytes = header.as_bytes().to_vec();
    bytes.resize(512, b' ');
    bytes.extend_from_slice(records);
    file("dst", bytes)
}

/// Stitches in four blocks, the second one empty.
const RECORDS: [u8; 18] = [
    1, 0, 3, 0, 0, 0xC3, 0, 0, 0xC3, 0x80, 0, 3, 0x05, 0x05, 0xC7, 0, 0, 3,
];

/// Lines of a DST header, fit and unfit.
pub const LINES: [&str; 46] = [
    "LA:name\r",
    "LA: name with blanks \t\r",
    "LA:\t\x0B\x0C \r",
    "LA:\x1Cname\x1F\x00\r",
    "LA:first\rLA:last\r",
    "LA:first\rLA:\r",
    "LA:first\nLA:last\n",
    "LA:first\r\nXLA:last\r\n",
    " LA:late\r",
    "la:small\r",
    "LA\rLA:x",
    "LA:LA:twice\r",
    "LA:TC:#112233\r",
    "ST:1\x0BLA:no line\r",
    "\rLA:after an empty line\r\r",
    "TC:#FF8000,Name,12\r",
    "TC:ff8000\r",
    "TC: #aBcDeF ,x\r",
    "TC:##010203\r",
    "TC:######a0b0c0\r",
    "TC:#+1+2+3\r",
    "TC:+A+b+0\r",
    "TC:1+2+3+\r",
    "TC:++1+2+\r",
    "TC:-1-2-3\r",
    "TC:+1+234\r",
    "TC:12345\r",
    "TC:1234567\r",
    "TC:#\r",
    "TC:\r",
    "TC",
    "TC:,#112233\r",
    "TC:gg0000\r",
    "TC:0000g0\r",
    "TC:# 112233\r",
    "TC:11 233\r",
    "TC:#112233#\r",
    "TC:1#2233\r",
    "tc:112233\r",
    " TC:112233\r",
    "TC:\x0B112233\x0C,\r",
    "TC:\x1C112233\r",
    "TC:112233 x\r",
    "TC:@0112`:\r",
    "TC:AaFf09,TC:112233\r",
    "TC:/0:0G0\rTC:GG`0af\r",
];

fn dst(random: &mut Random) -> Vec<File> {
    let mut files = Vec::new();
    for length in [0, 1, 511] {
        files.push(file("dst", vec![b' '; length]));
    }
    for extra in 0..=7 {
        files.push(dst_file("LA:cut\r", &RECORDS[..extra]));
    }
    files.extend(LINES.iter().map(|line| dst_file(line, &RECORDS)));
    files.extend(dst_headers(random));
    for high in 0..16 {
        let record = |low: u8| [16 * low + high, 16 * high + low, 16 * high + low];
        let records: Vec<u8> = (0..16).flat_map(record).collect();
        files.push(dst_file("", &records));
    }
    for third in [0xF3, 0xF7, 0xFB, 0xFF, 0xC7, 0xCB, 0xE3, 0xD3, 0x87, 0xB3] {
        files.push(dst_file("", &[1, 0, 3, 0x26, 0x91, third, 2, 0, 3]));
    }
    for at in 0..60 {
        let mut records = body(3 * (1 + at % 14) + at % 3, &[0, 1, 2, 0x80], random);
        for third in records.iter_mut().skip(2).step_by(3) {
            *third = random.pick(&THIRDS);
        }
        files.push(dst_file("", &records));
    }
    files
}

/// Mixed lines, lines cut by the end of the header, and a header full of
/// colours.
fn dst_headers(random: &mut Random) -> Vec<File> {
    let mut files = Vec::new();
    for _ in 0..20 {
        let lines: String = (0..6).map(|_| random.pick(&LINES)).collect();
        files.push(dst_file(&lines, &RECORDS));
    }
    for line in ["LA:last line", "TC:123456", "TC:12345", "LA:", "TC:"] {
        let header = format!("{line:>512}").replace(' ', "\r");
        files.push(dst_file(&header.replace("last\r", "last "), &RECORDS));
    }
    let colours: String = (0..51).map(|at| format!("TC:{at:06x}\r")).collect();
    let records = [0, 0, 0xC3, 0, 0, 3, 0, 0, 0xC3].repeat(27);
    files.push(dst_file(&colours, &records));
    files.push(dst_file(
        "",
        &[&[0, 0, 0xC3].repeat(30)[..], &[1, 0, 3]].concat(),
    ));
    files
}

/// Files written by the published Rust, and damaged ones of them.
fn written(random: &mut Random) -> Vec<File> {
    let mut files = Vec::new();
    for format in [
        Format::Exp,
        Format::Jef,
        Format::Dst,
        Format::Pec,
        Format::Pes,
    ] {
        for (at, list) in lists::short(format, random).iter().enumerate() {
            let bytes = oracle::write(format, &list.name, &list.cmds, &list.threads);
            if bytes.len() > 1100 || at % 2 != 0 && format == Format::Pes {
                continue;
            }
            files.extend(damaged(format, &bytes, random));
            files.push(file(format.ext(), bytes));
        }
    }
    files
}

/// Copies with one bit turned; fewer of the long ones.
fn damaged(format: Format, bytes: &[u8], random: &mut Random) -> Vec<File> {
    let count = match format {
        Format::Exp => 12,
        Format::Jef => 5,
        _ => 1,
    };
    let turn = |_| {
        let mut copy = bytes.to_vec();
        if let Some(byte) = copy.len().checked_sub(1).map(|last| random.below(last + 1)) {
            copy[byte] ^= 1 << random.below(8);
        }
        file(format.ext(), copy)
    };
    (0..count).map(turn).collect()
}
