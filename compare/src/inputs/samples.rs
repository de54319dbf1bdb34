//! Document 01's samples, as far as the published Rust can show them, and samples of VP3.

use crate::formats::{color_distance, nearest_index, pec_palette};
use crate::inputs::vp3_samples;
use crate::oracle::{self, Command, Format};
use crate::replay::runs_layout;

/// Prints each sample with the value expected; true if none differs.
pub fn show() -> bool {
    let mut same = true;
    for (what, found, expected) in records().into_iter().chain(others()).chain(vp3()) {
        let mark = if found == expected {
            "as expected"
        } else {
            "DIFFERS"
        };
        println!("{what}: {found} (expected {expected}) {mark}");
        same &= found == expected;
    }
    let programs = [
        ("exp", EXP.to_vec(), EXP_RUNS),
        ("vp3", vp3_samples::file(), vp3_samples::RUNS),
    ];
    for (ext, file, expected) in programs {
        let found = runs_layout::runs(ext.as_bytes(), &file);
        println!("program runs, {ext}:\n{found}(expected)\n{expected}");
        same &= found == expected;
    }
    same
}

type Sample = (String, String, String);

/// Samples of one record: format, kind, step, bytes expected.
const RECORDS: [(Format, u8, i32, i32, &str); 11] = [
    (Format::Dst, 0, 0, 0, "00 00 03"),
    (Format::Dst, 0, 121, 0, "05 05 07"),
    (Format::Dst, 1, 0, 1, "40 00 83"),
    (Format::Pec, 0, -63, 0, "41"),
    (Format::Pec, 0, 62, 0, "3E"),
    (Format::Pec, 0, 63, 0, "80 3F"),
    (Format::Pec, 0, -64, 0, "8F C0"),
    (Format::Pec, 0, 2047, 0, "87 FF"),
    (Format::Pec, 0, -2048, 0, "88 00"),
    (Format::Pec, 1, 0, 0, "90 00"),
    (Format::Exp, 1, 5, -5, "80 04 05 05"),
];

fn records() -> Vec<Sample> {
    let sample = |&(format, kind, x, y, expected): &(Format, u8, i32, i32, &str)| {
        let list: [Command; 2] = [(x, y, kind), (x, y, 4)];
        let file = oracle::write(format, b"", &list, &[[0, 0, 0]]);
        let start = match format {
            Format::Dst => 512,
            Format::Pec => 8 + 528,
            _ => 0,
        };
        let count = expected.len().div_ceil(3);
        let what = format!(
            "{} {} ({x}, {y})",
            format.ext(),
            ["stitch", "jump"][kind as usize]
        );
        let found = hex(&file[start..start + count]);
        (what, found, expected.to_string())
    };
    RECORDS.iter().map(sample).collect()
}

fn hex(bytes: &[u8]) -> String {
    let pairs: Vec<String> = bytes.iter().map(|byte| format!("{byte:02X}")).collect();
    pairs.join(" ")
}

fn others() -> Vec<Sample> {
    let black = nearest_index([0, 0, 0], &pec_palette());
    let far = color_distance([255; 3], [240; 3]);
    let dst = |length: usize| match oracle::read(b"dst", &vec![b' '; length]) {
        Err(number) => format!("refused {number}"),
        Ok(reading) => format!("{} blocks", reading.blocks.len()),
    };
    let sample =
        |what: &str, found: String, expected: &str| (what.to_string(), found, expected.to_string());
    vec![
        sample("black in the PEC chart", format!("{black:?}"), "Some(20)"),
        sample("white and (240, 240, 240)", far.to_string(), "2023"),
        sample("DST of 511 bytes", dst(511), "refused 4"),
        sample("DST of 512 bytes", dst(512), "0 blocks"),
    ]
}

/// The first line that the program `runs` prints of files of VP3.
fn vp3() -> Vec<Sample> {
    let line = |file: &[u8]| {
        let printed = runs_layout::runs(b"vp3", file);
        printed.lines().next().unwrap_or_default().to_string()
    };
    let whole = vp3_samples::file();
    let changed = vp3_samples::CHANGED.iter().map(|&(at, byte, expected)| {
        let mut copy = whole.clone();
        copy[at] = byte;
        let what = format!("vp3, byte {at} is {byte:02X}");
        (what, line(&copy), expected.to_string())
    });
    let fronts = vp3_samples::FRONTS.iter().map(|&(end, expected)| {
        let what = format!("vp3, {end} bytes");
        (what, line(&whole[..end]), expected.to_string())
    });
    changed.chain(fronts).collect()
}

const EXP: [u8; 10] = [0x0A, 0, 0, 0xF6, 0x80, 4, 5, 5, 3, 0];
const EXP_RUNS: &str = "exp blocks 1 runs 2 points 5 cuts 1
label []
block 0 colour 1E1E1E runs 2
run 3
0 0
10 0
10 10
run 2
15 5
18 5
";
