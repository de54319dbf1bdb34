//! A VP3 file written down byte by byte from request 1's text, copies of it with one byte
//! another, and what each should be read as.

/// Two colour blocks without texts. The second starts at (2, 3).
const FILE: [&str; 16] = [
    "25 76 73 6D 25 00 | 00 00 | 00 02 00 | 00 00 00 D5", // from 0; 213 bytes of the file part
    "00 00 | 00 00 00 01 00 00 00 02 00 00 00 03 00 00 00 04", // from 15
    "00 00 00 05 | 00 02 0C 00 01 | 00 03 00 | 00 00 00 B3", // from 33; 179 bytes of the design part
    "00 00 00 00 00 00 00 00 | 00 00 00",                    // from 49
    "00 00 00 01 00 00 00 02 00 00 00 03 00 00 00 04 00 00 00 05 00 00 00 06", // from 60
    "00 00 | 64 64",                                         // from 84
    "00 00 10 00 00 00 00 00 00 00 00 00 00 00 10 00 | 78 78 50 50 01 00", // from 88
    "00 00 | 00 02",                                         // from 110; two blocks
    "00 05 00 | 00 00 00 30 | 00 00 27 10 00 00 27 10", // from 114; 48 bytes of the colour part
    "01 00 | AB CD EF | 00 00 00 | 05 28 | 00 00 | 00 00 | 00 00", // from 129
    "00 00 00 FA | FF FF FE 71 | 00 01 00 | 00 00 00 09", // from 145; shift 250, -399; 9 bytes
    "0A F6 00 | 05 06 | 80 03 | FF 02",                 // from 160
    "00 05 00 | 00 00 00 34 | 00 00 27 10 00 00 27 10", // from 169; 52 bytes of the colour part
    "01 00 | 01 02 03 | 00 00 00 | 05 28 | 00 00 | 00 00 | 00 00", // from 184
    "00 00 00 00 | 00 00 00 00 | 00 01 00 | 00 00 00 0D", // from 200; 13 bytes of the stitch part
    "0A F6 00 | 01 01 | 80 01 01 00 FF 00 | 80 02",     // from 215, to 228
];

/// What the program `runs` should print of it.
pub const RUNS: &str = "vp3 blocks 2 runs 3 points 7 cuts 1
label []
block 0 colour ABCDEF runs 2
run 2
0 0
5 6
run 2
5 6
4 8
block 1 colour 010203 runs 1
run 3
2 3
3 4
259 -252
";

/// A byte of the file, its value, and the first line that `runs` should print then.
pub const CHANGED: [(usize, u8, &str); 22] = [
    (4, 0x26, "refused 3"),
    (5, 0x01, "refused 3"),
    (7, 0xDE, "refused 12"),
    (14, 0xD6, "refused 12"),
    (14, 0xD4, "refused 12"),
    (48, 0xB4, "refused 12"),
    (48, 0xB2, "refused 12"),
    (48, 0x40, "refused 4"),
    (113, 0, "vp3 blocks 0 runs 0 points 0 cuts 0"),
    (113, 1, "vp3 blocks 1 runs 2 points 4 cuts 1"),
    (113, 3, "refused 4"),
    (112, 0x80, "refused 4"),
    (120, 0x29, "refused 12"),
    (117, 0x80, "refused 12"),
    (159, 0x02, "refused 4"),
    (159, 0x0A, "refused 12"),
    (159, 0x05, "vp3 blocks 2 runs 2 points 5 cuts 0"),
    (166, 0x02, "vp3 blocks 2 runs 2 points 6 cuts 0"),
    (175, 0x35, "refused 12"),
    (214, 0x0C, "vp3 blocks 2 runs 3 points 7 cuts 1"),
    (214, 0x0A, "vp3 blocks 2 runs 3 points 6 cuts 1"),
    (214, 0x0E, "refused 12"),
];

/// Fronts of the file, and the first line of each.
pub const FRONTS: [(usize, &str); 4] = [
    (5, "refused 3"),
    (6, "refused 4"),
    (14, "refused 4"),
    (227, "refused 12"),
];

pub fn file() -> Vec<u8> {
    let pairs = FILE.iter().flat_map(|line| line.split([' ', '|']));
    let pairs = pairs.filter(|pair| !pair.is_empty());
    let byte = |pair| u8::from_str_radix(pair, 16).expect("two digits");
    pairs.map(byte).collect()
}
