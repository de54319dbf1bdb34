//! Files of up to 2,097,153 bytes, which no list of reads can hold.

use crate::inputs::files::{self, EXTS, File};
use crate::inputs::{headers, records, vp3_files};
use crate::oracle::{self, Format};
use crate::random::Random;

/// Lengths of files; the last is refused.
const LENGTHS: [usize; 8] = [
    65_536, 2_097_152, 65_537, 300_001, 1_048_577, 131_071, 2_097_151, 2_097_153,
];

/// A long file: of each format with each length in turn, with few colour changes
/// and with as many as there can be; every third one is refused, or starts or goes
/// wrong at its last bytes. Fewer than eight blocks in a row are empty.
pub fn file(at: usize, random: &mut Random) -> File {
    let (which, turn) = (at % Format::ALL.len(), at / Format::ALL.len());
    if (which + turn) % 3 == 2 {
        return odd(random);
    }
    let (format, length) = (Format::ALL[which], LENGTHS[(which + turn) % LENGTHS.len()]);
    if format == Format::Vp3 {
        return files::file(format.ext(), vp3_files::long(length, random));
    }
    let most = random.pick(&[0, 6, 3000]);
    let body = records::going(format, length, most, random);
    let mut bytes = headers::plain(format, &body, random);
    bytes.truncate(length);
    let ext = format.ext().as_bytes().to_vec();
    File { ext, bytes }
}

fn odd(random: &mut Random) -> File {
    const LENGTH: i32 = oracle::LONGEST as i32;
    let before = random.pick(&[0, 1, 2, 3, 47, 48, 49, 50, 528, 530]);
    match random.below(5) {
        4 => files::file("vp3", vp3_files::odd_long(oracle::LONGEST, random)),
        0 => files::pes_file(LENGTH - before, 0, &vec![1; oracle::LONGEST - 12]),
        1 => {
            let body = vec![1; oracle::LONGEST - 116];
            let bytes = files::jef_file(LENGTH - before, 3, &[], &body);
            let ext = b"jef".to_vec();
            File { ext, bytes }
        }
        _ => {
            let ext = random.pick(&EXTS).to_vec();
            let bytes = vec![0; oracle::LONGEST + random.below(2)];
            File { ext, bytes }
        }
    }
}
