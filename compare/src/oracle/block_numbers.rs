//! The numbers of the blocks in a reading. The published reader leaves empty
//! blocks out and tells no numbers, but it colours a block without a stored
//! colour by its number modulo 8. So the file is cut behind every place where
//! a colour change could stand, a stitch is put behind the cut, and the colour
//! of the last block read tells whether the number has gone up by one. VP3 is not read
//! by the Rust and has no part in this.

use crate::formats::read::{StitchBlock, read_stitch_file};
use crate::oracle::Format;
use std::sync::OnceLock;

/// Files that would take more bytes of reading than this are not cut.
const MOST_WORK: usize = 1 << 33;

/// The number of each block listed, and whether they are certain.
pub fn numbers(format: Format, file: &[u8]) -> (Vec<u32>, bool) {
    let body = stitches(format, file);
    let listed = probe(format, body, &[]);
    let cuts = cuts(format, body);
    if 2 * cuts.len() * (body.len() + 600) > MOST_WORK {
        return (least(format, &listed), false);
    }
    // For each block number: how many blocks with a smaller one are listed.
    let mut before = vec![0];
    for cut in cuts {
        let with = probe(format, &body[..cut], filler(format));
        if points(&with) == points(&probe(format, &body[..cut], &[])) {
            break; // the reading ends before the cut
        }
        let last = with.last().expect("the stitch put behind the cut");
        let number = before.len() as u32 - 1;
        if residue(last.color).unwrap_or(0) != number % 8 {
            before.push(with.len() - 1);
        }
    }
    before.push(listed.len());
    let is_listed = |&n: &usize| before[n] < before[n + 1];
    let found = (0..before.len() - 1).filter(is_listed);
    (found.map(|n| n as u32).collect(), true)
}

/// The least numbers that fit, whatever the work would be. They are right if
/// fewer than eight blocks in a row are empty.
pub fn by_order(format: Format, file: &[u8]) -> (Vec<u32>, bool) {
    let listed = probe(format, stitches(format, file), &[]);
    (least(format, &listed), false)
}

/// The stitch bytes of a file: all that follows its headers.
pub fn stitches(format: Format, file: &[u8]) -> &[u8] {
    let field = |at: usize| {
        let bytes = file.get(at..at + 4).map(|b| b.try_into().unwrap());
        usize::try_from(bytes.map_or(-1, i32::from_le_bytes)).unwrap_or(usize::MAX)
    };
    let start = match format {
        Format::Pes => field(8).saturating_add(528),
        Format::Pec => 8 + 528,
        Format::Dst => 512,
        Format::Exp => 0,
        Format::Jef => field(0),
        Format::Vp3 => no_vp3(),
    };
    file.get(start..).unwrap_or_default()
}

/// Reads stitch bytes, and more behind them, below a header without colours
/// (PEC stores one at least: that of block 0, which is no default colour).
fn probe(format: Format, body: &[u8], more: &[u8]) -> Vec<StitchBlock> {
    let (ext, mut file) = match format {
        Format::Pes | Format::Pec => ("pec", vec![0; 8 + 528]),
        Format::Dst => ("dst", vec![b' '; 512]),
        Format::Exp => ("exp", Vec::new()),
        Format::Jef => ("jef", vec![0; 28]),
        Format::Vp3 => no_vp3(),
    };
    match format {
        Format::Pes | Format::Pec => file[8 + 49] = 1,
        Format::Jef => file[0] = 28,
        _ => {}
    }
    file.extend_from_slice(body);
    file.extend_from_slice(more);
    read_stitch_file(&file, ext).expect("a whole header").blocks
}

/// Bytes that end an unfinished record and make a stitch on the spot.
fn filler(format: Format) -> &'static [u8] {
    match format {
        Format::Pes | Format::Pec => &[0; 6],
        Format::Dst => &[0, 0, 3],
        Format::Exp | Format::Jef => &[0; 4],
        Format::Vp3 => no_vp3(),
    }
}

fn no_vp3() -> ! {
    unreachable!("the Rust reads no VP3")
}

/// Behind every place where the bytes of a colour change stand. Some of them
/// may be parts of other records; no colour change is missed.
fn cuts(format: Format, body: &[u8]) -> Vec<usize> {
    let (apart, width) = match format {
        Format::Pes | Format::Pec => (1, 2),
        Format::Dst => (3, 3),
        Format::Exp | Format::Jef => (2, 2),
        Format::Vp3 => no_vp3(),
    };
    let changes = |record: &[u8]| match format {
        Format::Pes | Format::Pec => record == [0xFE, 0xB0],
        Format::Dst => record[2] & 0xC3 == 0xC3,
        Format::Exp | Format::Jef => record == [0x80, 0x01],
        Format::Vp3 => no_vp3(),
    };
    let ends = (0..body.len()).step_by(apart).map(|at| at + width);
    ends.filter(|&end| end <= body.len() && changes(&body[end - width..end]))
        .collect()
}

/// The least numbers that fit the order and the colours of the blocks.
fn least(format: Format, blocks: &[StitchBlock]) -> Vec<u32> {
    // PEC's block 0 has no default colour.
    let mut next = u32::from(matches!(format, Format::Pes | Format::Pec));
    let mut found = Vec::new();
    for block in blocks {
        let number = match residue(block.color) {
            Some(residue) => next + (residue + 8 - next % 8) % 8,
            None => 0,
        };
        found.push(number);
        next = number + 1;
    }
    found
}

fn points(blocks: &[StitchBlock]) -> usize {
    let runs = blocks.iter().flat_map(|block| &block.runs);
    runs.map(|run| run.len()).sum()
}

/// Which of the eight default colours this is.
fn residue(colour: [u8; 3]) -> Option<u32> {
    let at = defaults().iter().position(|&default| default == colour);
    at.map(|at| at as u32)
}

/// The default colours, as the published reader gives them.
fn defaults() -> &'static [[u8; 3]] {
    static COLOURS: OnceLock<Vec<[u8; 3]>> = OnceLock::new();
    COLOURS.get_or_init(|| {
        let body = [0, 0, 0x80, 0x01, 0, 0].repeat(8);
        let blocks = read_stitch_file(&body, "exp").expect("an EXP file").blocks;
        blocks.iter().map(|block| block.color).collect()
    })
}
