//! The cuts of a DST, from request 2's text: "only after three or more jump records in a row
//! between two stitches of the same block. The DST count is now the number of such rows, however
//! long; a colour change ends one." The published Rust has no such count.

#[derive(Clone, Copy, PartialEq)]
enum Kind {
    Stitch,
    Jump,
    Change,
    End,
}

/// The records of a file up to its end, parted at the colour changes: rows are those parts
/// of a block that lie between two of its stitches.
pub fn count(file: &[u8]) -> u32 {
    let records = file.get(512..).unwrap_or_default().chunks_exact(3);
    let read: Vec<Kind> = records
        .map(|record| kind(record[2]))
        .take_while(|&kind| kind != Kind::End)
        .collect();
    let blocks = read.split(|&kind| kind == Kind::Change);
    blocks.map(|block| rows(block).count() as u32).sum()
}

/// The rows of three or more jumps. What comes before the first stitch of a block, and what
/// comes behind its last, is none.
fn rows(block: &[Kind]) -> impl Iterator<Item = &[Kind]> {
    let stitch = |&kind: &Kind| kind == Kind::Stitch;
    let first = block.iter().position(stitch).unwrap_or(block.len());
    let last = block.iter().rposition(stitch).unwrap_or(first);
    let between = &block[first..last];
    between.split(stitch).filter(|row| row.len() >= 3)
}

/// By document 01: tested for the end, then for a colour change, then for a jump.
fn kind(third: u8) -> Kind {
    match third {
        third if third & 0xF3 == 0xF3 => Kind::End,
        third if third & 0xC3 == 0xC3 => Kind::Change,
        third if third & 0x83 == 0x83 => Kind::Jump,
        _ => Kind::Stitch,
    }
}
