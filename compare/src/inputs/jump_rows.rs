//! DST files about the count of cuts: rows of 1 to 6 jumps between stitches, with colour
//! changes inside them and at both ends, of jumps with moves and without.

use crate::inputs::files::{File, dst_file};
use crate::inputs::records::{Kind, record};
use crate::oracle::Format;
use crate::random::Random;

/// The longest row.
const LONGEST: usize = 6;

/// Rows of up to 6 jumps behind and before stitches, colour changes, both and nothing, on the
/// spot and with moves; rows between stitches with a colour change at each place; and blocks
/// with several rows.
pub fn boundary(seed: u64) -> Vec<File> {
    use Kind::{Change, End, Jump, Stitch};
    const FRONTS: [&[Kind]; 4] = [&[], &[Stitch], &[Change], &[Stitch, Change]];
    const ENDS: [&[Kind]; 4] = [&[], &[Stitch], &[Change, Stitch], &[End, Stitch]];
    let random = &mut Random::new(seed);
    let mut files = Vec::new();
    for jumps in 0..=LONGEST {
        let row = vec![Jump; jumps];
        for (front, end) in (0..16).map(|both| (FRONTS[both / 4], ENDS[both % 4])) {
            let kinds = [front, &row, end].concat();
            files.push(dst_file("", &bytes(&kinds, jumps % 2 == 0, random)));
        }
        for at in 0..=jumps {
            let (before, behind) = row.split_at(at);
            let kinds = [&[Stitch], before, &[Change], behind, &[Stitch]].concat();
            files.push(dst_file("", &bytes(&kinds, at % 2 == 0, random)));
        }
    }
    for at in 0..20 {
        files.push(dst_file("", &going(30 * (at + 1), random)));
    }
    files
}

/// Records up to a length: in turn up to three stitches and a row of jumps, now and then with
/// a colour change at its front, inside it or at its end.
pub fn going(length: usize, random: &mut Random) -> Vec<u8> {
    let mut found = Vec::new();
    while found.len() < length {
        let mut row = vec![Kind::Jump; 1 + random.below(LONGEST)];
        if random.below(3) == 0 {
            row.insert(random.below(row.len() + 1), Kind::Change);
        }
        let kinds = [vec![Kind::Stitch; random.below(4)], row].concat();
        found.extend(bytes(&kinds, random.below(3) == 0, random));
    }
    found
}

/// Records of these kinds, on the spot or with any moves.
fn bytes(kinds: &[Kind], still: bool, random: &mut Random) -> Vec<u8> {
    let one = |&kind: &Kind| match (kind, still) {
        (Kind::Stitch, true) => vec![0, 0, 0x03],
        (Kind::Jump, true) => vec![0, 0, 0x83],
        (Kind::Change, true) => vec![0, 0, 0xC3],
        (Kind::End, true) => vec![0, 0, 0xF3],
        _ => record(Format::Dst, kind, random),
    };
    kinds.iter().flat_map(one).collect()
}
