//! Where the fields of a whole VP3 file stand, so that they can be changed.

use std::ops::Range;

#[derive(Default)]
pub struct Marks {
    /// In the order of their places.
    pub lengths: Vec<Length>,
    /// Where the count of colour blocks stands.
    pub count: usize,
    /// The colour part of each block.
    pub colours: Vec<Range<usize>>,
    /// The stitch bytes of each block.
    pub stitches: Vec<Range<usize>>,
}

/// A length of a part or of a text.
#[derive(Clone, Copy)]
pub struct Length {
    pub at: usize,
    /// How many bytes it has.
    pub bytes: usize,
    pub told: usize,
    /// The greatest that its enclosing part allows.
    pub room: usize,
}

/// None if the file is not whole.
pub fn of(file: &[u8]) -> Option<Marks> {
    let marks = Marks::default();
    let mut walk = Walk { file, at: 6, marks };
    walk.text(file.len())?;
    walk.at += 3;
    let inner = walk.length(4, file.len())?;
    walk.text(inner)?;
    walk.at += 16 + 4 + 5 + 3;
    let design = walk.length(4, inner)?;
    walk.at += 8 + 3 + 24;
    walk.text(design)?;
    walk.at += 2 + 16 + 6;
    walk.text(design)?;
    walk.marks.count = walk.at;
    let count = number(file.get(walk.at..walk.at + 2)?);
    walk.at += 2;
    for _ in 0..count {
        walk.block(design)?;
    }
    Some(walk.marks)
}

/// Where the first stitch byte stands; the middle of a file that is not whole.
pub fn first_stitch(file: &[u8]) -> usize {
    let first = of(file).and_then(|marks| marks.stitches.first().map(|range| range.start));
    first.unwrap_or(file.len() / 2)
}

pub fn number(bytes: &[u8]) -> usize {
    let shifted = |sum: usize, &byte: &u8| 256 * sum + usize::from(byte);
    bytes.iter().fold(0, shifted)
}

struct Walk<'a> {
    file: &'a [u8],
    at: usize,
    marks: Marks,
}

impl Walk<'_> {
    /// Goes over a length; the end of what it is the length of.
    fn length(&mut self, bytes: usize, end: usize) -> Option<usize> {
        let at = self.at;
        self.at += bytes;
        let room = end.checked_sub(self.at)?;
        let told = number(self.file.get(at..self.at)?);
        self.marks.lengths.push(Length {
            at,
            bytes,
            told,
            room,
        });
        (told <= room).then_some(self.at + told)
    }

    fn text(&mut self, end: usize) -> Option<()> {
        self.at = self.length(2, end)?;
        Some(())
    }

    fn block(&mut self, design: usize) -> Option<()> {
        self.at += 3;
        let end = self.length(4, design)?;
        self.marks.colours.push(self.at..end);
        self.at += 8 + 2 + 3 + 3 + 2;
        for _ in 0..3 {
            self.text(end)?;
        }
        self.at += 4 + 4 + 3;
        let stitches_end = self.length(4, end)?;
        let stitches = self.at + 3..stitches_end;
        if stitches.start > stitches.end {
            return None;
        }
        self.marks.stitches.push(stitches);
        self.at = end;
        Some(())
    }
}
