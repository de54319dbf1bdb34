//! A plain reader of VP3 files, written from request 1's text: the published Rust has
//! none. It goes through the file from front to back, so the first fault that it
//! meets is the first by place in the file.

use crate::oracle::calls::runs_less_blocks;
use crate::oracle::{Answer, Block, Reading};

type Place = (i32, i32);
type Run = Vec<Place>;

/// The only fixed bytes that are looked at.
const OPENING: &[u8; 6] = b"%vsm%\0";

const NOT_VP3: u8 = 3;
/// A part ends before or inside a fixed field.
const CUT: u8 = 4;
/// A length passes its enclosing part, or a place or block start 32 signed bits.
const PASSES: u8 = 12;

/// What the file says; it is not longer than a file may be.
pub fn read(file: &[u8]) -> Answer {
    let rest = file.strip_prefix(OPENING).ok_or(NOT_VP3)?;
    let mut file = Part(rest);
    file.text()?;
    file.field::<3>()?;
    let mut inner = file.part()?;
    inner.text()?;
    for _bound in 0..4 {
        inner.field::<4>()?;
    }
    let _commands = inner.field::<4>()?;
    inner.field::<5>()?;
    inner.field::<3>()?;
    let mut design = inner.part()?;
    let count = to_the_count(&mut design)?;
    let blocks = blocks(&mut design, count)?;
    Ok(Reading {
        label: Vec::new(),
        cuts: runs_less_blocks(&blocks),
        blocks,
        exact: true,
    })
}

/// The fields of the design part before its colour blocks; the last is their count.
fn to_the_count(design: &mut Part) -> Result<u32, u8> {
    let _centre = design.field::<8>()?;
    design.field::<3>()?;
    for _size in 0..6 {
        design.field::<4>()?;
    }
    design.text()?;
    design.field::<2>()?;
    design.field::<16>()?;
    design.field::<6>()?;
    design.text()?;
    Ok(u16::from_be_bytes(design.field()?).into())
}

/// So many colour blocks; those without runs are left out.
fn blocks(design: &mut Part, count: u32) -> Result<Vec<Block>, u8> {
    let mut found = Vec::new();
    let mut start = (0, 0);
    for number in 0..count {
        design.field::<3>()?;
        let follows = number + 1 < count;
        let (colour, runs, next) = block(design.part()?, start, follows)?;
        start = next;
        if !runs.is_empty() {
            found.push(Block {
                number,
                colour,
                runs,
            });
        }
    }
    Ok(found)
}

/// One colour part: its colour, its runs, and where the next block starts if one
/// follows.
fn block(mut part: Part, start: Place, follows: bool) -> Result<([u8; 3], Vec<Run>, Place), u8> {
    let _stored_start = part.field::<8>()?;
    part.field::<2>()?;
    let colour = part.field::<3>()?;
    part.field::<3>()?;
    part.field::<2>()?;
    for _text in 0..3 {
        part.text()?;
    }
    let mut next = start;
    let right = i32::from_be_bytes(part.field()?);
    if follows {
        next.0 = moved(start.0, i64::from(right) / 100)?;
    }
    let up = i32::from_be_bytes(part.field()?);
    if follows {
        next.1 = moved(start.1, -(i64::from(up) / 100))?;
    }
    part.field::<3>()?;
    let mut stitches = part.part()?;
    stitches.field::<3>()?;
    Ok((colour, runs(stitches.0, start)?, next))
}

/// The runs of stitch bytes from a place on. Bytes that run out end them quietly.
fn runs(mut bytes: &[u8], start: Place) -> Result<Vec<Run>, u8> {
    let (mut found, mut here, mut open) = (Vec::new(), start, false);
    while let [first, second, rest @ ..] = bytes {
        bytes = rest;
        let (x, y) = match (first, second) {
            (0x80, 0x01) => {
                let [a, b, c, d, rest @ ..] = bytes else {
                    break;
                };
                bytes = rest;
                let step = |high: &u8, low: &u8| i16::from_be_bytes([*high, *low]);
                (step(a, b).into(), step(c, d).into())
            }
            (0x80, 0x03) => {
                open = false;
                continue;
            }
            (0x80, _) => continue,
            (x, y) => (i64::from(*x as i8), i64::from(*y as i8)),
        };
        let there = (moved(here.0, x)?, moved(here.1, y)?);
        if !open {
            found.push(vec![here]);
            open = true;
        }
        found.last_mut().expect("an open run").push(there);
        here = there;
    }
    Ok(found)
}

/// One axis of a place or block start.
fn moved(from: i32, by: i64) -> Result<i32, u8> {
    i32::try_from(i64::from(from) + by).map_err(|_| PASSES)
}

/// What is left of a part of the file.
struct Part<'a>(&'a [u8]);

impl<'a> Part<'a> {
    /// A field of so many bytes.
    fn field<const N: usize>(&mut self) -> Result<[u8; N], u8> {
        let (field, rest) = self.0.split_first_chunk().ok_or(CUT)?;
        self.0 = rest;
        Ok(*field)
    }

    /// The part behind its length of four bytes.
    fn part(&mut self) -> Result<Part<'a>, u8> {
        let length = u32::from_be_bytes(self.field()?);
        self.enclosed(length)
    }

    /// A text behind its length of two bytes.
    fn text(&mut self) -> Result<Part<'a>, u8> {
        let length = u16::from_be_bytes(self.field()?);
        self.enclosed(length.into())
    }

    fn enclosed(&mut self, length: u32) -> Result<Part<'a>, u8> {
        let (part, rest) = self.0.split_at_checked(length as usize).ok_or(PASSES)?;
        self.0 = rest;
        Ok(Part(part))
    }
}
