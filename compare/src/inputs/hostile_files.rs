//! Long files that are costly to read: rows of one record, records by turns,
//! records of all kinds, below plain headers and below the fullest ones; of VP3 also
//! many small blocks.

use crate::inputs::files::{self, LABELS};
use crate::inputs::records::{self, Kind};
use crate::inputs::vp3_parts::{BLOCK, Colour, HEAD, Whole};
use crate::oracle::Format;
use crate::random::Random;

/// What the stitches of a file are made of.
#[derive(Clone, Copy)]
pub enum Body {
    /// These records again and again.
    Turns(&'static str, &'static [Kind]),
    /// Up to three colour changes, a stitch, up to so many jumps and stitches.
    Mixed(usize),
    /// PEC: steps of one byte and of two by turns.
    ShortLong,
    /// PEC: steps of two bytes.
    Long,
    /// EXP, JEF and VP3: controls that only end a run.
    Cuts,
    /// EXP, JEF and VP3: such a control and a stitch by turns.
    CutStitch,
    /// VP3: pairs that do nothing.
    Nothing,
    /// VP3: long stitches, without the pair that the writer puts behind them.
    LongStitches,
    /// VP3: blocks of so many stitches.
    Blocks(usize),
}

/// What stands before the stitches.
#[derive(Clone, Copy, PartialEq)]
pub enum Head {
    /// No colour, or the one that PEC must have.
    Plain,
    /// As many colours as it can hold.
    Colours,
    /// DST: as many lines as it can hold, none of which gives a colour.
    Lines,
}

const HEADS: [Head; 3] = [Head::Plain, Head::Colours, Head::Lines];

use Kind::{Change, Jump, Stitch};

const BODIES: [Body; 17] = [
    Body::Turns("stitches", &[Stitch]),
    Body::Turns("jumps", &[Jump]),
    Body::Turns("colour changes", &[Change]),
    Body::Turns("stitch, jump", &[Stitch, Jump]),
    Body::Turns("two stitches, jump", &[Stitch, Stitch, Jump]),
    Body::Turns("stitch, colour change", &[Stitch, Change]),
    Body::Turns("jump, colour change", &[Jump, Change]),
    Body::Mixed(1),
    Body::Mixed(9),
    Body::ShortLong,
    Body::Long,
    Body::Cuts,
    Body::CutStitch,
    Body::Nothing,
    Body::LongStitches,
    Body::Blocks(0),
    Body::Blocks(1),
];

impl Body {
    pub fn name(self) -> &'static str {
        match self {
            Body::Turns(name, _) => name,
            Body::Mixed(1) => "all kinds, few stitches",
            Body::Mixed(_) => "all kinds",
            Body::ShortLong => "steps of one byte and two by turns",
            Body::Long => "steps of two bytes",
            Body::Cuts => "controls that end a run",
            Body::CutStitch => "control that ends a run, stitch",
            Body::Nothing => "pairs that do nothing",
            Body::LongStitches => "long stitches",
            Body::Blocks(0) => "blocks without stitches",
            Body::Blocks(_) => "blocks of a stitch",
        }
    }

    /// Whether a format has such records.
    fn suits(self, format: Format) -> bool {
        match self {
            Body::Turns(_, kinds) => format != Format::Vp3 || *kinds == [Stitch],
            Body::Mixed(_) => format != Format::Vp3,
            Body::ShortLong | Body::Long => matches!(format, Format::Pes | Format::Pec),
            Body::Cuts | Body::CutStitch => {
                matches!(format, Format::Exp | Format::Jef | Format::Vp3)
            }
            Body::Nothing | Body::LongStitches | Body::Blocks(_) => format == Format::Vp3,
        }
    }

    /// Whether there are blocks to be coloured.
    fn changes(self) -> bool {
        match self {
            Body::Turns(_, kinds) => kinds.contains(&Change),
            Body::Mixed(_) => true,
            _ => false,
        }
    }

    /// Stitch bytes, at least so many.
    fn bytes(self, format: Format, length: usize, random: &mut Random) -> Vec<u8> {
        if let Body::Mixed(most) = self {
            return records::going(format, length, most, random);
        }
        let mut bytes = Vec::new();
        for at in 0.. {
            if bytes.len() >= length {
                break;
            }
            match self {
                Body::Turns(_, kinds) => {
                    let kind = kinds[at % kinds.len()];
                    bytes.extend(records::record(format, kind, random));
                }
                Body::ShortLong if at % 2 == 0 => bytes.push(random.byte() % 128),
                Body::CutStitch if at % 2 == 0 => bytes.extend([1, random.byte()]),
                Body::Cuts | Body::CutStitch if format == Format::Vp3 => bytes.extend([0x80, 3]),
                Body::Cuts | Body::CutStitch => bytes.extend([0x80, 0x80, 7, 0]),
                Body::Nothing => bytes.extend([0x80, 2]),
                Body::LongStitches => {
                    bytes.extend([0x80, 1]);
                    bytes.extend([0; 4].map(|_| random.byte()));
                }
                _ => bytes.extend([0x80 | random.byte() & 0x0F, 5]),
            }
        }
        bytes
    }
}

impl Head {
    pub fn name(self) -> &'static str {
        match self {
            Head::Plain => "plain header",
            Head::Colours => "all colours",
            Head::Lines => "128 lines",
        }
    }

    /// Whether a format has such headers.
    fn suits(self, format: Format) -> bool {
        match self {
            Head::Plain => true,
            Head::Colours => !matches!(format, Format::Exp | Format::Vp3),
            Head::Lines => format == Format::Dst,
        }
    }

    fn bytes(self, format: Format) -> Vec<u8> {
        let colours: Vec<u8> = (0..=255).collect();
        let part = match self {
            Head::Plain => files::pec_part(LABELS[0], 0, &[1], &[]),
            _ => files::pec_part(LABELS[0], 255, &colours, &[]),
        };
        let lines = match self {
            Head::Plain => String::new(),
            Head::Colours => (0..51).map(|at| format!("TC:{at:06X}\r")).collect(),
            Head::Lines => "TC:\r".repeat(128),
        };
        let entries = if self == Head::Plain { 0 } else { 256 };
        let table: Vec<i32> = (0..entries).collect();
        match format {
            Format::Pes => files::pes_file(12, 0, &part).bytes,
            Format::Pec => files::pec_file(part).bytes,
            Format::Dst => files::dst_file(&lines, &[]).bytes,
            Format::Exp => Vec::new(),
            Format::Jef => files::jef_file(116 + 4 * entries, entries, &table, &[]),
            Format::Vp3 => Vec::new(),
        }
    }
}

/// The kinds of file of a format; headers that are not plain only where there
/// are blocks to be coloured.
pub fn kinds(format: Format) -> impl Iterator<Item = (Head, Body)> {
    let heads = HEADS.into_iter().filter(move |head| head.suits(format));
    let all = heads.flat_map(|head| BODIES.map(|body| (head, body)));
    all.filter(move |(head, body)| body.suits(format) && (*head == Head::Plain || body.changes()))
}

/// A file of this length.
pub fn file(format: Format, head: Head, body: Body, length: usize) -> Vec<u8> {
    if format == Format::Vp3 {
        return vp3(body, length);
    }
    let mut file = head.bytes(format);
    file.extend(body.bytes(format, length, &mut Random::new(1)));
    file.truncate(length);
    file
}

/// The same of VP3, whose lengths follow: one block, or blocks of one kind and bytes left
/// over.
fn vp3(body: Body, length: usize) -> Vec<u8> {
    let mut random = Random::new(1);
    let mut file = Whole::default();
    if let Body::Blocks(stitches) = body {
        let block = Colour::of(&[1, 2].repeat(stitches), (100, -100));
        let (count, left) = ((length - HEAD) / (BLOCK + 2 * stitches), length - HEAD);
        file.blocks = vec![block; count];
        file.left_over[2] = vec![0; left % (BLOCK + 2 * stitches)];
        return file.bytes();
    }
    let room = length - HEAD - BLOCK;
    let mut bytes = body.bytes(Format::Vp3, room, &mut random);
    bytes.truncate(room);
    file.blocks.push(Colour::of(&bytes, (0, 0)));
    file.bytes()
}
