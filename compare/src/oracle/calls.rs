//! How the published Rust is called: one write or one read, one answer. Reads of VP3, which it
//! does not have, are those of `vp3_reader`, and the cuts of a DST those of `dst_cuts`.

use crate::design::{Block as Colour, Design};
use crate::formats::read::{StitchFile, read_stitch_file};
use crate::formats::{Cmd, ExportOptions, Op, dst, pes};
use crate::oracle::{block_numbers, dst_cuts, more_writers, vp3_reader};

/// Files read are no longer than this.
pub const LONGEST: usize = 2_097_152;

#[derive(Clone, Copy, Debug, PartialEq, Eq)]
pub enum Format {
    Pes,
    Pec,
    Dst,
    Exp,
    Jef,
    Vp3,
}

impl Format {
    /// In the order of their numbers in the lists.
    pub const ALL: [Format; 6] = [
        Format::Pes,
        Format::Pec,
        Format::Dst,
        Format::Exp,
        Format::Jef,
        Format::Vp3,
    ];

    pub fn ext(self) -> &'static str {
        match self {
            Format::Pes => "pes",
            Format::Pec => "pec",
            Format::Dst => "dst",
            Format::Exp => "exp",
            Format::Jef => "jef",
            Format::Vp3 => "vp3",
        }
    }

    pub fn of(ext: &str) -> Option<Format> {
        let same = |format: &Format| format.ext().eq_ignore_ascii_case(ext);
        Format::ALL.into_iter().find(same)
    }

    /// The least and the greatest step of a command; in VP3 those that the range of places
    /// allows.
    pub fn steps(self) -> (i32, i32) {
        match self {
            Format::Pes | Format::Pec => (-2048, 2047),
            Format::Dst => (-121, 121),
            Format::Exp | Format::Jef => (-127, 127),
            Format::Vp3 => (-32_000, 32_000),
        }
    }
}

/// What a case with this extension is counted under.
pub fn group(ext: &[u8]) -> &'static str {
    let format = std::str::from_utf8(ext).ok().and_then(Format::of);
    format.map_or("other", Format::ext)
}

/// Place and kind (0 to 4: stitch, jump, trim, colour change, end).
pub type Command = (i32, i32, u8);

pub fn command(&(x, y, kind): &Command) -> Cmd {
    let op = match kind {
        0 => Op::Stitch,
        1 => Op::Jump,
        2 => Op::Trim,
        3 => Op::ColorChange,
        _ => Op::End,
    };
    Cmd {
        x: x.into(),
        y: y.into(),
        op,
    }
}

/// The file written for a list in document 01's domain; the name is UTF-8.
pub fn write(format: Format, name: &[u8], cmds: &[Command], threads: &[[u8; 3]]) -> Vec<u8> {
    Ready::new(name, cmds, threads).write(format)
}

/// A list as the published Rust takes it.
pub struct Ready {
    name: String,
    threads: Vec<[u8; 3]>,
    cmds: Vec<Cmd>,
    design: Design,
}

impl Ready {
    pub fn new(name: &[u8], cmds: &[Command], threads: &[[u8; 3]]) -> Ready {
        Ready {
            name: String::from_utf8(name.to_vec()).expect("a name in UTF-8"),
            threads: threads.to_vec(),
            cmds: cmds.iter().map(command).collect(),
            design: design(threads),
        }
    }

    pub fn write(&self, format: Format) -> Vec<u8> {
        self.lay(format);
        self.write_laid(format)
    }

    /// Lays a copy of the list ready for the writers of EXP, JEF and VP3, which make
    /// theirs from the design and so take it away.
    pub fn lay(&self, format: Format) {
        if matches!(format, Format::Exp | Format::Jef | Format::Vp3) {
            self.design.ready.replace(self.cmds.clone());
        }
    }

    /// The file, the list being laid ready.
    pub fn write_laid(&self, format: Format) -> Vec<u8> {
        let (name, cmds, threads) = (&self.name, &self.cmds, &self.threads);
        match format {
            Format::Pes => pes::pes_from_stream(name, cmds, threads),
            Format::Pec => {
                let mut file = b"#PEC0001".to_vec();
                pes::write_pec(&mut file, name, cmds, threads);
                file
            }
            Format::Dst => dst::dst_from_stream(name, cmds),
            Format::Exp => more_writers::more::write_exp_with(&self.design, &options()),
            Format::Jef => more_writers::more::write_jef_with(&self.design, &options()),
            Format::Vp3 => more_writers::more::write_vp3_with(&self.design, &options()),
        }
    }
}

fn options() -> ExportOptions {
    ExportOptions::default()
}

fn design(threads: &[[u8; 3]]) -> Design {
    let block = |&color: &[u8; 3]| Colour {
        color,
        ..Default::default()
    };
    Design {
        blocks: threads.iter().map(block).collect(),
        ..Default::default()
    }
}

#[derive(Clone, Debug, PartialEq)]
pub struct Block {
    pub number: u32,
    pub colour: [u8; 3],
    pub runs: Vec<Vec<(i32, i32)>>,
}

#[derive(Clone, Debug, PartialEq)]
pub struct Reading {
    pub label: Vec<u8>,
    pub blocks: Vec<Block>,
    pub cuts: u32,
    /// The block numbers are certain; else they are the least that fit.
    pub exact: bool,
}

/// What a file holds, or the number of the refusal.
pub type Answer = std::result::Result<Reading, u8>;

pub fn read(ext: &[u8], file: &[u8]) -> Answer {
    read_by(ext, file, block_numbers::numbers)
}

/// The same in two readings, for files in which fewer than eight blocks in a
/// row are empty: their colours alone tell the numbers.
pub fn read_quickly(ext: &[u8], file: &[u8]) -> Answer {
    read_by(ext, file, block_numbers::by_order)
}

fn read_by(ext: &[u8], file: &[u8], find: fn(Format, &[u8]) -> (Vec<u32>, bool)) -> Answer {
    let ext = std::str::from_utf8(ext).map_err(|_| 1)?;
    let format = Format::of(ext);
    if file.len() > LONGEST && format.is_some() {
        return Err(2);
    }
    if format == Some(Format::Vp3) {
        return vp3_reader::read(file);
    }
    let read = read_stitch_file(file, ext).map_err(|error| refusal(&error.0))?;
    let format = format.expect("a format that the Rust reads");
    let (found, exact) = find(format, file);
    assert_eq!(found.len(), read.blocks.len(), "a number for each block");
    let mut reading = reading(read, &found, exact);
    if format == Format::Dst {
        reading.cuts = dst_cuts::count(file);
    }
    Ok(reading)
}

fn reading(read: StitchFile, found: &[u32], exact: bool) -> Reading {
    let block = |(block, &number): (crate::formats::read::StitchBlock, &u32)| Block {
        number,
        colour: block.color,
        runs: block.runs.iter().map(|run| points(run)).collect(),
    };
    let blocks: Vec<Block> = read.blocks.into_iter().zip(found).map(block).collect();
    Reading {
        label: read.name.into_bytes(),
        cuts: runs_less_blocks(&blocks),
        blocks,
        exact,
    }
}

/// The cuts of every format but DST.
pub fn runs_less_blocks(blocks: &[Block]) -> u32 {
    blocks.iter().map(|block| block.runs.len() as u32 - 1).sum()
}

fn points(run: &[crate::geom::P]) -> Vec<(i32, i32)> {
    run.iter().map(|p| (p.x as i32, p.y as i32)).collect()
}

/// Document 01's number for a message of the published reader.
fn refusal(message: &str) -> u8 {
    const NUMBERS: [(&str, u8); 7] = [
        ("can't read", 1),
        ("not a PES file", 3),
        ("PES header is truncated", 4),
        ("PES header points before the start", 5),
        ("PEC header is truncated", 4),
        ("DST file is too short", 4),
        ("JEF file is too short", 4),
    ];
    let known = NUMBERS.iter().find(|(text, _)| message.starts_with(text));
    known
        .unwrap_or_else(|| panic!("unknown refusal: {message}"))
        .1
}
