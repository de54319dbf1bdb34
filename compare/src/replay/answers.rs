//! The three fixed lists of answers: making them and checking them.

use crate::formats::{color_distance, nearest_index, pec_palette, stream_bounds};
use crate::inputs::leaf_questions::{self, Leaf};
use crate::inputs::{files, lists};
use crate::oracle::{self, Answer, Block, Command, Format, needles, sewing};
use crate::replay::case_bytes::{self, Cursor, put_i16, put_long, put_short, put_u16, put_u32};
use std::path::{Path, PathBuf};
use std::{fmt, fs, io};

/// Every random number of the lists comes from this.
pub const SEED: u64 = 20_261_113;

/// No case and no file in one is longer, since their lengths stand in two bytes.
const LONGEST_CASE: usize = 65_535;
/// Bytes behind a length of one byte are no more than this.
const LONGEST_SHORT: usize = 255;

/// The lists, in the folders they are kept in.
#[derive(Clone, Copy)]
pub enum Kind {
    Reads,
    Writes,
    Choices,
}

pub const KINDS: [Kind; 3] = [Kind::Reads, Kind::Writes, Kind::Choices];

impl Kind {
    pub fn path(self) -> PathBuf {
        let home = Path::new(env!("CARGO_MANIFEST_DIR"));
        home.join(match self {
            Kind::Reads => "../crates/replay_reads/data/reads",
            Kind::Writes => "../crates/replay_writes/data/writes",
            Kind::Choices => "../crates/replay_choices/data/choices",
        })
    }

    pub fn name(self) -> &'static str {
        match self {
            Kind::Reads => "reads",
            Kind::Writes => "writes",
            Kind::Choices => "choices",
        }
    }

    fn make(self) -> Vec<Vec<u8>> {
        match self {
            Kind::Reads => reads(),
            Kind::Writes => writes(),
            Kind::Choices => leaf_questions::all(SEED).iter().map(choice).collect(),
        }
    }

    /// The same case, answered anew; None if it fails a test besides.
    fn again(self, case: &[u8]) -> Option<Vec<u8>> {
        match self {
            Kind::Reads => read_again(case),
            Kind::Writes => write_again(case),
            Kind::Choices => Some(choice(&leaf(case))),
        }
    }

    /// What a case is counted under.
    fn group(self, case: &[u8]) -> String {
        match self {
            Kind::Reads => {
                let mut cursor = Cursor(case);
                let length = cursor.u8();
                oracle::group(cursor.take(length.into())).to_string()
            }
            Kind::Writes => Format::ALL[usize::from(case[0])].ext().to_string(),
            Kind::Choices => format!("what {}", case[0]),
        }
    }
}

/// Writes the three lists and prints their counts.
pub fn write_all() -> io::Result<()> {
    for kind in KINDS {
        let mut list = Vec::new();
        for case in kind.make() {
            put_long(&mut list, &case);
        }
        let path = kind.path();
        fs::create_dir_all(path.parent().expect("a folder"))?;
        fs::write(&path, &list)?;
        report(kind, &list);
    }
    Ok(())
}

/// Recomputes every answer of the three lists; true if none differs.
pub fn check_all() -> io::Result<bool> {
    let mut same = true;
    for kind in KINDS {
        let list = fs::read(kind.path())?;
        for (at, case) in case_bytes::cases(&list).into_iter().enumerate() {
            if kind.again(case).as_deref() != Some(case) {
                println!("{} case {at} differs", kind.name());
                same = false;
            }
        }
        report(kind, &list);
    }
    Ok(same)
}

fn report(kind: Kind, list: &[u8]) {
    let mut groups = Groups::default();
    for case in case_bytes::cases(list) {
        groups.add(&kind.group(case));
    }
    println!("{}: {groups}, {} bytes", kind.name(), list.len());
}

/// How many cases there are under each name.
#[derive(Default)]
pub struct Groups(Vec<(String, usize)>);

impl Groups {
    pub fn add(&mut self, name: &str) {
        match self.0.iter_mut().find(|(known, _)| known == name) {
            Some((_, count)) => *count += 1,
            None => self.0.push((name.to_string(), 1)),
        }
    }
}

impl fmt::Display for Groups {
    fn fmt(&self, out: &mut fmt::Formatter) -> fmt::Result {
        let total: usize = self.0.iter().map(|(_, count)| count).sum();
        let shown = |(name, count): &(String, usize)| format!("{name} {count}");
        let shown: Vec<String> = self.0.iter().map(shown).collect();
        write!(out, "{total} cases ({})", shown.join(", "))
    }
}

/// The reads whose block numbers are certain, short ones first; behind them those of VP3,
/// likewise.
fn reads() -> Vec<Vec<u8>> {
    let case = |file: &files::File| read(&file.ext, &file.bytes);
    let sorted = |files: &[files::File]| {
        let mut cases: Vec<Vec<u8>> = files.iter().filter_map(case).collect();
        cases.sort_by_key(Vec::len);
        cases
    };
    [sorted(&files::all(SEED)), sorted(&files::all_vp3())].concat()
}

/// A file with what the published Rust reads in it, as a case; none if its block
/// numbers are not certain or it does not fit the layout.
pub fn read(ext: &[u8], file: &[u8]) -> Option<Vec<u8>> {
    read_case(ext, file, &oracle::read(ext, file))
}

fn read_case(ext: &[u8], file: &[u8], answer: &Answer) -> Option<Vec<u8>> {
    if ext.len() > LONGEST_SHORT || file.len() > LONGEST_CASE {
        return None;
    }
    let mut case = Vec::new();
    put_short(&mut case, ext);
    put_long(&mut case, file);
    match answer {
        Err(number) => case.push(*number),
        Ok(reading) if !reading.exact || reading.label.len() > LONGEST_SHORT => return None,
        Ok(reading) => {
            case.push(0);
            put_short(&mut case, &reading.label);
            put_u16(&mut case, reading.cuts as usize);
            put_u16(&mut case, reading.blocks.len());
            for block in &reading.blocks {
                put_block(&mut case, block);
            }
        }
    }
    (case.len() <= LONGEST_CASE).then_some(case)
}

fn put_block(case: &mut Vec<u8>, block: &Block) {
    put_u16(case, block.number as usize);
    case.extend_from_slice(&block.colour);
    put_u16(case, block.runs.len());
    for run in &block.runs {
        put_u16(case, run.len());
        for (x, y) in run {
            case.extend_from_slice(&x.to_le_bytes());
            case.extend_from_slice(&y.to_le_bytes());
        }
    }
}

fn read_again(case: &[u8]) -> Option<Vec<u8>> {
    let mut cursor = Cursor(case);
    let length = cursor.u8();
    let ext = cursor.take(length.into());
    let length = cursor.u16();
    read(ext, cursor.take(length.into()))
}

/// The writes, those of few commands first; behind them those of VP3, likewise.
fn writes() -> Vec<Vec<u8>> {
    let mut lists: Vec<(Format, lists::List)> = Vec::new();
    for format in Format::ALL {
        lists.extend(
            lists::all(format, SEED)
                .into_iter()
                .map(|list| (format, list)),
        );
    }
    lists.sort_by_key(|(format, list)| (*format == Format::Vp3, list.cmds.len()));
    let case = |(format, list): &(Format, lists::List)| {
        let case = write(*format, &list.name, &list.cmds, &list.threads);
        case.expect("a case that fits the layout")
    };
    lists.iter().map(case).collect()
}

/// A list with the file that the published Rust writes of it, as a case; none
/// if it does not fit the layout.
pub fn write(
    format: Format,
    name: &[u8],
    cmds: &[Command],
    threads: &[[u8; 3]],
) -> Option<Vec<u8>> {
    let file = oracle::write(format, name, cmds, threads);
    if file.len() > LONGEST_CASE {
        return None;
    }
    let mut case = asked(format, name, cmds, threads);
    put_u16(&mut case, file.len());
    case.extend(case_bytes::pack(&file));
    (case.len() <= LONGEST_CASE).then_some(case)
}

/// The same for any list, with the length of the file in four bytes.
pub fn write_long(format: Format, name: &[u8], cmds: &[Command], threads: &[[u8; 3]]) -> Vec<u8> {
    let file = oracle::write(format, name, cmds, threads);
    let mut case = asked(format, name, cmds, threads);
    put_u32(&mut case, file.len());
    case.extend(case_bytes::pack(&file));
    case
}

/// What a case asks: format, name, commands and threads.
fn asked(format: Format, name: &[u8], cmds: &[Command], threads: &[[u8; 3]]) -> Vec<u8> {
    let mut case = vec![format as u8];
    put_short(&mut case, name);
    put_u16(&mut case, cmds.len());
    for &(x, y, kind) in cmds {
        put_i16(&mut case, x);
        put_i16(&mut case, y);
        case.push(kind);
    }
    case.push(u8::try_from(threads.len()).expect("at most 255 threads"));
    case.extend(threads.as_flattened());
    case
}

/// Besides: the list is in the domain, the packed file opens to the length
/// told, and it sews what the list sews; in VP3 it has the list's needle places.
fn write_again(case: &[u8]) -> Option<Vec<u8>> {
    let mut cursor = Cursor(case);
    let format = Format::ALL[usize::from(cursor.u8())];
    let length = cursor.u8();
    let name = cursor.take(length.into());
    let count = cursor.u16();
    let command = |cursor: &mut Cursor| (cursor.i16().into(), cursor.i16().into(), cursor.u8());
    let cmds: Vec<Command> = (0..count).map(|_| command(&mut cursor)).collect();
    let count = cursor.u8();
    let threads: Vec<[u8; 3]> = (0..count).map(|_| cursor.colour()).collect();
    let length = cursor.u16();
    let file = case_bytes::unpack(cursor.0);
    let reading = oracle::read(format.ext().as_bytes(), &file).ok()?;
    let sews = match format {
        Format::Vp3 => needles::of_file(&reading.blocks) == needles::of_list(&cmds),
        _ => sewing::of_file(&reading.blocks) == sewing::of_list(&cmds),
    };
    let opens = file.len() == usize::from(length);
    let accepted = lists::accepted(format, &cmds, &threads);
    let right = accepted && opens && sews;
    right.then(|| write(format, name, &cmds, &threads))?
}

fn choice(leaf: &Leaf) -> Vec<u8> {
    let mut case = Vec::new();
    match leaf {
        Leaf::Distance(a, b) => {
            case.extend([&[0], &a[..], b].concat());
            let far = u32::try_from(color_distance(*a, *b)).expect("32 bits");
            case.extend(far.to_le_bytes());
        }
        Leaf::Nearest(colour) => {
            case.extend([&[1], &colour[..]].concat());
            case.push(entry(nearest_index(*colour, &pec_palette())));
        }
        Leaf::Table(threads) => {
            case.extend([2, threads.len() as u8]);
            case.extend(threads.as_flattened());
            case.extend(table(threads));
        }
        Leaf::NearestOf(colour, bits) => {
            case.extend([&[3], &colour[..], bits].concat());
            case.push(entry(nearest_index(*colour, &part(bits))));
        }
        Leaf::Bounds(places) => {
            case.push(4);
            put_bounds(&mut case, places);
        }
    }
    case
}

/// The number of an entry, 255 for none.
fn entry(index: Option<usize>) -> u8 {
    index.map_or(255, |index| index as u8)
}

/// The PEC chart with only those entries that have their bit set.
fn part(bits: &[u8; 9]) -> Vec<Option<[u8; 3]>> {
    let there = |entry: usize| bits[entry / 8] >> (entry % 8) & 1 == 1;
    let entries = pec_palette().into_iter().enumerate();
    entries
        .map(|(at, colour)| colour.filter(|_| there(at)))
        .collect()
}

/// The thread table of the JEF file of a list that only ends.
fn table(threads: &[[u8; 3]]) -> Vec<u8> {
    let file = oracle::write(Format::Jef, b"", &[(0, 0, 4)], threads);
    let entries = file[116..].chunks(4).take(threads.len());
    let number = |entry: &[u8]| i32::from_le_bytes(entry.try_into().unwrap());
    entries
        .map(|entry| u8::try_from(number(entry)).expect("an entry of the chart"))
        .collect()
}

fn put_bounds(case: &mut Vec<u8>, places: &[(i32, i32)]) {
    put_u16(case, places.len());
    for &(x, y) in places {
        put_i16(case, x);
        put_i16(case, y);
    }
    let stitch = |&(x, y): &(i32, i32)| oracle::command(&(x, y, 0));
    let cmds: Vec<_> = places.iter().map(stitch).collect();
    let bounds = stream_bounds(&cmds);
    for value in [bounds.min.x, bounds.min.y, bounds.max.x, bounds.max.y] {
        put_i16(case, value as i32);
    }
}

fn leaf(case: &[u8]) -> Leaf {
    let mut cursor = Cursor(case);
    match cursor.u8() {
        0 => Leaf::Distance(cursor.colour(), cursor.colour()),
        1 => Leaf::Nearest(cursor.colour()),
        2 => {
            let count = cursor.u8();
            Leaf::Table((0..count).map(|_| cursor.colour()).collect())
        }
        3 => {
            let colour = cursor.colour();
            Leaf::NearestOf(colour, cursor.take(9).try_into().unwrap())
        }
        _ => {
            let count = cursor.u16();
            let place = |cursor: &mut Cursor| (cursor.i16().into(), cursor.i16().into());
            Leaf::Bounds((0..count).map(|_| place(&mut cursor)).collect())
        }
    }
}
