//! As many files to read as are wanted, hard ones, in equal shares of the
//! formats: cut short, written and damaged, made of bytes that matter, and with
//! odd headers; as `fitting` gives them, only where document 01 holds the rules and
//! the published Rust for equal.

use crate::inputs::files::{self, EXTS, File, PAIRS, STEPS, THIRDS};
use crate::inputs::{headers, jump_rows, lists, non_ascii, records, vp3_files, vp3_marks};
use crate::oracle::{self, Format, block_numbers};
use crate::random::Random;
use std::sync::Arc;

/// Bytes that matter to some format.
const MATTER: [u8; 23] = [
    0x00, 0x01, 0x02, 0x03, 0x04, 0x10, 0x3F, 0x40, 0x7F, 0x80, 0x80, 0x83, 0x90, 0xA0, 0xB0, 0xC3,
    0xF3, 0xFE, 0xFF, 0x23, 0x0D, 0x0A, 0x20,
];

/// Files written from the lists of the list of writes, for each format.
pub type Boundary = Arc<Vec<Vec<Vec<u8>>>>;

/// The files of a seed, without end.
pub struct HardFiles {
    random: Random,
    /// Those that take turns.
    formats: &'static [Format],
    made: usize,
    boundary: Boundary,
    sweeps: Vec<Sweep>,
}

/// A short file that is cut at one length after the other.
struct Sweep {
    whole: Vec<u8>,
    next: usize,
}

impl HardFiles {
    pub fn new(seed: u64) -> HardFiles {
        HardFiles::from(boundary(seed), Random::new(seed))
    }

    /// Only those of VP3.
    pub fn of_vp3(seed: u64) -> HardFiles {
        let mut files = HardFiles::new(seed);
        files.formats = &[Format::Vp3];
        files
    }

    fn from(boundary: Boundary, mut random: Random) -> HardFiles {
        let sweep = |format: Format| Sweep {
            whole: short(format, &mut random),
            next: 0,
        };
        HardFiles {
            boundary,
            sweeps: Format::ALL.map(sweep).into(),
            formats: &Format::ALL,
            random,
            made: 0,
        }
    }

    /// The files from one on, of random numbers of their own; their sweeps begin
    /// anywhere.
    pub fn part(boundary: &Boundary, first: usize, random: Random) -> HardFiles {
        let mut files = HardFiles::from(boundary.clone(), random);
        files.made = first;
        for sweep in &mut files.sweeps {
            sweep.next = files.random.below(sweep.whole.len() + 1);
        }
        files
    }

    /// The next file in the domain that `fit` takes, and what it makes of it; those
    /// that it does not take are left out.
    pub fn fitting<T>(&mut self, fit: impl Fn(&File) -> Option<T>) -> (File, T) {
        loop {
            let file = self.file();
            if !files::in_domain(&file) {
                continue;
            }
            if let Some(made) = fit(&file) {
                self.made += 1;
                return (file, made);
            }
        }
    }

    /// The next file of a part, and as the published Rust is asked about it.
    pub fn any(&mut self) -> (File, Vec<u8>) {
        loop {
            let mut file = self.file();
            if self.random.below(24) == 0 {
                non_ascii::raise(&mut file, &mut self.random);
            }
            if let Some(asked) = non_ascii::in_ascii(&file) {
                self.made += 1;
                return (file, asked);
            }
        }
    }

    /// The next file, of the format and the kind whose turn it is.
    fn file(&mut self) -> File {
        let format = self.formats[self.made % self.formats.len()];
        let kinds = if format == Format::Exp { 3 } else { 4 };
        let kind = self.made / self.formats.len() % kinds;
        let bytes = match kind {
            0 => self.cut(format),
            1 => self.damaged(format),
            2 => self.matters(format),
            _ => headers::odd(format, &mut self.random),
        };
        let ext = match self.random.below(50) {
            0 if kind != 0 => self.random.pick(&EXTS).to_vec(),
            1..8 => files::any_case(format, &mut self.random),
            _ => format.ext().as_bytes().to_vec(),
        };
        File { ext, bytes }
    }

    /// A short file cut at each length in turn, or any cut at a random one.
    fn cut(&mut self, format: Format) -> Vec<u8> {
        if self.random.below(2) == 0 {
            let mut bytes = self.whole_file(format);
            let end = place(format, &bytes, &mut self.random);
            bytes.truncate(end);
            return bytes;
        }
        let sweep = &mut self.sweeps[format as usize];
        if sweep.next > sweep.whole.len() {
            // The first sweep went through the header: now only its end.
            let whole = short(format, &mut self.random);
            let next = start(format, &whole).saturating_sub(20);
            *sweep = Sweep { whole, next };
        }
        sweep.next += 1;
        sweep.whole[..sweep.next - 1].to_vec()
    }

    /// A written file, most with up to three edits.
    fn damaged(&mut self, format: Format) -> Vec<u8> {
        let mut bytes = self.whole_file(format);
        for _ in 0..self.random.pick(&[0, 1, 1, 1, 2, 2, 3, 3]) {
            edit(format, &mut bytes, &mut self.random);
        }
        bytes
    }

    /// A file that the published Rust writes of a boundary or a random list.
    fn whole_file(&mut self, format: Format) -> Vec<u8> {
        let random = &mut self.random;
        if random.below(4) == 0 {
            let files = &self.boundary[format as usize];
            return files[random.below(files.len())].clone();
        }
        let length = match random.below(150) {
            0 => 1 + random.below(2_000),
            1..8 => 1 + random.below(200),
            _ => 1 + random.below(40),
        };
        written(format, &lists::random(format, length, random))
    }

    /// Bytes that matter, or whole records, behind a header in order.
    fn matters(&mut self, format: Format) -> Vec<u8> {
        let random = &mut self.random;
        let length = match random.below(150) {
            0 => random.below(12_000),
            1..12 => random.below(2_000),
            _ => random.below(200),
        };
        let body = match random.below(4) {
            0 | 1 => records::mixed(format, length, random),
            2 if format == Format::Dst => jump_rows::going(length, random),
            2 => records::going(format, length, 5, random),
            _ => scattered(format, length, random),
        };
        let mut bytes = headers::plain(format, &body, random);
        if random.below(3) == 0 {
            edit(format, &mut bytes, random);
        }
        bytes
    }
}

pub fn boundary(seed: u64) -> Boundary {
    let files = |format: Format| {
        let lists = lists::all(format, seed);
        let write = |list: &lists::List| written(format, list);
        lists.iter().map(write).collect()
    };
    Arc::new(Format::ALL.map(files).into())
}

fn written(format: Format, list: &lists::List) -> Vec<u8> {
    oracle::write(format, &list.name, &list.cmds, &list.threads)
}

/// A short file with a header in order.
fn short(format: Format, random: &mut Random) -> Vec<u8> {
    let length = 10 + random.below(60);
    let body = records::mixed(format, length, random);
    headers::plain(format, &body, random)
}

/// Bytes that matter to the format, in no order.
fn scattered(format: Format, length: usize, random: &mut Random) -> Vec<u8> {
    match format {
        Format::Pes | Format::Pec => files::body(length, &STEPS, random),
        Format::Exp | Format::Jef => files::body(length, &PAIRS, random),
        Format::Vp3 => files::body(length, &vp3_files::BYTES, random),
        Format::Dst => {
            let mut bytes = files::body(length, &[0, 1, 2, 0x80], random);
            for third in bytes.iter_mut().skip(2).step_by(3) {
                *third = random.pick(&THIRDS);
            }
            bytes
        }
    }
}

/// Where the stitches of a file begin.
fn start(format: Format, bytes: &[u8]) -> usize {
    if format == Format::Vp3 {
        return vp3_marks::first_stitch(bytes);
    }
    bytes.len() - block_numbers::stitches(format, bytes).len()
}

/// A place in a file or at its end, most of them among the first stitches.
fn place(format: Format, bytes: &[u8], random: &mut Random) -> usize {
    let start = start(format, bytes);
    let last = match random.below(4) {
        0 => return random.below(bytes.len() + 1),
        1 => bytes.len(),
        _ => bytes.len().min(start + 100),
    };
    start + random.below(last - start + 1)
}

/// Turns a bit, or puts, drops or adds a byte.
fn edit(format: Format, bytes: &mut Vec<u8>, random: &mut Random) {
    let at = place(format, bytes, random);
    if at == bytes.len() {
        bytes.push(random.pick(&MATTER));
        return;
    }
    match random.below(5) {
        0 | 1 => bytes[at] ^= 1 << random.below(8),
        2 => bytes[at] = random.pick(&MATTER),
        3 => bytes.insert(at, random.pick(&MATTER)),
        _ => {
            bytes.remove(at);
        }
    }
}
