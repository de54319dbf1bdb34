//! The port's read and label against the published Rust, in VP3 against the plain reader:
//! number, counts and every cell of the buffers, those past the answer too; and the
//! label's bytes. The same file is held against hoops.

use crate::against::hoops::{Hoops, Least};
use crate::against::lent_cells::Lent;
use crate::against::tally::{Calls, Function, Told};
use crate::inputs::files::File;
use crate::oracle::{Answer, hoop};
use crate::port::{self, Cells};
use crate::random::Random;

/// Cells are set to one of these before a call; no count is, and no place is both.
const MARKS: [u32; 2] = [0xA5A5_A5A5, 0x5A5A_5A5A];

/// The counts by name.
const COUNTS: [&str; 4] = ["point count", "run count", "block count", "cut count"];

/// The lengths of the buffers lent: places, runs, blocks.
type Lengths = [usize; 3];

/// Buffers for the calls.
#[derive(Default)]
pub struct Readings {
    places: Lent<i32>,
    runs: Lent<u32>,
    blocks: Lent<u32>,
    counts: [Lent<u32>; 4],
    start: Lent<u64>,
    length: Lent<u64>,
    hoops: Hoops,
}

impl Readings {
    /// Reads a file with many sets of buffers, asks for its label and holds it against many
    /// hoops; the published Rust's answer is that to the file in ASCII.
    pub fn compare(
        &mut self,
        file: &File,
        in_ascii: &[u8],
        answer: &Answer,
        random: &mut Random,
    ) -> (Told, Calls) {
        let mut calls = Calls::default();
        let cells = answer.as_ref().map(Cells::of).map_err(|&number| number);
        for (at, lengths) in trials(&cells, file.bytes.len()).into_iter().enumerate() {
            let wanted = number(&cells, lengths);
            let found = self.read(file, &cells, wanted, lengths, MARKS[at % 2]);
            let found = found.map(|what| format!("buffers of {lengths:?} cells: {what}"));
            calls.take(Function::Read, Some(wanted), found);
        }
        let label = answer.as_ref().map(|reading| &reading.label[..]);
        let label = label.map_err(|&number| number);
        let found = self.label(file, in_ascii, label);
        calls.take(Function::Label, Some(label.err().unwrap_or(0)), found);
        let own = self.least(file);
        self.hoops.compare(file, answer, own, random, &mut calls);
        let mut told = Told {
            number: cells.as_ref().err().copied().unwrap_or(0),
            length: file.bytes.len(),
            ..Told::default()
        };
        if let Ok(cells) = &cells {
            let [points, runs, blocks, _] = cells.counts().map(|count| count as usize);
            told.sizes = [points, runs, blocks];
        }
        (told, calls)
    }

    /// What differs in one read.
    fn read(
        &mut self,
        file: &File,
        cells: &Result<Cells, u8>,
        wanted: u8,
        lengths: Lengths,
        mark: u32,
    ) -> Option<String> {
        let number = self.call(file, lengths, mark);
        if number != u32::from(wanted) {
            return Some(format!("number {number}, wanted {wanted}"));
        }
        let empty: (&[i32], &[u32], &[u32]) = (&[], &[], &[]);
        let (counts, (places, runs, blocks)) = match cells {
            Ok(cells) if wanted == 0 => {
                let filled = (&cells.places[..], &cells.runs[..], &cells.blocks[..]);
                (cells.counts(), filled)
            }
            _ => ([0; 4], empty),
        };
        self.counts(counts)
            .or_else(|| self.blocks.difference("blocks", blocks))
            .or_else(|| self.runs.difference("runs", runs))
            .or_else(|| self.places.difference("places", places))
    }

    /// The number that the port's read answers.
    fn call(&mut self, file: &File, lengths: Lengths, mark: u32) -> u32 {
        port::read(
            &file.ext,
            &file.bytes,
            self.places.lend(lengths[0], mark as i32),
            self.runs.lend(lengths[1], mark),
            self.blocks.lend(lengths[2], mark),
            self.counts.each_mut().map(|count| count.lend_one(mark)),
        )
    }

    /// The least hoop for all places that the port reads with ample buffers.
    fn least(&mut self, file: &File) -> Least {
        let lengths = port::ample(file.bytes.len());
        match self.call(file, lengths, MARKS[0]) {
            0 => {
                let filled = 2 * self.counts[0].one() as usize;
                let places = self.places.front(filled.min(lengths[0]));
                Ok(hoop::around(port::points(places)))
            }
            number => Err(number),
        }
    }

    /// What differs in the four counts.
    fn counts(&self, wanted: [u32; 4]) -> Option<String> {
        let mut counts = COUNTS.iter().zip(&self.counts).zip(wanted);
        counts.find_map(|((name, count), wanted)| count.difference(name, &[wanted]))
    }

    /// What differs in the call for the label.
    fn label(&mut self, file: &File, in_ascii: &[u8], label: Result<&[u8], u8>) -> Option<String> {
        let mark = u64::from(MARKS[file.bytes.len() % 2]) << 8;
        let number = port::label(
            &file.ext,
            &file.bytes,
            self.start.lend_one(mark),
            self.length.lend_one(mark),
        );
        let wanted = label.err().unwrap_or(0);
        if number != u32::from(wanted) {
            return Some(format!("number {number}, wanted {wanted}"));
        }
        let (start, length) = match label {
            Ok(_) => (self.start.one(), self.length.one()),
            Err(_) => (0, 0),
        };
        if let Ok(label) = label
            && part(in_ascii, start, length) != Some(label)
        {
            return Some(format!("{length} bytes at {start}, wanted {label:?}"));
        }
        self.start
            .difference("start", &[start])
            .or_else(|| self.length.difference("length", &[length]))
    }
}

fn part(bytes: &[u8], start: u64, length: u64) -> Option<&[u8]> {
    let start = usize::try_from(start).ok()?;
    let end = start.checked_add(usize::try_from(length).ok()?)?;
    bytes.get(start..end)
}

/// The number that a read with buffers of these lengths should answer.
fn number(answer: &Result<Cells, u8>, lengths: Lengths) -> u8 {
    let short = |cells: &Cells| {
        cells
            .lengths()
            .iter()
            .zip(lengths)
            .any(|(&n, room)| n > room)
    };
    match answer {
        Err(number) => *number,
        Ok(cells) if short(cells) => 11,
        Ok(_) => 0,
    }
}

/// The lengths of buffers that a file is read with: ample ones, ones as long as
/// the answer and a cell longer, ones of which one is a cell too short; for a
/// refused file ample ones and none.
fn trials(answer: &Result<Cells, u8>, n: usize) -> Vec<Lengths> {
    let ample = port::ample(n);
    let Ok(cells) = answer else {
        return vec![ample, [0; 3]];
    };
    let just = cells.lengths();
    let mut trials = vec![ample, just, just.map(|length| length + 1)];
    for buffer in (0..3).filter(|&buffer| just[buffer] > 0) {
        for mut lent in [ample, just] {
            lent[buffer] = just[buffer] - 1;
            trials.push(lent);
        }
    }
    trials
}
