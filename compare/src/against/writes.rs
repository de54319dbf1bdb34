//! The port's two writes against the published Rust, and their refusals against
//! document 01's table: number, length, how far off the threads are, and every byte of
//! the buffer, those past the file too.

use crate::against::lent_cells::Lent;
use crate::against::tally::{Calls, Function, Told};
use crate::against::write_bound;
use crate::inputs::faulty_lists::Asked;
use crate::oracle::{self, Command, distance, refusals};
use crate::port::{self, Cmd, Lists};

/// Bytes are set to one of these before a call; the calls for one list take
/// both, so that a byte left out shows in one of them.
const MARKS: [u8; 2] = [0xA5, 0x5A];

/// The padding of records, by turns.
const JUNK: [u8; 2] = [0x00, 0xA5];

/// A buffer for the calls.
#[derive(Default)]
pub struct Writings {
    out: Lent<u8>,
    length: Lent<u64>,
    distance: Lent<u32>,
}

/// One call: what it should answer, and the buffer lent.
struct Trial<'a> {
    number: u8,
    written: &'a Written,
    length: usize,
    mark: u8,
}

/// The file and how far off its threads are; nothing and 0 under a refusal.
#[derive(Default)]
struct Written {
    file: Vec<u8>,
    distance: u32,
}

impl Writings {
    /// Writes a list with many buffers, each time by its slices and, if they are
    /// of one length, by its records; and asks for the bound of its file.
    pub fn compare(&mut self, asked: &Asked) -> (Told, Calls) {
        let answer = answer(asked);
        let nothing = Written::default();
        let mut calls = Calls::default();
        for (at, length) in lengths(&answer, &asked.list).into_iter().enumerate() {
            let (number, written) = match &answer {
                Err(number) => (*number, &nothing),
                Ok(written) if written.file.len() > length => (11, &nothing),
                Ok(written) => (0, written),
            };
            let mark = MARKS[at % 2];
            let trial = Trial {
                number,
                written,
                length,
                mark,
            };
            let told = |what| format!("buffer of {length} bytes: {what}");
            let found = self.write(asked, &trial).map(told);
            calls.take(Function::Write, Some(number), found);
            if let Some(cmds) = asked.list.records(JUNK[at % 2]) {
                let found = self.write_cmds(asked, &cmds, &trial).map(told);
                calls.take(Function::WriteCmds, Some(number), found);
            }
        }
        let written = answer.as_ref().unwrap_or(&nothing);
        write_bound::compare(asked, &written.file, &mut calls);
        let told = Told {
            number: answer.as_ref().err().copied().unwrap_or(0),
            length: written.file.len(),
            sizes: [asked.list.kinds.len(), 0, 0],
            distance: written.distance,
        };
        (told, calls)
    }

    /// What differs in one write of slices.
    fn write(&mut self, asked: &Asked, trial: &Trial) -> Option<String> {
        let (out, length, distance) = self.lend(trial);
        let number = port::write(&asked.ext, &asked.list, out, length, distance);
        self.difference(number, trial)
    }

    /// What differs in one write of records.
    fn write_cmds(&mut self, asked: &Asked, cmds: &[Cmd], trial: &Trial) -> Option<String> {
        let (name, threads) = (&asked.list.name, &asked.list.threads);
        let (out, length, distance) = self.lend(trial);
        let number = port::write_cmds(&asked.ext, name, cmds, threads, out, length, distance);
        self.difference(number, trial)
    }

    fn lend(&mut self, trial: &Trial) -> (&mut [u8], &mut u64, &mut u32) {
        let out = self.out.lend(trial.length, trial.mark);
        let length = self.length.lend_one(u64::from_ne_bytes([trial.mark; 8]));
        let distance = self.distance.lend_one(u32::from_ne_bytes([trial.mark; 4]));
        (out, length, distance)
    }

    fn difference(&self, number: u32, trial: &Trial) -> Option<String> {
        if number != u32::from(trial.number) {
            return Some(format!("number {number}, wanted {}", trial.number));
        }
        let Written { file, distance } = trial.written;
        self.length
            .difference("length", &[file.len() as u64])
            .or_else(|| self.distance.difference("distance", &[*distance]))
            .or_else(|| self.out.difference("file", file))
    }
}

/// The lengths of buffers that a list is written to: as long as the file, one
/// longer, one shorter, and none; for a refused list an ample one and none.
fn lengths(answer: &Result<Written, u8>, list: &Lists) -> Vec<usize> {
    let Ok(written) = answer else {
        return vec![ample(list), 0];
    };
    let n = written.file.len();
    let mut lengths = vec![n, n + 1];
    lengths.extend(n.checked_sub(1));
    lengths.extend((n > 1).then_some(0));
    lengths
}

/// The published Rust's file and how far off the threads are in it, or the number of the refusal.
fn answer(asked: &Asked) -> Result<Written, u8> {
    let list = &asked.list;
    let (0, Some(format)) = (refusals::of(asked), refusals::format(&asked.ext)) else {
        return Err(refusals::of(asked));
    };
    let places = list.xs.iter().zip(&list.ys);
    let cmds: Vec<Command> = places
        .zip(&list.kinds)
        .map(|((&x, &y), &kind)| (x, y, kind))
        .collect();
    let (threads, _) = list.threads.as_chunks();
    let file = oracle::write(format, &name(list), &cmds, threads);
    let distance = distance::largest(format, &file, threads);
    Ok(Written { file, distance })
}

/// The name, without its bytes from 128 up if it is not UTF-8: document 01's
/// rule drops them, and the Rust takes only UTF-8.
fn name(list: &Lists) -> Vec<u8> {
    let ascii = || list.name.iter().copied().filter(u8::is_ascii).collect();
    match std::str::from_utf8(&list.name) {
        Ok(name) => name.as_bytes().to_vec(),
        Err(_) => ascii(),
    }
}

/// More than most files of a list take.
fn ample(list: &Lists) -> usize {
    1_600 + 8 * list.kinds.len().min(1_000)
}
