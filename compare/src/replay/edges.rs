//! The rows of crates/rules/proofs/Edges.antt, each asked of the published Rust anew.

use crate::inputs::faulty_lists::Asked;
use crate::oracle::hoop::{self, Hoop};
use crate::oracle::{self, Answer, Reading, distance, refusals};
use crate::port::Lists;
use std::collections::BTreeMap;
use std::path::Path;
use std::{fs, io};

/// Asks every row and prints how many there are of each kind; true if none differs.
pub fn check_all() -> io::Result<bool> {
    let path = Path::new(env!("CARGO_MANIFEST_DIR")).join("../crates/rules/proofs/Edges.antt");
    let text = fs::read_to_string(path)?;
    let table = text.split("\nedges =\n").nth(1).unwrap_or_default();
    let table = table.split("\n\n").next().unwrap_or_default();
    let (mut counts, mut same) = (BTreeMap::new(), true);
    for (comment, words) in commented(table) {
        let mut words = Words(&words);
        while let Some(kind) = words.next_row() {
            if !holds(kind, &mut words) {
                println!("{comment}: DIFFERS");
                same = false;
            }
            *counts.entry(kind.to_string()).or_insert(0) += 1;
        }
    }
    for (kind, count) in &counts {
        println!("{kind}: {count} rows");
    }
    println!("edges: {} rows", counts.values().sum::<usize>());
    Ok(same && !counts.is_empty())
}

/// The comments of the table, each with the words behind it.
fn commented(table: &str) -> Vec<(&str, Vec<&str>)> {
    let mut found = vec![("", Vec::new())];
    for line in table.lines().map(str::trim) {
        match line.strip_prefix("-- ") {
            Some(comment) => found.push((comment, Vec::new())),
            None => found.last_mut().unwrap().1.extend(words(line)),
        }
    }
    found
}

/// The words of a line, brackets being words of their own.
fn words(line: &str) -> impl Iterator<Item = &str> {
    let parts = line.split_inclusive(['(', ')']);
    let cut = |part: &'_ str| part.len() - usize::from(part.ends_with(['(', ')']));
    let both = parts.flat_map(move |part| <[&str; 2]>::from(part.split_at(cut(part))));
    both.flat_map(str::split_whitespace)
}

/// Words from which rows are taken, front first.
struct Words<'a>(&'a [&'a str]);

impl<'a> Words<'a> {
    fn word(&mut self) -> &'a str {
        let (word, rest) = self.0.split_first().expect("a word");
        self.0 = rest;
        word
    }

    /// The kind of the next row, its first word; None if there is none.
    fn next_row(&mut self) -> Option<&'a str> {
        let first = |word: &&str| word.starts_with(char::is_alphabetic);
        self.0 = &self.0[self.0.iter().position(first)?..];
        Some(self.word())
    }

    fn number(&mut self) -> i64 {
        value(self.word()).expect("a number")
    }

    /// One number or all of a list, what repeats as often as it does.
    fn list(&mut self) -> Vec<i64> {
        match self.word() {
            "(" => self.to_bracket(),
            "[]" => Vec::new(),
            word => vec![value(word).expect("a list")],
        }
    }

    fn to_bracket(&mut self) -> Vec<i64> {
        let mut found = Vec::new();
        loop {
            match self.word() {
                ")" => return found,
                "(" => found.extend(self.to_bracket()),
                "pos" => found.push(self.number()),
                "negsuc" => found.push(-1 - self.number()),
                "replicate" => {
                    let count = self.number() as usize;
                    found.extend(self.list().repeat(count));
                }
                word => found.extend(value(word)),
            }
        }
    }

    /// A number with its sign, in brackets.
    fn signed(&mut self) -> i32 {
        let [number] = self.list()[..] else {
            panic!("one number in brackets");
        };
        i32::try_from(number).expect("a number of 32 bits")
    }

    fn bytes(&mut self) -> Vec<u8> {
        let byte = |number| u8::try_from(number).expect("a byte");
        self.list().into_iter().map(byte).collect()
    }

    /// The places that steps lead to.
    fn places(&mut self) -> Vec<i32> {
        let sum = |place: &mut i32, step: i64| {
            *place += i32::try_from(step).expect("a step");
            Some(*place)
        };
        self.list().into_iter().scan(0, sum).collect()
    }

    /// Extension, name, steps, kinds and threads.
    fn asked(&mut self, ext: Vec<u8>, name: Vec<u8>) -> Asked {
        let (xs, ys, kinds, threads) = (self.places(), self.places(), self.bytes(), self.bytes());
        let list = Lists {
            name,
            xs,
            ys,
            kinds,
            threads,
        };
        Asked { ext, list }
    }
}

fn value(word: &str) -> Option<i64> {
    match word.strip_prefix("0x") {
        Some(digits) => i64::from_str_radix(digits, 16).ok(),
        None => word.parse().ok(),
    }
}

/// The rest of a row of this kind, taken from the words, says what the Rust answers.
fn holds(kind: &str, words: &mut Words) -> bool {
    match kind {
        "reads" => {
            let read = oracle::read(words.word().as_bytes(), &words.bytes());
            let told = [words.list(), words.list(), words.list()];
            read.is_ok_and(|reading| cells(&reading) == told)
        }
        "labelled" => {
            let read = oracle::read(&words.bytes(), &words.bytes());
            read.map_or(Vec::new(), |reading| reading.label) == words.bytes()
        }
        "told_by_read" => {
            let read = oracle::read(&words.bytes(), &words.bytes());
            let lent = [words.number(), words.number(), words.number()];
            let cuts = read.as_ref().map_or(0, |reading| reading.cuts.into());
            let told = match fitting(read, lent) {
                Err(number) => [number.into(), 0, 0, 0, 0],
                Ok([blocks, runs, places]) => {
                    let [blocks, runs] = [blocks.len() as i64 / 3, runs.len() as i64];
                    [0, places.len() as i64 / 2, runs, blocks, cuts]
                }
            };
            told[..] == words.list()
        }
        "told_by_fits" => {
            let read = oracle::read(&words.bytes(), &words.bytes());
            let hoop = Hoop::of([(); 4].map(|()| words.signed()));
            let told: [i64; 2] = match hoop::fits(&read, hoop) {
                Err(number) => [number.into(), 0],
                Ok(yes) => [0, yes.into()],
            };
            told[..] == words.list()
        }
        "leaves" => {
            let read = oracle::read(&words.bytes(), &words.bytes());
            let mut lent = words.list();
            if let Ok([_, runs, _]) = fitting(read, [100, lent.len() as i64, 100]) {
                lent[..runs.len()].copy_from_slice(&runs);
            }
            lent == words.list()
        }
        "writes" => {
            let (ext, name) = (words.word().as_bytes().to_vec(), words.bytes());
            let asked = words.asked(ext, name);
            let [start, count] = [words.number() as usize, words.number() as usize];
            let told = words.bytes();
            let written = write(&asked);
            written.is_ok_and(|(file, _)| file.into_iter().skip(start).take(count).eq(told))
        }
        "told_by_write" => {
            let ext = words.bytes();
            let asked = words.asked(ext, Vec::new());
            let room = words.number();
            let told = match write(&asked).map(|(file, far)| (file.len() as i64, far.into())) {
                Err(number) => [number.into(), 0, 0],
                Ok((length, _)) if length > room => [11, 0, 0],
                Ok((length, far)) => [0, length, far],
            };
            told[..] == words.list()
        }
        _ => panic!("{kind} is no kind of row"),
    }
}

/// Blocks, runs and places, or the number; 11 if one of them has more cells than are lent for places, runs and blocks.
fn fitting(read: Answer, [places, runs, blocks]: [i64; 3]) -> Result<[Vec<i64>; 3], u8> {
    let cells = cells(&read?);
    let mut both = cells.iter().zip([blocks, runs, places]);
    match both.any(|(cells, lent)| cells.len() as i64 > lent) {
        true => Err(11),
        false => Ok(cells),
    }
}

/// The file and how far off its threads are, or document 01's number for the list.
fn write(asked: &Asked) -> Result<(Vec<u8>, u32), u8> {
    let list = &asked.list;
    let format = match (refusals::of(asked), refusals::format(&asked.ext)) {
        (0, Some(format)) => format,
        (number, _) => return Err(number),
    };
    let places = list.xs.iter().zip(&list.ys).zip(&list.kinds);
    let cmds: Vec<_> = places.map(|((&x, &y), &kind)| (x, y, kind)).collect();
    let (threads, _) = list.threads.as_chunks();
    let file = oracle::write(format, &list.name, &cmds, threads);
    let far = distance::largest(format, &file, threads);
    Ok((file, far))
}

/// Blocks (number, colour, runs), points in each run, and places, as a read gives them.
fn cells(reading: &Reading) -> [Vec<i64>; 3] {
    let [mut blocks, mut runs, mut places] = [const { Vec::new() }; 3];
    for block in &reading.blocks {
        let [r, g, b] = block.colour.map(i64::from);
        let colour = 65_536 * r + 256 * g + b;
        blocks.extend([block.number.into(), colour, block.runs.len() as i64]);
        runs.extend(block.runs.iter().map(|run| run.len() as i64));
        let points = block.runs.iter().flatten();
        places.extend(points.flat_map(|&(x, y)| [i64::from(x), i64::from(y)]));
    }
    [blocks, runs, places]
}
