//! The times of hostile files, read and held against the hoop that just holds them: of every kind,
//! and of the kind that the port is slowest at beside the Rust's read; of VP3, which the Rust does not
//! read, the port's own.

use crate::bench::hoops::Fits;
use crate::bench::timing::{Reads, Times};
use crate::bench::{cells, checked};
use crate::inputs::hostile_files::{self, Body, Head};
use crate::oracle::Format;
use crate::port;

/// Lengths of a hostile file, which show whether its time is linear.
const LENGTHS: [usize; 3] = [1 << 21, 1 << 20, 1 << 19];

/// Rounds for each kind of hostile file, to find the worst.
const SEARCH: usize = 3;

/// Reads with buffers just long enough and with ample ones, and the call about a hoop.
const CALLS: [&str; 3] = ["read, just", "read, ample", "fits"];

/// A kind of hostile file with the ratios of its shortest times, call by call.
type Kind = (Head, Body, [f64; 3]);

/// The times of a hostile file, call by call; none if an answer differs.
fn times(format: Format, kind: (Head, Body), length: usize, rounds: usize) -> Option<[Times; 3]> {
    let file = hostile_files::file(format, kind.0, kind.1, length);
    let cells = cells(format, &file);
    let times = [cells.lengths(), port::ample(file.len())].map(|lengths| {
        let mut reads = Reads::new(format, &file, lengths);
        reads.right(&cells).then(|| reads.times(rounds))
    });
    let mut fits = Fits::new(format, &file, &cells);
    match times {
        [Some(just), Some(ample)] if fits.right(&cells) => {
            let [fits, _] = fits.times(rounds);
            Some([just, ample, fits])
        }
        _ => None,
    }
}

/// All kinds of hostile file of a format.
fn searched(format: Format, rounds: usize) -> Option<Vec<Kind>> {
    let mut found = Vec::new();
    for (head, body) in hostile_files::kinds(format) {
        let times = times(format, (head, body), LENGTHS[0], rounds)?;
        let shortest = |times: Times| times.ratios().map_or(0.0, |ratios| ratios[1]);
        found.push((head, body, times.map(shortest)));
    }
    Some(found)
}

/// The formats that the Rust reads.
fn compared() -> impl Iterator<Item = Format> {
    let formats = Format::ALL.into_iter();
    formats.filter(|&format| format != Format::Vp3)
}

/// Prints the ratios of all kinds of hostile file.
pub fn print_all(rounds: usize) -> bool {
    println!("| format | kind | just | ample | fits |\n|---|---|---|---|---|");
    let mut same = true;
    for format in compared() {
        let found = searched(format, rounds);
        same &= checked(format, "hostile file", found.is_some());
        for (head, body, [just, ample, fits]) in found.unwrap_or_default() {
            let ext = format.ext().to_uppercase();
            let (body, head) = (body.name(), head.name());
            println!("| {ext} | {body}; {head} | {just:.2} | {ample:.2} | {fits:.2} |");
        }
    }
    same & print_vp3(rounds)
}

/// Prints the port's shortest times of all kinds of hostile file of VP3.
fn print_vp3(rounds: usize) -> bool {
    println!("\nhostile files of VP3: the port's shortest times by length, in microseconds\n");
    println!("| call | kind | 2 MiB | 1 MiB | 1/2 MiB |\n|---|---|---|---|---|");
    let mut same = true;
    for kind in hostile_files::kinds(Format::Vp3) {
        let times = LENGTHS.map(|length| times(Format::Vp3, kind, length, rounds));
        let [Some(two), Some(one), Some(half)] = &times else {
            same = checked(Format::Vp3, kind.1.name(), false);
            continue;
        };
        for (at, call) in CALLS.into_iter().enumerate() {
            let [two, one, half] = [two, one, half].map(|times| times[at].shortest());
            let kind = kind.1.name();
            println!("| {call} | {kind} | {two:.0} | {one:.0} | {half:.0} |");
        }
    }
    same
}

/// For each format and each call the kind of file with the least ratio, and its times by
/// length.
pub fn print_worst(rounds: usize) -> bool {
    println!("\nhostile files of 2,097,152 bytes: the kind with the least ratio\n");
    print!("| format | call | kind | Rust | port | ratio | ratio of shortest ");
    println!("| port, 2 MiB | 1 MiB | 1/2 MiB |");
    println!("|---|---|---|---|---|---|---|---|---|---|");
    let mut same = true;
    for format in compared() {
        let found = searched(format, SEARCH);
        same &= checked(format, "hostile file", found.is_some());
        for (at, call) in CALLS.into_iter().enumerate() {
            let kinds = found.iter().flatten();
            let Some(worst) = kinds.min_by(|a, b| a.2[at].total_cmp(&b.2[at])) else {
                continue;
            };
            let (head, body, _) = *worst;
            let times = LENGTHS.map(|length| times(format, (head, body), length, rounds));
            let [Some(two), Some(one), Some(half)] = &times else {
                same = checked(format, call, false);
                continue;
            };
            let (rust, port) = two[at].medians();
            let rust = rust.unwrap_or_default();
            let [ratio, shortest] = two[at].ratios().unwrap_or_default();
            let [two, one, half] = [two, one, half].map(|times| times[at].shortest());
            let kind = format!("{}; {}", body.name(), head.name());
            let ext = format.ext().to_uppercase();
            print!("| {ext} | {call} | {kind} | {rust:.0} | {port:.0} | {ratio:.2} | ");
            println!("{shortest:.2} | {two:.0} | {one:.0} | {half:.0} |");
        }
    }
    same & print_vp3(SEARCH)
}
