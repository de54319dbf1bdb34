//! Benchmarks: designs written, read and held against a hoop, hostile files read, the depth
//! of the stack, in one run; and jobs, in one of their own.

pub mod designs;
pub mod hoops;
pub mod hostile;
pub mod jobs;
pub mod one_call;
pub mod stack;
pub mod timing;

use crate::oracle::{self, Format};
use crate::port::Cells;
use designs::DESIGNS;

/// Everything in so many rounds; false if an answer differs.
pub fn run(rounds: usize) -> bool {
    println!("times: medians of {rounds} rounds, in microseconds");
    println!("ratio: the Rust's time over the port's, the median of the rounds");
    let mut same = true;
    for design in &DESIGNS {
        same &= designs::print(design, rounds);
    }
    same &= hostile::print_worst(rounds);
    same & stack::print()
}

/// The oracle's answer to a file in which fewer than eight blocks in a row are
/// empty.
pub fn cells(format: Format, file: &[u8]) -> Cells {
    let answer = oracle::read_quickly(format.ext().as_bytes(), file);
    Cells::of(&answer.expect("a file that is not refused"))
}

/// Says if an answer differs.
fn checked(format: Format, call: &str, same: bool) -> bool {
    if !same {
        println!("{} {call}: the answers differ", format.ext());
    }
    same
}
