//! The published Rust: its stand-ins, how it is called, the block numbers that it
//! does not tell; and what is written from the documents' text: sewing, needle
//! places, the refusals of lists, the reader of VP3, the cuts of a DST, jobs, how far off
//! the threads of a file are, and whether a design fits a hoop.

pub mod block_numbers;
pub mod calls;
pub mod distance;
pub mod dst_cuts;
pub mod hoop;
pub mod jobs;
pub mod more_writers;
pub mod needles;
pub mod refusals;
pub mod sewing;
pub mod standins;
pub mod vp3_reader;

pub use calls::{
    Answer, Block, Command, Format, LONGEST, Reading, Ready, command, group, read, read_quickly,
    write,
};
