//! Times of the published Rust and of the port, which take turns: those of the
//! thread's own clock, which stands still while other programs run. What the Rust
//! gives back is dropped and what the port writes to is cleared outside the times.

use crate::formats::read::read_stitch_file;
use crate::oracle::{Format, Ready, distance};
use crate::port::{self, Cells, Cmd, Lists};
use std::ffi::c_int;
use std::hint::black_box;

/// A `struct timespec`.
#[repr(C)]
struct Clock {
    seconds: i64,
    nanoseconds: i64,
}

const THREAD_CLOCK: c_int = 3;

unsafe extern "C" {
    fn clock_gettime(clock: c_int, time: *mut Clock) -> c_int;
}

/// The time that the thread has run for, in microseconds.
pub(super) fn now() -> f64 {
    let mut time = Clock {
        seconds: 0,
        nanoseconds: 0,
    };
    // SAFETY: the place is one for a time.
    let done = unsafe { clock_gettime(THREAD_CLOCK, &mut time) };
    assert_eq!(done, 0, "a clock for each thread");
    1e6 * time.seconds as f64 + 1e-3 * time.nanoseconds as f64
}

/// Times of rounds and their ratios, in microseconds, the least first; those of the Rust
/// are none for reads of VP3.
pub struct Times {
    rust: Vec<f64>,
    port: Vec<f64>,
    ratios: Vec<f64>,
}

impl Times {
    pub(super) fn new(mut rust: Vec<f64>, mut port: Vec<f64>) -> Times {
        let pairs = rust.iter().zip(&port);
        let mut ratios: Vec<f64> = pairs.map(|(rust, port)| rust / port).collect();
        for times in [&mut rust, &mut port, &mut ratios] {
            times.sort_by(f64::total_cmp);
        }
        Times { rust, port, ratios }
    }

    /// The medians, Rust and port.
    pub fn medians(&self) -> (Option<f64>, f64) {
        let median = |times: &[f64]| times.get(times.len() / 2).copied();
        (median(&self.rust), self.port[self.port.len() / 2])
    }

    /// The port's shortest time.
    pub fn shortest(&self) -> f64 {
        self.port[0]
    }

    /// The Rust's shortest time.
    pub fn shortest_of_rust(&self) -> Option<f64> {
        self.rust.first().copied()
    }

    /// The Rust's time over the port's: the median of the rounds, and that of the
    /// shortest times.
    pub fn ratios(&self) -> Option<[f64; 2]> {
        let median = self.ratios.get(self.ratios.len() / 2)?;
        Some([*median, self.rust[0] / self.port[0]])
    }
}

/// A file that is read again and again into the same buffers.
pub struct Reads<'a> {
    ext: &'static str,
    /// Whether the Rust reads the format.
    by_rust: bool,
    file: &'a [u8],
    places: Vec<i32>,
    runs: Vec<u32>,
    blocks: Vec<u32>,
    counts: [u32; 4],
}

impl<'a> Reads<'a> {
    pub fn new(format: Format, file: &'a [u8], [places, runs, blocks]: [usize; 3]) -> Reads<'a> {
        Reads {
            ext: format.ext(),
            by_rust: format != Format::Vp3,
            file,
            places: vec![0; places],
            runs: vec![0; runs],
            blocks: vec![0; blocks],
            counts: [0; 4],
        }
    }

    pub fn clear(&mut self) {
        self.places.fill(0);
        self.runs.fill(0);
        self.blocks.fill(0);
        self.counts.fill(0);
    }

    pub fn port(&mut self) -> u32 {
        let (places, runs, blocks) = (&mut self.places, &mut self.runs, &mut self.blocks);
        let (ext, file) = (self.ext.as_bytes(), black_box(self.file));
        black_box(port::read(
            ext,
            file,
            places,
            runs,
            blocks,
            self.counts.each_mut(),
        ))
    }

    pub fn rust(&self) -> impl Sized + use<> {
        black_box(read_stitch_file(black_box(self.file), self.ext))
    }

    /// Whether the port's answer is this one.
    pub fn right(&mut self, cells: &Cells) -> bool {
        self.clear();
        self.port() == 0
            && self.counts == cells.counts()
            && self.places.starts_with(&cells.places)
            && self.runs.starts_with(&cells.runs)
            && self.blocks.starts_with(&cells.blocks)
    }

    pub fn times(&mut self, rounds: usize) -> Times {
        let (mut rust, mut port) = (Vec::new(), Vec::new());
        for _ in 0..rounds {
            if self.by_rust {
                let start = now();
                let read = self.rust();
                rust.push(now() - start);
                drop(read);
            }
            self.clear();
            let start = now();
            self.port();
            port.push(now() - start);
        }
        Times::new(rust, port)
    }
}

/// What a write answers: number, length and distance.
pub type Told = (u32, u64, u32);

/// A list that is written again and again into the same buffer.
pub struct Writes<'a> {
    format: Format,
    ready: &'a Ready,
    lists: &'a Lists,
    cmds: Vec<Cmd>,
    out: Vec<u8>,
}

impl<'a> Writes<'a> {
    pub fn new(format: Format, ready: &'a Ready, lists: &'a Lists) -> Writes<'a> {
        Writes {
            format,
            ready,
            lists,
            cmds: lists.records(0).expect("slices of one length"),
            out: vec![0; ready.write(format).len()],
        }
    }

    pub fn clear(&mut self) {
        self.out.fill(0);
    }

    pub fn port(&mut self) -> Told {
        let ext = self.format.ext().as_bytes();
        let (lists, out) = (black_box(self.lists), &mut self.out);
        let (mut length, mut distance) = (0, u32::MAX);
        let number = port::write(ext, lists, out, &mut length, &mut distance);
        black_box((number, length, distance))
    }

    /// The list by its records.
    pub fn port_cmds(&mut self) -> Told {
        let ext = self.format.ext().as_bytes();
        let (name, threads) = (&self.lists.name, &self.lists.threads);
        let (cmds, out) = (black_box(&self.cmds), &mut self.out);
        let (mut length, mut distance) = (0, u32::MAX);
        let number = port::write_cmds(ext, name, cmds, threads, out, &mut length, &mut distance);
        black_box((number, length, distance))
    }

    pub fn lay(&self) {
        self.ready.lay(self.format);
    }

    pub fn rust(&self) -> Vec<u8> {
        black_box(black_box(self.ready).write_laid(self.format))
    }

    /// Whether the port's file is the Rust's, and its distance that of the threads in it.
    pub fn right(&mut self) -> bool {
        let file = self.ready.write(self.format);
        let (threads, _) = self.lists.threads.as_chunks();
        let distance = distance::largest(self.format, &file, threads);
        self.clear();
        self.port() == (0, file.len() as u64, distance) && self.out == file
    }

    pub fn times(&mut self, rounds: usize) -> Times {
        let (mut rust, mut port) = (Vec::new(), Vec::new());
        for _ in 0..rounds {
            self.lay();
            let start = now();
            let written = self.rust();
            rust.push(now() - start);
            assert_eq!(written.len(), self.out.len(), "the same file each time");
            drop(written);
            self.clear();
            let start = now();
            self.port();
            port.push(now() - start);
        }
        Times::new(rust, port)
    }
}
