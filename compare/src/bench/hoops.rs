//! The times of asking whether a file fits the hoop that just holds it, so that every place is looked
//! at: beside the port's read with ample buffers and beside the published Rust's read.

use crate::bench::designs::Design;
use crate::bench::timing::{Reads, Times, now};
use crate::formats::read::read_stitch_file;
use crate::geom::P;
use crate::oracle::Format;
use crate::oracle::hoop::{self, Hoop};
use crate::port::{self, Cells};
use std::hint::black_box;

/// A file that is asked about again and again.
pub struct Fits<'a> {
    format: Format,
    file: &'a [u8],
    hoop: Hoop,
    /// Reads it with ample buffers.
    reads: Reads<'a>,
}

impl<'a> Fits<'a> {
    /// Of a file and what it holds; if that is nothing, the hoop is one that has no place.
    pub fn new(format: Format, file: &'a [u8], cells: &Cells) -> Fits<'a> {
        Fits {
            format,
            file,
            hoop: hoop::around(cells.points()).unwrap_or(Hoop::of([1, 0, 1, 0])),
            reads: Reads::new(format, file, port::ample(file.len())),
        }
    }

    /// The number and the answer.
    pub fn port(&self) -> (u32, u32) {
        self.port_in(self.hoop)
    }

    fn port_in(&self, hoop: Hoop) -> (u32, u32) {
        let (ext, file) = (self.format.ext().as_bytes(), black_box(self.file));
        let mut answer = u32::MAX;
        let number = port::fits(ext, file, black_box(hoop), &mut answer);
        black_box((number, answer))
    }

    /// The Rust's read, and whether all its points are inside.
    pub fn rust(&self) -> (bool, impl Sized + use<>) {
        let read = read_stitch_file(black_box(self.file), self.format.ext());
        let [left, right, top, bottom] = black_box(self.hoop).edges().map(f64::from);
        let has = |p: &P| left <= p.x && p.x <= right && top <= p.y && p.y <= bottom;
        let yes = read.as_ref().is_ok_and(|read| {
            let mut runs = read.blocks.iter().flat_map(|block| &block.runs);
            runs.all(|run| run.iter().all(has))
        });
        black_box((yes, read))
    }

    /// Whether the answers are right for the hoop and for those with an edge one off.
    pub fn right(&self, cells: &Cells) -> bool {
        let right = |hoop: Hoop| {
            let yes = cells.points().all(|place| hoop.has(place));
            self.port_in(hoop) == (0, yes.into())
        };
        right(self.hoop)
            && self.hoop.one_off().all(right)
            && self.port() == (0, 1)
            && (!self.by_rust() || self.rust().0)
    }

    /// Whether the Rust reads the format.
    fn by_rust(&self) -> bool {
        self.format != Format::Vp3
    }

    /// The times of the Rust's read and of the port's, each beside those of the call.
    pub fn times(&mut self, rounds: usize) -> [Times; 2] {
        let [mut rust, mut read, mut fits] = [const { Vec::new() }; 3];
        for _ in 0..rounds {
            if self.by_rust() {
                let start = now();
                let given = self.reads.rust();
                rust.push(now() - start);
                drop(given);
            }
            self.reads.clear();
            let start = now();
            self.reads.port();
            read.push(now() - start);
            let start = now();
            self.port();
            fits.push(now() - start);
        }
        [rust, read].map(|times| Times::new(times, fits.clone()))
    }
}

/// The table of a design: nanoseconds per stitch.
pub fn print(design: &Design, times: &[(Format, [Times; 2])]) {
    print!("\n| ns per stitch | Rust, read | read, ample | fits ");
    println!("| Rust over fits | ample over fits | of shortest |\n|---|---|---|---|---|---|---|");
    let each = |time: f64| 1e3 * time / design.stitches as f64;
    for (format, [rust, read]) in times {
        let ext = format.ext().to_uppercase();
        let (rust_time, fits) = rust.medians();
        let rust_time = rust_time.map_or("none".to_string(), |time| format!("{:.2}", each(time)));
        let by_rust = rust.ratios().map(|[ratio, _]| format!("{ratio:.2}"));
        let by_rust = by_rust.unwrap_or_default();
        let (read_time, fits) = (each(read.medians().0.unwrap_or_default()), each(fits));
        let [ratio, shortest] = read.ratios().unwrap_or_default();
        print!("| {ext} | {rust_time} | {read_time:.2} | {fits:.2} ");
        println!("| {by_rust} | {ratio:.2} | {shortest:.2} |");
    }
}
