//! The port's calls against the published Rust and document 01's refusals, by any
//! number of threads: the same cases and the same tables from the same seed.

use crate::against::reads::Readings;
use crate::against::tally::{Case, Tally};
use crate::against::writes::Writings;
use crate::inputs::faulty_lists::{self, Asked};
use crate::inputs::hard_files::{self, HardFiles};
use crate::inputs::{files, long_files};
use crate::oracle;
use crate::random::Random;
use std::sync::atomic::{AtomicUsize, Ordering};
use std::thread;

/// Cases that have random numbers of their own and stay in one thread.
const PART: usize = 2_000;

/// One case of so many is a long one.
const RARE: usize = 5_000;

/// What all threads share.
struct Sources {
    seed: u64,
    count: usize,
    files: hard_files::Boundary,
    lists: faulty_lists::Boundary,
}

/// Compares so many cases of a seed; true if none differs.
pub fn compare(count: usize, seed: u64, threads: usize) -> bool {
    let sources = Sources {
        seed,
        count,
        files: hard_files::boundary(seed),
        lists: faulty_lists::Boundary::new(seed),
    };
    let next = AtomicUsize::new(0);
    let run = || {
        let mut thread = Thread::default();
        loop {
            let part = next.fetch_add(1, Ordering::Relaxed);
            if part * PART >= count {
                return thread.tally;
            }
            thread.part(&sources, part);
        }
    };
    let mut tally = Tally::default();
    thread::scope(|scope| {
        let threads: Vec<_> = (0..threads).map(|_| scope.spawn(run)).collect();
        for thread in threads {
            tally.add(thread.join().expect("a thread that ends"));
        }
    });
    tally.print();
    tally.differences() == 0
}

#[derive(Default)]
struct Thread {
    tally: Tally,
    readings: Readings,
    writings: Writings,
}

impl Thread {
    /// One part: files and lists by turns.
    fn part(&mut self, sources: &Sources, part: usize) {
        let first = part * PART;
        let mut random = Random::of_part(sources.seed, part as u64);
        let own = Random::new(random.draw());
        let mut files = HardFiles::part(&sources.files, first / 2, own);
        for at in first..sources.count.min(first + PART) {
            match (at % RARE, at % 2) {
                (0, _) => self.long(sources, at, &mut random),
                (_, 0) => {
                    let (file, in_ascii) = files.any();
                    let answer = oracle::read(&file.ext, &in_ascii);
                    self.read(sources, at, &file, &in_ascii, &answer);
                }
                _ => self.write(at, &sources.lists.next(at / 2, &mut random)),
            }
        }
    }

    fn long(&mut self, sources: &Sources, at: usize, random: &mut Random) {
        let turn = at / RARE;
        if turn % 2 == 1 {
            self.write(at, &sources.lists.long(turn / 2, random));
            return;
        }
        let file = long_files::file(turn / 2, random);
        assert!(files::in_domain(&file), "a file in the domain");
        let answer = oracle::read_quickly(&file.ext, &file.bytes);
        self.read(sources, at, &file, &file.bytes, &answer);
    }

    /// The hoops have random numbers of their own, so that the cases are those of the seed.
    fn read(
        &mut self,
        sources: &Sources,
        at: usize,
        file: &files::File,
        in_ascii: &[u8],
        answer: &oracle::Answer,
    ) {
        let mut random = Random::of_part(!sources.seed, at as u64);
        let (told, calls) = self.readings.compare(file, in_ascii, answer, &mut random);
        let row = oracle::group(&file.ext);
        self.tally.take(row, at, Case::Read(file), told, calls);
    }

    fn write(&mut self, at: usize, asked: &Asked) {
        let (told, calls) = self.writings.compare(asked);
        let row = oracle::group(&asked.ext);
        self.tally.take(row, at, Case::Write(asked), told, calls);
    }
}
