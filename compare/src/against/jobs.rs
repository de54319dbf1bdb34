//! The port's import, name and export of jobs against the plain ones: number, counts and every cell
//! of the buffers, those past the answer too. What is exported is imported again.

use crate::against::lent_cells::Lent;
use crate::against::tally::{Calls, Case, Function, Tally, Told};
use crate::inputs::faulty_lists::Boundary;
use crate::inputs::{job_lists, jobs, random_jobs};
use crate::oracle::jobs::{self as plain, Room};
use crate::port::{self, JOB_BOUND, Lists};
use crate::random::Random;

/// Cells are set to one of these before a call, their bytes to the low one; the calls for one job
/// take both, so that a byte left out shows in one of them.
const MARKS: [u32; 2] = [0xA5A5_A5A5, 0x5A5A_5A5A];

/// The counts by name.
const COUNTS: [&str; 2] = ["command count", "thread bytes"];

/// Compares the boundary jobs and lists, then so many random ones of a seed by turns; true if none
/// differs. Each job whose fields are in order has its list exported besides.
pub fn compare(count: usize, seed: u64) -> bool {
    let mut run = Run::default();
    for job in jobs::boundary() {
        run.job(&job);
    }
    for list in job_lists::boundary(seed) {
        run.list(&list);
    }
    let lists = Boundary::new(seed);
    let mut random = Random::new(seed);
    for at in 0..count {
        match at % 2 {
            0 => run.job(&random_jobs::any(&mut random)),
            _ => run.list(&job_lists::any(&lists, at / 2, &mut random)),
        }
    }
    run.tally.print_jobs();
    run.tally.differences() == 0
}

#[derive(Default)]
struct Run {
    tally: Tally,
    cases: usize,
    cells: JobCells,
}

impl Run {
    fn job(&mut self, job: &[u8]) {
        let (told, calls) = self.cells.compare_job(job);
        self.tally
            .take_job(self.cases, Case::Import(job), told, calls);
        self.cases += 1;
        if let Ok(list) = plain::fields(job) {
            self.list(&list);
        }
    }

    fn list(&mut self, list: &Lists) {
        let (told, calls) = self.cells.compare_list(list);
        self.tally
            .take_job(self.cases, Case::Export(list), told, calls);
        self.cases += 1;
    }
}

/// Buffers for the calls.
#[derive(Default)]
struct JobCells {
    xs: Lent<i32>,
    ys: Lent<i32>,
    kinds: Lent<u8>,
    threads: Lent<u8>,
    counts: [Lent<u32>; 2],
    start: Lent<u64>,
    length: Lent<u64>,
    out: Lent<u8>,
}

impl JobCells {
    /// Imports a job with many sets of buffers and asks for its name.
    fn compare_job(&mut self, job: &[u8]) -> (Told, Calls) {
        let answer = plain::read(job);
        let mut calls = Calls::default();
        for (at, room) in rooms(&answer, job.len()).into_iter().enumerate() {
            let wanted = match &answer {
                Err(number) => Err(*number),
                Ok(list) if !plain::fits(list, room) => Err(11),
                Ok(list) => Ok(list),
            };
            let found = self.import(job, wanted, room, MARKS[at % 2]);
            let found = found.map(|what| format!("buffers of {room:?} cells: {what}"));
            calls.take(Function::ImportJob, Some(number(&wanted)), found);
        }
        let wanted = plain::name(job);
        let found = self.name(job, wanted);
        calls.take(Function::JobName, Some(number(&wanted)), found);
        let told = Told {
            number: number(&answer),
            length: job.len(),
            sizes: [answer.map_or(0, |list| list.kinds.len()), 0, 0],
            ..Told::default()
        };
        (told, calls)
    }

    /// Exports a list with many buffers, and imports what was exported.
    fn compare_list(&mut self, list: &Lists) -> (Told, Calls) {
        let answer = plain::export(list);
        let mut calls = Calls::default();
        for (at, room) in lengths(&answer, list).into_iter().enumerate() {
            let wanted = match &answer {
                Err(number) => Err(*number),
                Ok(job) if job.len() > room => Err(11),
                Ok(job) => Ok(&job[..]),
            };
            let found = self.export(list, wanted, room, MARKS[at % 2] as u8);
            let same = found.is_none();
            let found = found.map(|what| format!("buffer of {room} bytes: {what}"));
            calls.take(Function::ExportJob, Some(number(&wanted)), found);
            if at == 0 && same && wanted.is_ok() {
                self.import_exported(list, room, &mut calls);
            }
        }
        let told = Told {
            number: number(&answer),
            length: answer.map_or(0, |job| job.len()),
            sizes: [list.kinds.len(), 0, 0],
            ..Told::default()
        };
        (told, calls)
    }

    /// Imports the job that was just exported, which must give the list and its name.
    fn import_exported(&mut self, list: &Lists, length: usize, calls: &mut Calls) {
        let job = self.out.front(length).to_vec();
        let room = plain::lengths(list);
        let found = self.import(&job, Ok(list), room, MARKS[length % 2]);
        let found = found.map(|what| format!("what was exported: {what}"));
        calls.take(Function::ImportJob, Some(0), found);
        let found = self.name(&job, Ok((3, list.name.len() as u64)));
        let found = found.or_else(|| match job[3..].starts_with(&list.name) {
            true => None,
            false => Some("another name".to_string()),
        });
        let found = found.map(|what| format!("what was exported: {what}"));
        calls.take(Function::JobName, Some(0), found);
    }

    /// What differs in one import.
    fn import(
        &mut self,
        job: &[u8],
        wanted: Result<&Lists, u8>,
        room: Room,
        mark: u32,
    ) -> Option<String> {
        let told = port::import_job(
            job,
            self.xs.lend(room[0], mark as i32),
            self.ys.lend(room[1], mark as i32),
            self.kinds.lend(room[2], mark as u8),
            self.threads.lend(room[3], mark as u8),
            self.counts.each_mut().map(|count| count.lend_one(mark)),
        );
        if told != u32::from(number(&wanted)) {
            return Some(format!("number {told}, wanted {}", number(&wanted)));
        }
        let none = Lists::default();
        let list = wanted.unwrap_or(&none);
        let counts = [list.kinds.len() as u32, list.threads.len() as u32];
        self.counts(counts)
            .or_else(|| self.xs.difference("x", &list.xs))
            .or_else(|| self.ys.difference("y", &list.ys))
            .or_else(|| self.kinds.difference("kinds", &list.kinds))
            .or_else(|| self.threads.difference("threads", &list.threads))
    }

    /// What differs in the two counts.
    fn counts(&self, wanted: [u32; 2]) -> Option<String> {
        let mut counts = COUNTS.iter().zip(&self.counts).zip(wanted);
        counts.find_map(|((name, count), wanted)| count.difference(name, &[wanted]))
    }

    /// What differs in the call for the name.
    fn name(&mut self, job: &[u8], wanted: Result<(u64, u64), u8>) -> Option<String> {
        let mark = u64::from(MARKS[job.len() % 2]) << 8;
        let told = port::job_name(job, self.start.lend_one(mark), self.length.lend_one(mark));
        if told != u32::from(number(&wanted)) {
            return Some(format!("number {told}, wanted {}", number(&wanted)));
        }
        let (start, length) = wanted.unwrap_or_default();
        self.start
            .difference("start", &[start])
            .or_else(|| self.length.difference("length", &[length]))
    }

    /// What differs in one export.
    fn export(
        &mut self,
        list: &Lists,
        wanted: Result<&[u8], u8>,
        room: usize,
        mark: u8,
    ) -> Option<String> {
        let out = self.out.lend(room, mark);
        let length = self.length.lend_one(u64::from_ne_bytes([mark; 8]));
        let told = port::export_job(list, out, length);
        if told != u32::from(number(&wanted)) {
            return Some(format!("number {told}, wanted {}", number(&wanted)));
        }
        let job = wanted.unwrap_or_default();
        if job.len() > JOB_BOUND {
            return Some(format!("{} bytes, past the bound", job.len()));
        }
        self.length
            .difference("length", &[job.len() as u64])
            .or_else(|| self.out.difference("job", job))
    }
}

fn number<T>(answer: &Result<T, u8>) -> u8 {
    answer.as_ref().err().copied().unwrap_or(0)
}

/// The lengths of the buffers that a job is imported into: as long as the answer, a cell longer,
/// ample ones and none, and ones of which one is a cell too short; for a refused job ample ones and
/// none.
fn rooms(answer: &Result<Lists, u8>, n: usize) -> Vec<Room> {
    let (ample, none) = (port::ample_for_job(n), [0; 4]);
    let Ok(list) = answer else {
        return vec![ample, none];
    };
    let just = plain::lengths(list);
    assert!(plain::fits(list, ample), "room that always suffices");
    let mut rooms = vec![just, just.map(|length| length + 1), ample, none];
    for buffer in (0..4).filter(|&buffer| just[buffer] > 0) {
        for mut lent in [ample, just] {
            lent[buffer] = just[buffer] - 1;
            rooms.push(lent);
        }
    }
    rooms
}

/// The lengths of the buffers that a list is exported to: as long as the job, one longer, one
/// shorter and none; for a refused list an ample one and none.
fn lengths(answer: &Result<Vec<u8>, u8>, list: &Lists) -> Vec<usize> {
    match answer {
        Ok(job) => vec![job.len(), job.len() + 1, job.len() - 1, 0],
        Err(_) => vec![100 + 6 * list.kinds.len().min(1_000), 0],
    }
}
