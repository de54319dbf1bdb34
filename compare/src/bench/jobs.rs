//! The times of importing and exporting jobs, by the plain version and by the port by turns, and the
//! depth of the port's stack.

use crate::bench::timing::{Times, now};
use crate::bench::{designs, stack};
use crate::oracle::jobs as plain;
use crate::port::{self, Lists};
use std::hint::black_box;

/// Commands of the lists, which show whether time is linear.
const COUNTS: [usize; 3] = [65_535, 10_000, 1_000];

/// A round has calls for so many commands.
const ROUND: usize = 65_535;

/// A list and its job, which are exported and imported again and again into the same buffers.
pub struct Jobs {
    list: Lists,
    job: Vec<u8>,
    xs: Vec<i32>,
    ys: Vec<i32>,
    kinds: Vec<u8>,
    threads: Vec<u8>,
    counts: [u32; 2],
    start: u64,
    length: u64,
    out: Vec<u8>,
}

impl Jobs {
    /// Of a list in order; the buffers are as long as the answers.
    pub fn new(list: Lists) -> Jobs {
        let job = plain::export(&list).expect("a list that is exported");
        let [xs, ys, kinds, threads] = plain::lengths(&list);
        Jobs {
            xs: vec![0; xs],
            ys: vec![0; ys],
            kinds: vec![0; kinds],
            threads: vec![0; threads],
            counts: [0; 2],
            start: 0,
            length: 0,
            out: vec![0; job.len()],
            list,
            job,
        }
    }

    pub fn commands(&self) -> usize {
        self.list.kinds.len()
    }

    pub fn import(&mut self) -> u32 {
        let (xs, ys) = (&mut self.xs, &mut self.ys);
        let (kinds, threads) = (&mut self.kinds, &mut self.threads);
        let counts = self.counts.each_mut();
        let job = black_box(&self.job);
        black_box(port::import_job(job, xs, ys, kinds, threads, counts))
    }

    pub fn plain_import(&self) -> Result<Lists, u8> {
        let room = plain::lengths(&self.list);
        black_box(plain::import(black_box(&self.job), room))
    }

    pub fn export(&mut self) -> u32 {
        let list = black_box(&self.list);
        black_box(port::export_job(list, &mut self.out, &mut self.length))
    }

    pub fn plain_export(&self) -> Result<Vec<u8>, u8> {
        black_box(plain::export(black_box(&self.list)))
    }

    fn name(&mut self) -> u32 {
        port::job_name(&self.job, &mut self.start, &mut self.length)
    }

    /// Whether the port's answers are the list and its job.
    fn right(&mut self) -> bool {
        let done = [self.import(), self.export()] == [0; 2];
        let list = &self.list;
        let counts = [list.kinds.len() as u32, list.threads.len() as u32];
        done && self.counts == counts
            && (&self.xs, &self.ys) == (&list.xs, &list.ys)
            && (&self.kinds, &self.threads) == (&list.kinds, &list.threads)
            && (self.length, &self.out) == (self.job.len() as u64, &self.job)
    }

    /// The times of a call of the plain version and of one of the port.
    fn times<T>(
        &mut self,
        rounds: usize,
        by_plain: fn(&Jobs) -> T,
        by_port: fn(&mut Jobs) -> u32,
    ) -> Times {
        let calls = ROUND.div_ceil(self.commands());
        let each = |time: f64| time / calls as f64;
        let (mut plain, mut port) = (Vec::new(), Vec::new());
        for _ in 0..rounds {
            let start = now();
            let given: Vec<T> = (0..calls).map(|_| by_plain(self)).collect();
            plain.push(each(now() - start));
            drop(given);
            let start = now();
            for _ in 0..calls {
                by_port(self);
            }
            port.push(each(now() - start));
        }
        Times::new(plain, port)
    }
}

/// Prints the times of lists of several lengths, and the stack; false if an answer differs, or if a
/// call takes too much of the stack.
pub fn print(rounds: usize) -> bool {
    println!("times: the shortest of {rounds} rounds, in microseconds");
    println!("ratio: the plain version's time over the port's, the median of the rounds\n");
    println!(
        "| call | commands | bytes | plain | port | ratio | ratio of shortest | port, ns per command |"
    );
    println!("|---|---|---|---|---|---|---|---|");
    let mut same = true;
    for count in COUNTS {
        let mut jobs = Jobs::new(Lists::of(&designs::plain(count)));
        if !jobs.right() {
            println!("job of {count} commands: the answers differ");
            same = false;
        }
        let import = jobs.times(rounds, Jobs::plain_import, Jobs::import);
        row("import", &jobs, &import);
        let export = jobs.times(rounds, Jobs::plain_export, Jobs::export);
        row("export", &jobs, &export);
    }
    same & print_stack()
}

fn row(call: &str, jobs: &Jobs, times: &Times) {
    let (commands, bytes) = (jobs.commands(), jobs.job.len());
    let port = times.shortest();
    let plain = times.shortest_of_rust().unwrap_or_default();
    let [ratio, shortest] = times.ratios().unwrap_or_default();
    let each = 1e3 * port / commands as f64;
    print!("| {call} | {commands} | {bytes} | {plain:.1} | {port:.1} ");
    println!("| {ratio:.2} | {shortest:.2} | {each:.2} |");
}

/// The depth of the stack in each call; false if one reaches the limit.
fn print_stack() -> bool {
    println!("\ndeepest stack, in bytes\n\n| import | name | export |\n|---|---|---|");
    let calls: [fn(&mut Jobs) -> u32; 3] = [Jobs::import, Jobs::name, Jobs::export];
    let mut jobs = Jobs::new(Lists::of(&designs::plain(COUNTS[0])));
    let depths = calls.map(|call| {
        let mut number = 1;
        let depth = stack::depth(&mut || number = call(&mut jobs));
        assert_eq!(number, 0, "a job that is taken");
        depth
    });
    let shown = depths.map(|depth| depth.to_string());
    println!("| {} |", shown.join(" | "));
    depths.iter().all(|&depth| depth < stack::LIMIT)
}
