//! What `against` and `jobs` have compared so far, and their tables.

use crate::inputs::faulty_lists::Asked;
use crate::inputs::files::File;
use crate::oracle::Format;
use crate::port::Lists;
use std::collections::BTreeMap;

/// Differences beyond these are counted and not printed.
const PRINTED: usize = 20;

/// Bytes or commands of an input beyond these are not printed.
const SHOWN: usize = 2_000;

/// Names of the rows.
const ROWS: [(&str, &str); 7] = [
    ("pes", "PES"),
    ("pec", "PEC"),
    ("dst", "DST"),
    ("exp", "EXP"),
    ("jef", "JEF"),
    ("vp3", "VP3"),
    ("other", "other extensions"),
];

/// The row of jobs, which has a table of its own.
const JOBS: &str = "job";

/// Numbers that a call may answer: 0 and those of the refusals.
const NUMBERS: usize = 15;

/// The port's functions, which are called for a case.
#[derive(Clone, Copy)]
pub enum Function {
    Read,
    Label,
    Fits,
    Write,
    WriteCmds,
    WriteBound,
    ImportJob,
    JobName,
    ExportJob,
}

const FUNCTIONS: [&str; 9] = [
    "read",
    "label",
    "fits",
    "write",
    "write_cmds",
    "write_bound",
    "import_job",
    "job_name",
    "export_job",
];

/// A case: one file to read, one list to write, one job to import or one list to export.
pub enum Case<'a> {
    Read(&'a File),
    Write(&'a Asked),
    Import(&'a [u8]),
    Export(&'a Lists),
}

/// The calls of one case.
#[derive(Default)]
pub struct Calls {
    functions: [Count; FUNCTIONS.len()],
    /// What differs, call by call.
    found: Vec<String>,
}

/// The calls of one function.
#[derive(Clone, Default)]
struct Count {
    calls: u64,
    /// How many should answer each number, if it answers one.
    numbers: [u64; NUMBERS],
    differ: u64,
}

/// What a case says, by the published Rust and by document 01's refusals.
#[derive(Default)]
pub struct Told {
    pub number: u8,
    /// Bytes of the file or job read or written.
    pub length: usize,
    /// Points, runs and blocks read, or commands.
    pub sizes: [usize; 3],
    /// How far off the threads written are.
    pub distance: u32,
}

#[derive(Default)]
pub struct Tally {
    rows: BTreeMap<&'static str, Row>,
    functions: [Count; FUNCTIONS.len()],
    /// The first differences, with the numbers of their case and call.
    found: Vec<(usize, usize, String)>,
    /// The shortest input that differs, for each row, with its size and case.
    shortest: BTreeMap<(&'static str, bool), (usize, usize, String)>,
}

#[derive(Clone, Default)]
struct Row {
    reads: Side,
    writes: Side,
    calls: u64,
    differ: u64,
}

#[derive(Clone, Default)]
struct Side {
    cases: u64,
    numbers: [u64; NUMBERS],
    longest: usize,
    sizes: [u64; 3],
    /// Cases with a distance over 0, and the largest.
    distances: u64,
    furthest: u32,
}

impl Calls {
    /// Takes one call of a function: the number it should answer, if it answers
    /// one, and what differs.
    pub fn take(&mut self, function: Function, number: Option<u8>, found: Option<String>) {
        let at = function as usize;
        let count = &mut self.functions[at];
        count.calls += 1;
        count.differ += u64::from(found.is_some());
        if let Some(number) = number {
            count.numbers[usize::from(number)] += 1;
        }
        let found = found.map(|what| format!("{}, {what}", FUNCTIONS[at]));
        self.found.extend(found);
    }
}

impl Tally {
    pub fn take(&mut self, row: &'static str, at: usize, case: Case, told: Told, calls: Calls) {
        let known = self.rows.entry(row).or_default();
        let side = match case.reads() {
            true => &mut known.reads,
            false => &mut known.writes,
        };
        side.take(&told);
        known.calls += calls.functions.iter().map(|count| count.calls).sum::<u64>();
        known.differ += calls.found.len() as u64;
        self.count(&calls.functions);
        if calls.found.is_empty() {
            return;
        }
        let size = case.size();
        let key = (row, case.reads());
        let shorter = |known: &(usize, usize, String)| (size, at) < (known.0, known.1);
        if self.shortest.get(&key).is_none_or(shorter) {
            self.shortest.insert(key, (size, at, case.shown()));
        }
        for (call, what) in calls.found.iter().enumerate() {
            if self.found.len() < PRINTED {
                let what = format!("{}: {what}", case.name());
                self.found.push((at, call, what));
            }
        }
    }

    /// The same of a job.
    pub fn take_job(&mut self, at: usize, case: Case, told: Told, calls: Calls) {
        self.take(JOBS, at, case, told, calls);
    }

    /// Adds what another thread compared.
    pub fn add(&mut self, other: Tally) {
        for (name, row) in other.rows {
            let known = self.rows.entry(name).or_default();
            known.reads.add(&row.reads);
            known.writes.add(&row.writes);
            known.calls += row.calls;
            known.differ += row.differ;
        }
        self.count(&other.functions);
        self.found.extend(other.found);
        self.found.sort();
        self.found.truncate(PRINTED);
        for (key, input) in other.shortest {
            let longer = |known: &(usize, usize, String)| *known > input;
            if self.shortest.get(&key).is_none_or(longer) {
                self.shortest.insert(key, input);
            }
        }
    }

    fn count(&mut self, functions: &[Count]) {
        for (known, count) in self.functions.iter_mut().zip(functions) {
            known.calls += count.calls;
            known.differ += count.differ;
            add(&mut known.numbers, &count.numbers);
        }
    }

    pub fn differences(&self) -> u64 {
        self.rows.values().map(|row| row.differ).sum()
    }

    pub fn print(&self) {
        self.print_found();
        println!("| format | reads | refused | writes | refused | calls | differences |");
        println!("|---|---|---|---|---|---|---|");
        let mut cases = 0;
        for (name, shown) in ROWS {
            let row = self.rows.get(name).cloned().unwrap_or_default();
            let (reads, writes) = (&row.reads, &row.writes);
            cases += reads.cases + writes.cases;
            println!(
                "| {shown} | {} | {} | {} | {} | {} | {} |",
                digits(reads.cases),
                refused(&reads.numbers),
                digits(writes.cases),
                refused(&writes.numbers),
                digits(row.calls),
                digits(row.differ)
            );
        }
        self.print_sizes();
        self.print_functions();
        println!(
            "{} cases, {} calls, {} differences",
            digits(cases),
            digits(self.calls()),
            digits(self.differences())
        );
    }

    /// The tables of jobs.
    pub fn print_jobs(&self) {
        self.print_found();
        println!("| what | cases | refused | longest job | commands |");
        println!("|---|---|---|---|---|");
        let row = self.rows.get(JOBS).cloned().unwrap_or_default();
        for (what, side) in [("import", &row.reads), ("export", &row.writes)] {
            println!(
                "| {what} | {} | {} | {} | {} |",
                digits(side.cases),
                refused(&side.numbers),
                digits(side.longest as u64),
                digits(side.sizes[0])
            );
        }
        self.print_functions();
        println!(
            "{} jobs, {} lists, {} calls, {} differences",
            digits(row.reads.cases),
            digits(row.writes.cases),
            digits(self.calls()),
            digits(self.differences())
        );
    }

    fn calls(&self) -> u64 {
        self.functions.iter().map(|count| count.calls).sum()
    }

    /// The first differences and the shortest inputs that differ.
    fn print_found(&self) {
        for (_, _, what) in &self.found {
            println!("{what}");
        }
        for (_, _, input) in self.shortest.values() {
            println!("the shortest: {input}");
        }
    }

    fn print_sizes(&self) {
        print!("\n| format | longest read | points | runs | blocks | commands | longest written ");
        println!("| distances over 0 | largest |\n|---|---|---|---|---|---|---|---|---|");
        for (name, shown) in &ROWS[..Format::ALL.len()] {
            let row = self.rows.get(name).cloned().unwrap_or_default();
            let [points, runs, blocks] = row.reads.sizes.map(digits);
            println!(
                "| {shown} | {} | {points} | {runs} | {blocks} | {} | {} | {} | {} |",
                digits(row.reads.longest as u64),
                digits(row.writes.sizes[0]),
                digits(row.writes.longest as u64),
                digits(row.writes.distances),
                digits(row.writes.furthest.into())
            );
        }
    }

    /// The calls of each function that was called, and those of all by the number wanted.
    fn print_functions(&self) {
        println!("\n| function | calls | by the number wanted | differences |");
        println!("|---|---|---|---|");
        let mut numbers = [0; NUMBERS];
        let functions = FUNCTIONS.iter().zip(&self.functions);
        for (name, count) in functions.filter(|(_, count)| count.calls > 0) {
            add(&mut numbers, &count.numbers);
            println!(
                "| {name} | {} | {} | {} |",
                digits(count.calls),
                by_number(&count.numbers, 0),
                digits(count.differ)
            );
        }
        println!("\ncalls by the number wanted: {}", by_number(&numbers, 0));
    }
}

impl Side {
    fn take(&mut self, told: &Told) {
        self.cases += 1;
        self.numbers[usize::from(told.number)] += 1;
        self.longest = self.longest.max(told.length);
        add(&mut self.sizes, &told.sizes.map(|size| size as u64));
        self.distances += u64::from(told.distance > 0);
        self.furthest = self.furthest.max(told.distance);
    }

    fn add(&mut self, other: &Side) {
        self.cases += other.cases;
        add(&mut self.numbers, &other.numbers);
        self.longest = self.longest.max(other.longest);
        add(&mut self.sizes, &other.sizes);
        self.distances += other.distances;
        self.furthest = self.furthest.max(other.furthest);
    }
}

fn add(counts: &mut [u64], more: &[u64]) {
    for (count, more) in counts.iter_mut().zip(more) {
        *count += more;
    }
}

impl Case<'_> {
    /// Whether bytes are read, not written.
    fn reads(&self) -> bool {
        matches!(self, Case::Read(_) | Case::Import(_))
    }

    fn size(&self) -> usize {
        let of_list = |list: &Lists| list.kinds.len() + list.threads.len();
        match self {
            Case::Read(file) => file.bytes.len(),
            Case::Write(asked) => of_list(&asked.list),
            Case::Import(job) => job.len(),
            Case::Export(list) => of_list(list),
        }
    }

    fn name(&self) -> String {
        match self {
            Case::Read(file) => {
                let ext = String::from_utf8_lossy(&file.ext);
                format!("{ext} of {} bytes", file.bytes.len())
            }
            Case::Write(asked) => {
                let ext = String::from_utf8_lossy(&asked.ext);
                format!("{ext} of {}", counts(&asked.list))
            }
            Case::Import(job) => format!("job of {} bytes", job.len()),
            Case::Export(list) => {
                let name = list.name.len();
                format!("job of {}, a name of {name} bytes", counts(list))
            }
        }
    }

    /// The whole input, or its front.
    fn shown(&self) -> String {
        let rest = match self {
            Case::Read(file) => hexadecimal(&file.bytes),
            Case::Write(asked) => shown_list(&asked.list),
            Case::Import(job) => hexadecimal(job),
            Case::Export(list) => shown_list(list),
        };
        format!("{}\n{rest}", self.name())
    }
}

fn counts(list: &Lists) -> String {
    let lengths = [list.xs.len(), list.ys.len(), list.kinds.len()];
    let threads = list.threads.len();
    format!("{lengths:?} commands, {threads} thread bytes")
}

fn shown_list(list: &Lists) -> String {
    let name = hexadecimal(&list.name);
    let threads = hexadecimal(&list.threads);
    let front = |cells: &[i32]| format!("{:?}", &cells[..cells.len().min(SHOWN)]);
    let (xs, ys) = (front(&list.xs), front(&list.ys));
    let kinds = hexadecimal(&list.kinds);
    format!("name {name}\nxs {xs}\nys {ys}\nkinds {kinds}\nthreads {threads}")
}

fn hexadecimal(bytes: &[u8]) -> String {
    let shown = bytes.iter().take(SHOWN).map(|byte| format!("{byte:02X}"));
    shown.collect::<Vec<_>>().join(" ")
}

/// The numbers of refusals that occur, each with its count.
fn refused(numbers: &[u64; NUMBERS]) -> String {
    by_number(numbers, 1)
}

/// The numbers from this one on that occur, each with its count.
fn by_number(numbers: &[u64; NUMBERS], least: usize) -> String {
    let found = numbers.iter().enumerate().skip(least);
    let found = found.filter(|&(_, &count)| count > 0);
    let shown = found.map(|(number, &count)| format!("{number}: {}", digits(count)));
    let shown: Vec<String> = shown.collect();
    shown.join("; ")
}

/// A number with commas between its thousands.
fn digits(number: u64) -> String {
    let digits = number.to_string();
    let mut shown = String::new();
    for (at, digit) in digits.chars().enumerate() {
        if at > 0 && (digits.len() - at).is_multiple_of(3) {
            shown.push(',');
        }
        shown.push(digit);
    }
    shown
}
