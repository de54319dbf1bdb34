//! The designs that are timed, and the table of each.

use crate::bench::hoops::{self, Fits};
use crate::bench::timing::{Reads, Times, Writes};
use crate::bench::{cells, checked};
use crate::inputs::lists::{self, CHANGE, EDGE, END, JUMP, List, STITCH};
use crate::oracle::{Command, Format};
use crate::port::{self, Lists};
use crate::random::Random;
use std::ops::RangeInclusive;

/// A design: rows of jumps and runs of stitches by turns, and colour changes.
pub struct Design {
    pub name: &'static str,
    /// The greatest step on either axis.
    step: i32,
    /// How many jumps stand before a run.
    jumps: RangeInclusive<i32>,
    /// How many stitches a run has.
    run: RangeInclusive<i32>,
    colour: Colour,
    /// All stitches; the last run ends with them.
    pub stitches: usize,
}

/// How far it is from one colour change to the next.
enum Colour {
    /// So many stitches, even within a run.
    Stitches(usize),
    /// So many commands, and on to the end of the run.
    Commands(usize),
}

/// The second has as many stitches as a list of 65,535 commands takes. The third
/// is meant to be like a real DST file, and has about 60,000 commands.
pub const DESIGNS: [Design; 3] = [
    Design {
        name: "plain",
        step: 40,
        jumps: 1..=1,
        run: 60..=60,
        colour: Colour::Stitches(500),
        stitches: 60_000,
    },
    Design {
        name: "mix",
        step: 100,
        jumps: 1..=1,
        run: 2..=2,
        colour: Colour::Stitches(500),
        stitches: 43_500,
    },
    Design {
        name: "dst-like",
        step: 40,
        jumps: 3..=8,
        run: 5..=40,
        colour: Colour::Commands(2_000),
        stitches: 48_000,
    },
];

/// Prints the tables of a design; false if an answer differs.
pub fn print(design: &Design, rounds: usize) -> bool {
    println!("\n{}\n", design.title());
    println!("| format | call | bytes | Rust | port | ratio | ratio of shortest |");
    println!("|---|---|---|---|---|---|---|");
    let list = design.list();
    let (ready, lists) = (list.ready(), Lists::of(&list));
    let mut same = true;
    let (mut medians, mut fitting) = (Vec::new(), Vec::new());
    for format in Format::ALL {
        let file = ready.write(format);
        let cells = cells(format, &file);
        for (call, lengths) in [
            ("read, just", cells.lengths()),
            ("read, ample", port::ample(file.len())),
        ] {
            let mut reads = Reads::new(format, &file, lengths);
            same &= checked(format, call, reads.right(&cells));
            let times = reads.times(rounds);
            row(format, call, file.len(), &times);
            medians.push((format, call, times.medians().1));
        }
        let mut writes = Writes::new(format, &ready, &lists);
        same &= checked(format, "write", writes.right());
        row(format, "write", file.len(), &writes.times(rounds));
        let mut fits = Fits::new(format, &file, &cells);
        same &= checked(format, "fits", fits.right(&cells));
        fitting.push((format, fits.times(rounds)));
    }
    print_beside_exp(design, &medians);
    hoops::print(design, &fitting);
    same
}

/// A read of VP3 has no time and no ratios of the Rust.
fn row(format: Format, call: &str, bytes: usize, times: &Times) {
    let ext = format.ext().to_uppercase();
    let (rust, port) = times.medians();
    let rust = rust.map_or("none".to_string(), |rust| format!("{rust:.1}"));
    let ratio = times
        .ratios()
        .map(|ratios| ratios.map(|ratio| format!("{ratio:.2}")));
    let [ratio, shortest] = ratio.unwrap_or_default();
    println!("| {ext} | {call} | {bytes} | {rust} | {port:.1} | {ratio} | {shortest} |");
}

/// The reads of VP3, which the Rust has not, beside those of EXP: nanoseconds per stitch.
fn print_beside_exp(design: &Design, medians: &[(Format, &str, f64)]) {
    println!("\n| port, ns per stitch | EXP | VP3 | VP3 over EXP |\n|---|---|---|---|");
    let of = |format| medians.iter().filter(move |median| median.0 == format);
    for (exp, vp3) in of(Format::Exp).zip(of(Format::Vp3)) {
        let [exp_time, vp3_time] = [exp.2, vp3.2].map(|time| 1e3 * time / design.stitches as f64);
        let ratio = vp3_time / exp_time;
        println!("| {} | {exp_time:.2} | {vp3_time:.2} | {ratio:.2} |", exp.1);
    }
}

impl Design {
    pub fn list(&self) -> List {
        let mut random = Random::new(1);
        let mut cmds: Vec<Command> = Vec::new();
        let (mut x, mut y) = (0, 0);
        let (mut rest_of_run, mut changes) = (0, 0);
        for at in 0..self.stitches {
            let colours = match self.colour {
                Colour::Stitches(count) => at / count,
                Colour::Commands(count) if rest_of_run == 0 => cmds.len() / count,
                Colour::Commands(_) => changes,
            };
            if colours > changes {
                cmds.push((x, y, CHANGE));
                changes += 1;
            }
            if rest_of_run == 0 {
                for _ in 0..any_of(&self.jumps, &mut random) {
                    (x, y) = (self.next(x, &mut random), self.next(y, &mut random));
                    cmds.push((x, y, JUMP));
                }
                rest_of_run = any_of(&self.run, &mut random);
            }
            rest_of_run -= 1;
            (x, y) = (self.next(x, &mut random), self.next(y, &mut random));
            cmds.push((x, y, STITCH));
        }
        cmds.push((x, y, END));
        List {
            name: b"bench".to_vec(),
            threads: lists::threads(changes + 1, &mut random),
            cmds,
        }
    }

    /// A step from a place, turned round if it led out.
    fn next(&self, from: i32, random: &mut Random) -> i32 {
        let step = random.between(-self.step, self.step);
        let to = from + step;
        if to.abs() > EDGE { from - step } else { to }
    }

    /// What stands above its table: jumps and colours only if they are not those of
    /// the first design.
    fn title(&self) -> String {
        let (step, stitches) = (self.step, self.stitches);
        let mut title = format!("{stitches} stitches, steps to {step}, ");
        title += &format!("{} to a run", shown(&self.run));
        if self.jumps != (1..=1) {
            title += &format!(", {} jumps before it", shown(&self.jumps));
        }
        if let Colour::Commands(count) = self.colour {
            title += &format!(", a colour change every {count} commands");
        }
        title
    }
}

/// The first design with so many commands, and a thread for each of its blocks.
pub fn plain(commands: usize) -> List {
    let [plain, ..] = DESIGNS;
    let design = Design {
        stitches: commands,
        ..plain
    };
    let List {
        name,
        mut cmds,
        mut threads,
    } = design.list();
    cmds.truncate(commands - 1);
    let (x, y) = cmds.last().map_or((0, 0), |&(x, y, _)| (x, y));
    cmds.push((x, y, END));
    let changes = cmds.iter().filter(|cmd| cmd.2 == CHANGE).count();
    threads.truncate(changes + 1);
    List {
        name,
        cmds,
        threads,
    }
}

/// A number of a range; a single one is taken without a random number.
fn any_of(range: &RangeInclusive<i32>, random: &mut Random) -> i32 {
    let (least, greatest) = (*range.start(), *range.end());
    if least == greatest {
        return least;
    }
    random.between(least, greatest)
}

fn shown(range: &RangeInclusive<i32>) -> String {
    let (least, greatest) = (range.start(), range.end());
    if least == greatest {
        return least.to_string();
    }
    format!("{least} to {greatest}")
}
