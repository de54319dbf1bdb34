//! One call again and again, for a tool that counts its instructions.

use crate::bench;
use crate::bench::designs::DESIGNS;
use crate::bench::hoops::Fits;
use crate::bench::jobs::Jobs;
use crate::bench::timing::{Reads, Writes};
use crate::oracle::Format;
use crate::port::{self, Lists};
use std::io;

/// What the tool is told to count: what is made ready and dropped is outside.
#[unsafe(no_mangle)]
#[inline(never)]
fn counted(call: &mut dyn FnMut()) {
    call();
}

fn unknown(word: &str) -> io::Error {
    io::Error::other(format!("{word} is not known"))
}

/// Makes one call so many times, and once before: of a design (by its name), a
/// format, a call (`read-just`, `read-ample`, `fits`, `write`, `write-cmds`) and a side
/// (`rust`, `port`; `write-cmds`, and in VP3 reads and `fits`, have only the latter). The side
/// `rust` of `fits` is the Rust's read and a scan of its points. Prints the count of stitches. The
/// calls of the format `job` are `import` and `export`, the side `rust` is the plain version, and
/// the count printed is that of commands.
pub fn run(design: &str, ext: &str, call: &str, side: &str, count: u64) -> io::Result<bool> {
    let design = DESIGNS.iter().find(|known| known.name == design);
    let design = design.ok_or_else(|| unknown("the design"))?;
    if ext == "job" {
        return run_job(Lists::of(&design.list()), call, side, count);
    }
    let format = Format::of(ext).ok_or_else(|| unknown("the format"))?;
    let list = design.list();
    let (ready, lists) = (list.ready(), Lists::of(&list));
    let file = ready.write(format);
    let cells = bench::cells(format, &file);
    let lengths = match call {
        "read-just" => cells.lengths(),
        _ => port::ample(file.len()),
    };
    let mut reads = Reads::new(format, &file, lengths);
    let mut writes = Writes::new(format, &ready, &lists);
    let fits = Fits::new(format, &file, &cells);
    for at in 0..=count {
        let (mut read, mut scanned, mut written) = (None, None, None);
        writes.lay();
        let call: &mut dyn FnMut() = match (call, side) {
            ("read-just" | "read-ample", "rust") if format != Format::Vp3 => {
                &mut || read = Some(reads.rust())
            }
            ("read-just" | "read-ample", "port") => &mut || {
                reads.port();
            },
            ("fits", "rust") if format != Format::Vp3 => &mut || scanned = Some(fits.rust()),
            ("fits", "port") => &mut || {
                fits.port();
            },
            ("write", "rust") => &mut || written = Some(writes.rust()),
            ("write", "port") => &mut || {
                writes.port();
            },
            ("write-cmds", "port") => &mut || {
                writes.port_cmds();
            },
            _ => return Err(unknown("the call or the side")),
        };
        match at {
            0 => call(),
            _ => counted(call),
        }
    }
    println!("{} stitches", design.stitches);
    Ok(true)
}

fn run_job(list: Lists, call: &str, side: &str, count: u64) -> io::Result<bool> {
    let mut jobs = Jobs::new(list);
    for at in 0..=count {
        let (mut list, mut job) = (None, None);
        let call: &mut dyn FnMut() = match (call, side) {
            ("import", "rust") => &mut || list = Some(jobs.plain_import()),
            ("import", "port") => &mut || {
                jobs.import();
            },
            ("export", "rust") => &mut || job = Some(jobs.plain_export()),
            ("export", "port") => &mut || {
                jobs.export();
            },
            _ => return Err(unknown("the call or the side")),
        };
        match at {
            0 => call(),
            _ => counted(call),
        }
    }
    println!("{} commands", jobs.commands());
    Ok(true)
}
