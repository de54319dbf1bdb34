//! Commands of the comparison; see README.md.

use compare::bench::{hostile, jobs, one_call};
use compare::inputs::samples;
use compare::replay::{answers, edges, reads, runs_layout, vp3, writes};
use compare::{against, bench, port};
use std::env;
use std::ffi::OsString;
use std::io;
use std::path::Path;
use std::process::ExitCode;

const USAGE: &str = "usage: compare samples | edges | show EXT FILE | answers | check | \
    reads COUNT SEED FOLDER | \
    writes COUNT SEED FOLDER | longs SEED FOLDER | vp3 COUNT SEED FOLDER | \
    needles COUNT SEED | against COUNT SEED [THREADS] | jobs COUNT SEED | \
    bench [ROUNDS] | bench hostile [ROUNDS] | bench jobs [ROUNDS] | \
    bench one DESIGN EXT CALL SIDE COUNT";

fn main() -> ExitCode {
    let words: Vec<OsString> = env::args_os().skip(1).collect();
    let command = words.first().and_then(|word| word.to_str());
    let done = match (command, words.len()) {
        (Some("samples"), 1) => Ok(samples::show()),
        (Some("edges"), 1) => edges::check_all(),
        (Some("show"), 3) => show(&words[1], &words[2]),
        (Some("answers"), 1) => answers::write_all().map(|()| true),
        (Some("check"), 1) => answers::check_all(),
        (Some("reads"), 4) => reads(&words[1], &words[2], &words[3]),
        (Some("writes"), 4) => writes(&words[1], &words[2], &words[3]),
        (Some("longs"), 3) => longs(&words[1], &words[2]),
        (Some("vp3"), 4) => vp3(&words[1], &words[2], &words[3]),
        (Some("needles"), 3) => needles(&words[1], &words[2]),
        (Some("against"), 3) => compare(&words[1], &words[2], 1),
        (Some("against"), 4) => {
            number(&words[3]).and_then(|threads| compare(&words[1], &words[2], threads as usize))
        }
        (Some("jobs"), 3) => compare_jobs(&words[1], &words[2]),
        (Some("bench"), _) => bench(&words[1..]),
        _ => {
            eprintln!("{USAGE}");
            return ExitCode::from(2);
        }
    };
    match done {
        Ok(true) => ExitCode::SUCCESS,
        Ok(false) => ExitCode::FAILURE,
        Err(error) => {
            eprintln!("{error}");
            ExitCode::FAILURE
        }
    }
}

fn show(ext: &OsString, file: &OsString) -> io::Result<bool> {
    let bytes = std::fs::read(file)?;
    print!("{}", runs_layout::runs(ext.as_encoded_bytes(), &bytes));
    Ok(true)
}

fn reads(count: &OsString, seed: &OsString, folder: &OsString) -> io::Result<bool> {
    let (count, seed) = (number(count)?, number(seed)?);
    reads::write(count as usize, seed, Path::new(folder)).map(|()| true)
}

fn writes(count: &OsString, seed: &OsString, folder: &OsString) -> io::Result<bool> {
    let (count, seed) = (number(count)?, number(seed)?);
    writes::write(count as usize, seed, Path::new(folder)).map(|()| true)
}

fn longs(seed: &OsString, folder: &OsString) -> io::Result<bool> {
    writes::write_long(number(seed)?, Path::new(folder)).map(|()| true)
}

fn vp3(count: &OsString, seed: &OsString, folder: &OsString) -> io::Result<bool> {
    let (count, seed) = (number(count)?, number(seed)?);
    vp3::write(count as usize, seed, Path::new(folder)).map(|()| true)
}

fn needles(count: &OsString, seed: &OsString) -> io::Result<bool> {
    let (count, seed) = (number(count)?, number(seed)?);
    Ok(vp3::check_needles(count as usize, seed))
}

fn compare(count: &OsString, seed: &OsString, threads: usize) -> io::Result<bool> {
    let (count, seed) = (number(count)?, number(seed)?);
    port::needed()?;
    Ok(against::compare(count as usize, seed, threads.max(1)))
}

fn compare_jobs(count: &OsString, seed: &OsString) -> io::Result<bool> {
    let (count, seed) = (number(count)?, number(seed)?);
    port::needed()?;
    Ok(against::jobs::compare(count as usize, seed))
}

fn bench(words: &[OsString]) -> io::Result<bool> {
    port::needed()?;
    let words: Vec<&str> = words.iter().filter_map(|word| word.to_str()).collect();
    let rounds = |word: &str| count(word).map(|rounds| rounds.max(1) as usize);
    match words[..] {
        [] => Ok(bench::run(31)),
        ["hostile"] => Ok(hostile::print_all(5)),
        ["hostile", word] => Ok(hostile::print_all(rounds(word)?)),
        ["jobs"] => Ok(jobs::print(31)),
        ["jobs", word] => Ok(jobs::print(rounds(word)?)),
        ["one", design, ext, call, side, word] => {
            one_call::run(design, ext, call, side, count(word)?)
        }
        [word] => Ok(bench::run(rounds(word)?)),
        _ => Err(io::Error::other(USAGE)),
    }
}

fn number(word: &OsString) -> io::Result<u64> {
    count(&word.to_string_lossy())
}

fn count(word: &str) -> io::Result<u64> {
    let number = word.parse().ok();
    number.ok_or_else(|| io::Error::other(format!("{word:?} is no number; {USAGE}")))
}
