//! A reading in the layout of the program `runs`.

use crate::oracle::{self, Answer, Block, Reading};
use std::fmt::Write;

/// The program reads files up to this length.
const LONGEST: usize = 65_536;
/// Cells in each of the program's three answer buffers.
const CELLS: usize = 16_384;

/// What the program `runs` prints of a file.
pub fn runs(ext: &[u8], file: &[u8]) -> String {
    let answer = oracle::read(ext, file);
    match limited(answer, file.len()) {
        Err(number) => format!("refused {number}\n"),
        Ok(reading) => print(&ext.to_ascii_lowercase(), &reading),
    }
}

/// The answer under the limits of the program.
fn limited(answer: Answer, length: usize) -> Answer {
    if length > LONGEST && answer != Err(1) {
        return Err(2);
    }
    let reading = answer?;
    let (points, runs, blocks) = counts(&reading.blocks);
    if 2 * points > CELLS || runs > CELLS || 3 * blocks > CELLS {
        return Err(11);
    }
    Ok(reading)
}

fn counts(blocks: &[Block]) -> (usize, usize, usize) {
    let runs = blocks.iter().flat_map(|block| &block.runs);
    let points = runs.clone().map(|run| run.len()).sum();
    (points, runs.count(), blocks.len())
}

fn print(ext: &[u8], reading: &Reading) -> String {
    let (points, runs, blocks) = counts(&reading.blocks);
    let ext = String::from_utf8_lossy(ext);
    let cuts = reading.cuts;
    let mut out = format!("{ext} blocks {blocks} runs {runs} points {points} cuts {cuts}\n");
    let shown = |&byte: &u8| match byte {
        0x20..=0x7E => char::from(byte),
        _ => '.',
    };
    let label: String = reading.label.iter().map(shown).collect();
    let _ = writeln!(out, "label [{label}]");
    for block in &reading.blocks {
        let [r, g, b] = block.colour;
        let (number, runs) = (block.number, block.runs.len());
        let _ = writeln!(
            out,
            "block {number} colour {r:02X}{g:02X}{b:02X} runs {runs}"
        );
        for run in &block.runs {
            let _ = writeln!(out, "run {}", run.len());
            for (x, y) in run {
                let _ = writeln!(out, "{x} {y}");
            }
        }
    }
    out
}
