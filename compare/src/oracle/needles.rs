//! Needle places, by which the users of VP3 compare: the format drops jumps. The file
//! of a list has the list's.

use crate::oracle::{Block, Command};

/// The number of the block and the place that the needle goes down at.
pub type Needle = (u32, i32, i32);

/// Each run's points but its first.
pub fn of_file(blocks: &[Block]) -> Vec<Needle> {
    let mut needles = Vec::new();
    for block in blocks {
        for run in &block.runs {
            needles.extend(run.iter().skip(1).map(|&(x, y)| (block.number, x, y)));
        }
    }
    needles
}

/// The stitches, those of no length too.
pub fn of_list(cmds: &[Command]) -> Vec<Needle> {
    let mut needles = Vec::new();
    let mut number = 0;
    for &(x, y, kind) in cmds {
        match kind {
            0 => needles.push((number, x, y)),
            3 => number += 1,
            _ => {}
        }
    }
    needles
}
