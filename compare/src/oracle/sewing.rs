//! Document 01's sewing, of a list and of a reading. It tells the block
//! numbers by another way than `block_numbers`, and so tests them.

use crate::oracle::{Block, Command};

/// Block number, the place left and the place reached.
pub type Entry = (u32, (i32, i32), (i32, i32));

pub fn of_list(cmds: &[Command]) -> Vec<Entry> {
    let mut entries = Vec::new();
    let (mut number, mut before) = (0, (0, 0));
    for &(x, y, kind) in cmds {
        match kind {
            3 => number += 1,
            0 if (x, y) != before => entries.push((number, before, (x, y))),
            _ => {}
        }
        before = (x, y);
    }
    entries
}

pub fn of_file(blocks: &[Block]) -> Vec<Entry> {
    let mut entries = Vec::new();
    for block in blocks {
        for pair in block.runs.iter().flat_map(|run| run.windows(2)) {
            if pair[0] != pair[1] {
                entries.push((block.number, pair[0], pair[1]));
            }
        }
    }
    entries
}
