//! The lists of the command `vp3`, of VP3 alone, and the check of the command `needles`:
//! the plain reader on the files that the published Rust writes.

use crate::inputs::files::File;
use crate::inputs::hard_files::HardFiles;
use crate::inputs::lists::{self, List};
use crate::inputs::{hard_lists, vp3_files};
use crate::oracle::{self, Format, needles};
use crate::random::Random;
use crate::replay::answers;
use crate::replay::case_bytes::put_long;
use crate::replay::writes::Cases;
use std::io;
use std::path::Path;

const EXT: &[u8] = b"vp3";

/// Writes so many reads and so many writes to the files `vp3-reads` and `vp3-writes` in a
/// folder.
pub fn write(count: usize, seed: u64, folder: &Path) -> io::Result<()> {
    write_reads(count, seed, folder)?;
    write_writes(count, seed, folder)
}

/// The boundary files first, then hard files, counted by the number that they are refused
/// by.
fn write_reads(count: usize, seed: u64, folder: &Path) -> io::Result<()> {
    let mut cases = Cases::new(folder, "vp3-reads")?;
    let boundary = vp3_files::boundary();
    println!("boundary files: {}", boundary.len());
    let boundary = boundary.iter().filter_map(|file| answers::read(EXT, file));
    let mut files = HardFiles::of_vp3(seed);
    let hard = std::iter::repeat_with(|| files.fitting(own_case).1);
    for case in boundary.chain(hard).take(count) {
        cases.add(&format!("refusal {}", refusal(&case)), &case, put_long)?;
    }
    cases.end()
}

/// A file under the extension of VP3, as a case.
fn own_case(file: &File) -> Option<Vec<u8>> {
    if !file.ext.eq_ignore_ascii_case(EXT) {
        return None;
    }
    answers::read(&file.ext, &file.bytes)
}

/// The number behind the extension and the file of a case.
fn refusal(case: &[u8]) -> u8 {
    let ext = usize::from(case[0]);
    let length = u16::from_le_bytes([case[1 + ext], case[2 + ext]]);
    case[3 + ext + usize::from(length)]
}

/// Boundary and random lists by turns, as long as there are boundary ones.
fn write_writes(count: usize, seed: u64, folder: &Path) -> io::Result<()> {
    let mut cases = Cases::new(folder, "vp3-writes")?;
    let boundary = hard_lists::boundary(Format::Vp3, seed);
    println!("boundary lists: {}", boundary.len());
    for list in lists(boundary, seed) {
        if cases.made == count {
            break;
        }
        let case = answers::write(Format::Vp3, &list.name, &list.cmds, &list.threads);
        if let Some(case) = case {
            cases.add("vp3", &case, put_long)?;
        }
    }
    cases.end()
}

/// Lists in the domain, without end: boundary and random ones by turns.
fn lists(boundary: Vec<List>, seed: u64) -> impl Iterator<Item = List> {
    let mut random = Random::new(seed);
    let mut boundary = boundary.into_iter();
    let mut made = 0;
    let next = move || {
        made += 1;
        let list = (made % 2 == 1).then(|| boundary.next()).flatten();
        list.unwrap_or_else(|| hard_lists::any(Format::Vp3, &mut random))
    };
    let accepted = |list: &List| lists::accepted(Format::Vp3, &list.cmds, &list.threads);
    std::iter::repeat_with(next).filter(accepted)
}

/// Writes so many lists by the published Rust and reads them by the plain reader: none may
/// be refused, and each has its list's needle places. True if all do.
pub fn check_needles(count: usize, seed: u64) -> bool {
    let (mut right, mut stitches, mut blocks) = (0, 0, 0);
    let boundary = hard_lists::boundary(Format::Vp3, seed);
    for list in lists(boundary, seed).take(count) {
        let file = list.ready().write(Format::Vp3);
        let wanted = needles::of_list(&list.cmds);
        match oracle::read(EXT, &file) {
            Ok(reading) if needles::of_file(&reading.blocks) == wanted => {
                right += 1;
                stitches += wanted.len();
                blocks += reading.blocks.len();
            }
            Ok(_) => println!("other needle places: {:?}", list.cmds),
            Err(number) => println!("refused {number}: {:?}", list.cmds),
        }
    }
    println!("{right} of {count} lists right, {stitches} stitches in {blocks} blocks");
    right == count
}
