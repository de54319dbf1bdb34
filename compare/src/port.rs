//! The port's calls, by the archive for C that `build.rs` links if it is there,
//! and the published Rust's answers as the read lays them into its buffers.

use crate::inputs::lists::List;
use crate::oracle::hoop::{Hoop, Place};
use crate::oracle::{Block, Reading};
use std::io;

#[cfg(stitch_box)]
mod archive {
    use super::Cmd;

    unsafe extern "C" {
        /// Each slice is a pointer and a length.
        pub fn stitch_box_read(
            ext: *const u8,
            ext_length: usize,
            file: *const u8,
            file_length: usize,
            places: *mut i32,
            places_length: usize,
            runs: *mut u32,
            runs_length: usize,
            blocks: *mut u32,
            blocks_length: usize,
            point_count: *mut u32,
            run_count: *mut u32,
            block_count: *mut u32,
            cut_count: *mut u32,
        ) -> u32;

        pub fn stitch_box_label(
            ext: *const u8,
            ext_length: usize,
            file: *const u8,
            file_length: usize,
            start: *mut u64,
            length: *mut u64,
        ) -> u32;

        pub fn stitch_box_fits(
            ext: *const u8,
            ext_length: usize,
            file: *const u8,
            file_length: usize,
            left: i32,
            right: i32,
            top: i32,
            bottom: i32,
            answer: *mut u32,
        ) -> u32;

        pub fn stitch_box_write(
            ext: *const u8,
            ext_length: usize,
            name: *const u8,
            name_length: usize,
            xs: *const i32,
            xs_length: usize,
            ys: *const i32,
            ys_length: usize,
            kinds: *const u8,
            kinds_length: usize,
            threads: *const u8,
            threads_length: usize,
            out: *mut u8,
            out_length: usize,
            length: *mut u64,
            distance: *mut u32,
        ) -> u32;

        pub fn stitch_box_write_cmds(
            ext: *const u8,
            ext_length: usize,
            name: *const u8,
            name_length: usize,
            cmds: *const Cmd,
            cmds_length: usize,
            threads: *const u8,
            threads_length: usize,
            out: *mut u8,
            out_length: usize,
            length: *mut u64,
            distance: *mut u32,
        ) -> u32;

        pub fn stitch_box_write_bound(
            ext: *const u8,
            ext_length: usize,
            commands: usize,
            threads: usize,
        ) -> usize;

        pub fn stitch_box_import_job(
            job: *const u8,
            job_length: usize,
            xs: *mut i32,
            xs_length: usize,
            ys: *mut i32,
            ys_length: usize,
            kinds: *mut u8,
            kinds_length: usize,
            threads: *mut u8,
            threads_length: usize,
            command_count: *mut u32,
            thread_bytes: *mut u32,
        ) -> u32;

        pub fn stitch_box_job_name(
            job: *const u8,
            job_length: usize,
            start: *mut u64,
            length: *mut u64,
        ) -> u32;

        pub fn stitch_box_export_job(
            name: *const u8,
            name_length: usize,
            xs: *const i32,
            xs_length: usize,
            ys: *const i32,
            ys_length: usize,
            kinds: *const u8,
            kinds_length: usize,
            threads: *const u8,
            threads_length: usize,
            out: *mut u8,
            out_length: usize,
            length: *mut u64,
        ) -> u32;
    }
}

/// A command as a record; its padding has a name, so that it can be set.
#[repr(C)]
#[derive(Clone, Copy)]
pub struct Cmd {
    pub x: i32,
    pub y: i32,
    pub kind: u8,
    pub padding: [u8; 3],
}

const _: () = assert!(size_of::<Cmd>() == 12 && align_of::<Cmd>() == 4);

/// A list as the port takes it.
#[derive(Clone, Default)]
pub struct Lists {
    pub name: Vec<u8>,
    pub xs: Vec<i32>,
    pub ys: Vec<i32>,
    pub kinds: Vec<u8>,
    pub threads: Vec<u8>,
}

impl Lists {
    pub fn of(list: &List) -> Lists {
        Lists {
            name: list.name.clone(),
            xs: list.cmds.iter().map(|&(x, _, _)| x).collect(),
            ys: list.cmds.iter().map(|&(_, y, _)| y).collect(),
            kinds: list.cmds.iter().map(|&(_, _, kind)| kind).collect(),
            threads: list.threads.concat(),
        }
    }

    /// The commands as records with junk in their padding; none if the slices are
    /// of unequal length.
    pub fn records(&self, junk: u8) -> Option<Vec<Cmd>> {
        let count = self.kinds.len();
        if [self.xs.len(), self.ys.len()] != [count; 2] {
            return None;
        }
        let padding = [junk; 3];
        let places = self.xs.iter().zip(&self.ys);
        let record = |((&x, &y), &kind)| Cmd {
            x,
            y,
            kind,
            padding,
        };
        Some(places.zip(&self.kinds).map(record).collect())
    }
}

/// Writes a list: 0 or the number of the refusal. It tells the length of the file and how far off
/// the threads are.
#[cfg(stitch_box)]
pub fn write(
    ext: &[u8],
    list: &Lists,
    out: &mut [u8],
    length: &mut u64,
    distance: &mut u32,
) -> u32 {
    // SAFETY: each pointer comes with the length of its slice.
    unsafe {
        archive::stitch_box_write(
            ext.as_ptr(),
            ext.len(),
            list.name.as_ptr(),
            list.name.len(),
            list.xs.as_ptr(),
            list.xs.len(),
            list.ys.as_ptr(),
            list.ys.len(),
            list.kinds.as_ptr(),
            list.kinds.len(),
            list.threads.as_ptr(),
            list.threads.len(),
            out.as_mut_ptr(),
            out.len(),
            length,
            distance,
        )
    }
}

#[cfg(not(stitch_box))]
pub fn write(_: &[u8], _: &Lists, _: &mut [u8], _: &mut u64, _: &mut u32) -> u32 {
    panic!("{MISSING}")
}

/// Writes a list of records: 0 or the number of the refusal.
#[cfg(stitch_box)]
pub fn write_cmds(
    ext: &[u8],
    name: &[u8],
    cmds: &[Cmd],
    threads: &[u8],
    out: &mut [u8],
    length: &mut u64,
    distance: &mut u32,
) -> u32 {
    // SAFETY: each pointer comes with the length of its slice.
    unsafe {
        archive::stitch_box_write_cmds(
            ext.as_ptr(),
            ext.len(),
            name.as_ptr(),
            name.len(),
            cmds.as_ptr(),
            cmds.len(),
            threads.as_ptr(),
            threads.len(),
            out.as_mut_ptr(),
            out.len(),
            length,
            distance,
        )
    }
}

#[cfg(not(stitch_box))]
pub fn write_cmds(
    _: &[u8],
    _: &[u8],
    _: &[Cmd],
    _: &[u8],
    _: &mut [u8],
    _: &mut u64,
    _: &mut u32,
) -> u32 {
    panic!("{MISSING}")
}

/// A length that suffices for the file of so many commands and threads.
#[cfg(stitch_box)]
pub fn write_bound(ext: &[u8], commands: usize, threads: usize) -> usize {
    // SAFETY: the pointer comes with the length of its slice.
    unsafe { archive::stitch_box_write_bound(ext.as_ptr(), ext.len(), commands, threads) }
}

#[cfg(not(stitch_box))]
pub fn write_bound(_: &[u8], _: usize, _: usize) -> usize {
    panic!("{MISSING}")
}

/// Reads a file: 0 or the number of the refusal. The counts are points, runs,
/// blocks and cuts.
#[cfg(stitch_box)]
pub fn read(
    ext: &[u8],
    file: &[u8],
    places: &mut [i32],
    runs: &mut [u32],
    blocks: &mut [u32],
    counts: [&mut u32; 4],
) -> u32 {
    let [points, run_count, block_count, cuts] = counts;
    // SAFETY: each pointer comes with the length of its slice.
    unsafe {
        archive::stitch_box_read(
            ext.as_ptr(),
            ext.len(),
            file.as_ptr(),
            file.len(),
            places.as_mut_ptr(),
            places.len(),
            runs.as_mut_ptr(),
            runs.len(),
            blocks.as_mut_ptr(),
            blocks.len(),
            points,
            run_count,
            block_count,
            cuts,
        )
    }
}

#[cfg(not(stitch_box))]
pub fn read(
    _: &[u8],
    _: &[u8],
    _: &mut [i32],
    _: &mut [u32],
    _: &mut [u32],
    _: [&mut u32; 4],
) -> u32 {
    panic!("{MISSING}")
}

/// Finds a file's label: 0 or the number of the refusal.
#[cfg(stitch_box)]
pub fn label(ext: &[u8], file: &[u8], start: &mut u64, length: &mut u64) -> u32 {
    // SAFETY: each pointer comes with the length of its slice.
    unsafe {
        archive::stitch_box_label(
            ext.as_ptr(),
            ext.len(),
            file.as_ptr(),
            file.len(),
            start,
            length,
        )
    }
}

#[cfg(not(stitch_box))]
pub fn label(_: &[u8], _: &[u8], _: &mut u64, _: &mut u64) -> u32 {
    panic!("{MISSING}")
}

/// Tells whether a file fits a hoop: 0 or the number of the refusal. The answer is 1 for yes and 0
/// for no.
#[cfg(stitch_box)]
pub fn fits(ext: &[u8], file: &[u8], hoop: Hoop, answer: &mut u32) -> u32 {
    // SAFETY: each pointer comes with the length of its slice.
    unsafe {
        archive::stitch_box_fits(
            ext.as_ptr(),
            ext.len(),
            file.as_ptr(),
            file.len(),
            hoop.left,
            hoop.right,
            hoop.top,
            hoop.bottom,
            answer,
        )
    }
}

#[cfg(not(stitch_box))]
pub fn fits(_: &[u8], _: &[u8], _: Hoop, _: &mut u32) -> u32 {
    panic!("{MISSING}")
}

/// Imports a job into x, y, kinds and thread bytes: 0 or the number of the refusal. The counts are
/// commands and thread bytes.
#[cfg(stitch_box)]
pub fn import_job(
    job: &[u8],
    xs: &mut [i32],
    ys: &mut [i32],
    kinds: &mut [u8],
    threads: &mut [u8],
    counts: [&mut u32; 2],
) -> u32 {
    let [commands, thread_bytes] = counts;
    // SAFETY: each pointer comes with the length of its slice.
    unsafe {
        archive::stitch_box_import_job(
            job.as_ptr(),
            job.len(),
            xs.as_mut_ptr(),
            xs.len(),
            ys.as_mut_ptr(),
            ys.len(),
            kinds.as_mut_ptr(),
            kinds.len(),
            threads.as_mut_ptr(),
            threads.len(),
            commands,
            thread_bytes,
        )
    }
}

#[cfg(not(stitch_box))]
pub fn import_job(
    _: &[u8],
    _: &mut [i32],
    _: &mut [i32],
    _: &mut [u8],
    _: &mut [u8],
    _: [&mut u32; 2],
) -> u32 {
    panic!("{MISSING}")
}

/// Finds a job's name: 0 or the number of the refusal.
#[cfg(stitch_box)]
pub fn job_name(job: &[u8], start: &mut u64, length: &mut u64) -> u32 {
    // SAFETY: the pointer comes with the length of its slice.
    unsafe { archive::stitch_box_job_name(job.as_ptr(), job.len(), start, length) }
}

#[cfg(not(stitch_box))]
pub fn job_name(_: &[u8], _: &mut u64, _: &mut u64) -> u32 {
    panic!("{MISSING}")
}

/// Exports a list as a job: 0 or the number of the refusal.
#[cfg(stitch_box)]
pub fn export_job(list: &Lists, out: &mut [u8], length: &mut u64) -> u32 {
    // SAFETY: each pointer comes with the length of its slice.
    unsafe {
        archive::stitch_box_export_job(
            list.name.as_ptr(),
            list.name.len(),
            list.xs.as_ptr(),
            list.xs.len(),
            list.ys.as_ptr(),
            list.ys.len(),
            list.kinds.as_ptr(),
            list.kinds.len(),
            list.threads.as_ptr(),
            list.threads.len(),
            out.as_mut_ptr(),
            out.len(),
            length,
        )
    }
}

#[cfg(not(stitch_box))]
pub fn export_job(_: &Lists, _: &mut [u8], _: &mut u64) -> u32 {
    panic!("{MISSING}")
}

const MISSING: &str = "the port's archive libstitch_box_c.a is missing: make it by \
    `cd crates/stitch_box_c && rt lib` in the folder above, or set STITCH_BOX_LIB to the folder that \
    holds it; then touch build.rs and build again";

/// Tells what is missing unless the archive is linked.
pub fn needed() -> io::Result<()> {
    match cfg!(stitch_box) {
        true => Ok(()),
        false => Err(io::Error::other(MISSING)),
    }
}

/// An answer as the cells of the three buffers, and its cuts.
pub struct Cells {
    pub places: Vec<i32>,
    pub runs: Vec<u32>,
    pub blocks: Vec<u32>,
    pub cuts: u32,
}

impl Cells {
    pub fn of(reading: &Reading) -> Cells {
        let runs = reading.blocks.iter().flat_map(|block| &block.runs);
        let places = runs.clone().flatten().flat_map(|&(x, y)| [x, y]);
        let record = |block: &Block| {
            let [r, g, b] = block.colour.map(u32::from);
            let colour = 65_536 * r + 256 * g + b;
            [block.number, colour, block.runs.len() as u32]
        };
        Cells {
            places: places.collect(),
            runs: runs.map(|run| run.len() as u32).collect(),
            blocks: reading.blocks.iter().flat_map(record).collect(),
            cuts: reading.cuts,
        }
    }

    /// The points, run after run.
    pub fn points(&self) -> impl Iterator<Item = Place> {
        points(&self.places)
    }

    /// Points, runs, blocks and cuts.
    pub fn counts(&self) -> [u32; 4] {
        let points = self.places.len() as u32 / 2;
        let runs = self.runs.len() as u32;
        let blocks = self.blocks.len() as u32 / 3;
        [points, runs, blocks, self.cuts]
    }

    /// How many cells of each buffer they take.
    pub fn lengths(&self) -> [usize; 3] {
        [self.places.len(), self.runs.len(), self.blocks.len()]
    }
}

/// The points that cells of places make, two each.
pub fn points(places: &[i32]) -> impl Iterator<Item = Place> {
    let (pairs, _) = places.as_chunks();
    pairs.iter().map(|&[x, y]| (x, y))
}

/// Buffers of these lengths hold whatever a file of `n` bytes can say, so that
/// the port need not count first.
pub fn ample(n: usize) -> [usize; 3] {
    [n + 2, n / 2, 3 * n / 2]
}

/// Buffers of these lengths, x, y, kinds and thread bytes, hold whatever a job of `n` bytes can say:
/// the header's formulas.
pub fn ample_for_job(n: usize) -> [usize; 4] {
    [n / 5, n / 5, n / 5, n / 2]
}

/// No job that is exported is longer, as the header says.
pub const JOB_BOUND: usize = 329_470;
