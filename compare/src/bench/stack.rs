//! How deep the stack goes in each call of the port: the call runs in a thread
//! whose stack is marked, and the lowest cell touched is looked for.

use crate::bench;
use crate::bench::designs::DESIGNS;
use crate::bench::hoops::Fits;
use crate::bench::timing::{Reads, Told, Writes};
use crate::inputs::lists::List;
use crate::inputs::{hard_lists, hostile_files};
use crate::oracle::{Format, Ready};
use crate::port::{self, Lists};
use std::alloc::{Layout, alloc, dealloc};
use std::ffi::{c_int, c_void};
use std::{ptr, slice};

/// Bytes of the stack that is lent to a call.
const SIZE: usize = 2 << 20;

/// No call may go as deep, but for that of records.
pub(super) const LIMIT: usize = 512 << 10;

/// That of records may not go as deep as this.
const LIMIT_CMDS: usize = 1 << 20;

const MARK: u64 = 0x5AC3_96E1_0F78_B42D;

/// The hostile files are this long.
const LENGTH: usize = 1 << 16;

/// Room for a `pthread_attr_t`.
#[repr(C, align(16))]
struct Attributes([u8; 128]);

unsafe extern "C" {
    fn pthread_attr_init(attributes: *mut Attributes) -> c_int;
    fn pthread_attr_setstack(attributes: *mut Attributes, low: *mut c_void, size: usize) -> c_int;
    fn pthread_create(
        thread: *mut usize,
        attributes: *const Attributes,
        start: extern "C" fn(*mut c_void) -> *mut c_void,
        job: *mut c_void,
    ) -> c_int;
    fn pthread_join(thread: usize, value: *mut *mut c_void) -> c_int;
}

struct Job<'a> {
    call: &'a mut dyn FnMut(),
    /// Where the stack is as the call begins.
    top: usize,
}

extern "C" fn start(job: *mut c_void) -> *mut c_void {
    // SAFETY: `depth` hands over its job and waits for the end of the thread.
    let job = unsafe { &mut *job.cast::<Job>() };
    let here = 0_u8;
    job.top = (&raw const here).addr();
    (job.call)();
    ptr::null_mut()
}

/// How many bytes of stack a call takes.
pub(super) fn depth(call: &mut dyn FnMut()) -> usize {
    let layout = Layout::from_size_align(SIZE, 4096).expect("a size of whole pages");
    let mut job = Job { call, top: 0 };
    // SAFETY: the stack is ours, as large as told, and outlives the thread.
    unsafe {
        let low = alloc(layout);
        assert!(!low.is_null(), "memory for a stack");
        let cells = slice::from_raw_parts_mut(low.cast::<u64>(), SIZE / 8);
        cells.fill(MARK);
        let mut attributes = Attributes([0; 128]);
        let mut thread = 0;
        let done = [
            pthread_attr_init(&mut attributes),
            pthread_attr_setstack(&mut attributes, low.cast(), SIZE),
            pthread_create(&mut thread, &attributes, start, (&raw mut job).cast()),
            pthread_join(thread, ptr::null_mut()),
        ];
        assert_eq!(done, [0; 4], "a thread on a stack of ours");
        let cells = slice::from_raw_parts(low.cast::<u64>(), SIZE / 8);
        let touched = cells.iter().position(|&cell| cell != MARK);
        let lowest = low.addr() + 8 * touched.expect("a stack that is used");
        dealloc(low, layout);
        job.top - lowest
    }
}

/// Prints the greatest depth of each call in each format; false if one reaches
/// its limit.
pub fn print() -> bool {
    println!("\ndeepest stack, in bytes\n");
    let names = Format::ALL.map(|format| format.ext().to_uppercase());
    println!(
        "| call | {} |\n|---|---|---|---|---|---|---|",
        names.join(" | ")
    );
    let mut within = true;
    let rows = [
        ("read", LIMIT, Format::ALL.map(read)),
        ("label", LIMIT, Format::ALL.map(label)),
        ("fits", LIMIT, Format::ALL.map(fits)),
        ("write", LIMIT, Format::ALL.map(write)),
        ("write_cmds", LIMIT_CMDS, Format::ALL.map(write_cmds)),
    ];
    for (name, limit, depths) in rows {
        within &= depths.iter().all(|&depth| depth < limit);
        let depths = depths.map(|depth| depth.to_string());
        println!("| {name} | {} |", depths.join(" | "));
    }
    within
}

/// The designs as files of a format, and its hostile files.
fn files(format: Format) -> Vec<Vec<u8>> {
    let designs = DESIGNS
        .iter()
        .map(|design| design.list().ready().write(format));
    let hostile = hostile_files::kinds(format)
        .map(|(head, body)| hostile_files::file(format, head, body, LENGTH));
    designs.chain(hostile).collect()
}

fn read(format: Format) -> usize {
    let one = |file: &Vec<u8>| {
        let just = bench::cells(format, file).lengths();
        let both = [just, port::ample(file.len())].map(|lengths| {
            let mut reads = Reads::new(format, file, lengths);
            depth(&mut || {
                reads.port();
            })
        });
        both[0].max(both[1])
    };
    files(format).iter().map(one).max().unwrap_or(0)
}

fn label(format: Format) -> usize {
    let ext = format.ext().as_bytes();
    let one = |file: &Vec<u8>| {
        let (mut start, mut length) = (0, 0);
        depth(&mut || {
            port::label(ext, file, &mut start, &mut length);
        })
    };
    files(format).iter().map(one).max().unwrap_or(0)
}

fn fits(format: Format) -> usize {
    let one = |file: &Vec<u8>| {
        let fits = Fits::new(format, file, &bench::cells(format, file));
        depth(&mut || {
            fits.port();
        })
    };
    files(format).iter().map(one).max().unwrap_or(0)
}

fn write(format: Format) -> usize {
    writes(format, |writes| writes.port())
}

fn write_cmds(format: Format) -> usize {
    writes(format, |writes| writes.port_cmds())
}

/// The designs, and boundary lists: many colour changes, many threads.
fn writes(format: Format, call: fn(&mut Writes) -> Told) -> usize {
    let mut lists: Vec<_> = DESIGNS.iter().map(|design| design.list()).collect();
    lists.extend(hard_lists::boundary(format, 1).into_iter().step_by(7));
    let one = |list: &List| {
        let (ready, lists): (Ready, Lists) = (list.ready(), Lists::of(list));
        let mut writes = Writes::new(format, &ready, &lists);
        let mut number = 1;
        let depth = depth(&mut || (number, ..) = call(&mut writes));
        assert_eq!(number, 0, "a list that is written");
        depth
    };
    lists.iter().map(one).max().unwrap_or(0)
}
