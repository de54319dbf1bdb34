//! Jobs to import, boundary ones: cuts, changed bytes, two faults, fields in all orders and of all
//! lengths, short lists, places, counts, and jobs as long as may be.

use crate::inputs::lists::{CHANGE, EDGE, END, JUMP, STITCH, TRIM};
use crate::oracle::{Command, LONGEST};
use std::ops::Range;

pub const NAME: u8 = 1;
pub const THREAD: u8 = 2;
pub const ROW: u8 = 3;

/// As many commands as a field can hold.
pub const FULL: usize = 13_107;

/// Places inside the range, at its ends and past them, and at the ends of 16 bits.
pub const PLACES: [i32; 13] = [
    0,
    1,
    -1,
    255,
    256,
    -256,
    EDGE,
    -EDGE,
    EDGE + 1,
    -EDGE - 1,
    32_767,
    -32_767,
    -32_768,
];

/// A list of an end alone.
const ENDED: &[Command] = &[(0, 0, END)];

/// The boundary jobs, short ones first.
pub fn boundary() -> Vec<Vec<u8>> {
    let mut jobs = changed(&small());
    jobs.extend(two_faults(&small()));
    jobs.extend(orders());
    jobs.extend(lengths());
    jobs.extend(short_lists());
    jobs.extend(places());
    jobs.extend(counts());
    jobs.extend(long_lists());
    jobs.extend(many());
    jobs.extend(longest());
    jobs
}

/// A field: tag, length and content.
pub fn field(tag: u8, content: &[u8]) -> Vec<u8> {
    let length = u16::try_from(content.len()).expect("a content that fits a field");
    [&[tag][..], &length.to_le_bytes(), content].concat()
}

/// A field of commands, whose places fit 16 bits.
fn row(cmds: &[Command]) -> Vec<u8> {
    let place = |place: i32| i16::try_from(place).expect("a place of 16 bits");
    let mut content = Vec::new();
    for &(x, y, kind) in cmds {
        content.push(kind);
        content.extend(place(x).to_le_bytes());
        content.extend(place(y).to_le_bytes());
    }
    field(ROW, &content)
}

/// A job of a name, threads and rows of commands.
pub fn job<'a>(
    name: &[u8],
    threads: &[[u8; 3]],
    rows: impl IntoIterator<Item = &'a [Command]>,
) -> Vec<u8> {
    let mut job = field(NAME, name);
    job.extend(threads.iter().flat_map(|thread| field(THREAD, thread)));
    job.extend(rows.into_iter().flat_map(row));
    job
}

/// The fields of a job as their lengths tell, the last one up to the end.
pub fn fields(job: &[u8]) -> Vec<Range<usize>> {
    let (mut found, mut at) = (Vec::new(), 0);
    while at < job.len() {
        let length = match job[at..] {
            [_, low, high, ..] => u16::from_le_bytes([low, high]),
            _ => 0,
        };
        let end = job.len().min(at + 3 + usize::from(length));
        found.push(at..end);
        at = end;
    }
    found
}

/// So many commands: stitches, and an end.
pub fn stitches(count: usize) -> Vec<Command> {
    let place = |at: usize| ((at % 2_001) as i32 - 1_000, 500 - (at % 997) as i32);
    let stitch = |at: usize| (place(at).0, place(at).1, STITCH);
    let mut cmds: Vec<Command> = (1..count).map(stitch).collect();
    cmds.push(ended(&cmds));
    cmds
}

/// An end where the last command stands.
fn ended(cmds: &[Command]) -> Command {
    let (x, y) = cmds.last().map_or((0, 0), |&(x, y, _)| (x, y));
    (x, y, END)
}

fn with(job: &[u8], at: usize, byte: u8) -> Vec<u8> {
    let mut copy = job.to_vec();
    copy[at] = byte;
    copy
}

/// A sound job of 46 bytes: a name, two threads and three rows of commands, the second empty.
fn small() -> Vec<u8> {
    let first = [(5, -3, STITCH), (-300, 700, JUMP)];
    let last = [(-300, 700, CHANGE), (-300, 700, END)];
    let threads = [[10, 20, 30], [40, 50, 60]];
    job(b"ab", &threads, [&first[..], &[], &last])
}

/// A job cut at every byte, the same with each of its kinds unknown, and every byte of it changed to
/// every value.
fn changed(job: &[u8]) -> Vec<Vec<u8>> {
    let cuts = |job: &[u8]| -> Vec<_> { (0..=job.len()).map(|end| job[..end].to_vec()).collect() };
    let mut jobs = cuts(job);
    for at in kinds(job) {
        jobs.extend(cuts(&with(job, at, 5)));
    }
    for at in 0..job.len() {
        jobs.extend((0..=255).map(|byte| with(job, at, byte)));
    }
    jobs
}

/// Where the kinds of a job stand.
fn kinds(job: &[u8]) -> Vec<usize> {
    let rows = fields(job)
        .into_iter()
        .filter(|field| job[field.start] == ROW);
    rows.flat_map(|row| (row.start + 3..row.end).step_by(5))
        .collect()
}

/// Each two of these faults, the first by place to be found: unknown tags and tags out of order,
/// lengths one too great and far too great, unknown kinds, ends and places outside.
fn two_faults(job: &[u8]) -> Vec<Vec<u8>> {
    let mut faults = Vec::new();
    for field in fields(job) {
        let at = field.start;
        faults.extend([(at, 0), (at, 4), (at, NAME), (at, THREAD)]);
        faults.extend([(at + 1, job[at + 1] + 1), (at + 2, 1)]);
    }
    for at in kinds(job) {
        faults.extend([(at, 5), (at, END), (at + 2, 0x7F)]);
    }
    let mut jobs = Vec::new();
    for &(at, byte) in &faults {
        let once = with(job, at, byte);
        jobs.extend(faults.iter().map(|&(at, byte)| with(&once, at, byte)));
    }
    jobs
}

/// Up to four fields in every order, alone and behind a name.
fn orders() -> Vec<Vec<u8>> {
    let pieces = [
        field(NAME, b"n"),
        field(NAME, b""),
        field(THREAD, &[1, 2, 3]),
        field(ROW, &[]),
        row(&[(1, 2, STITCH)]),
        row(&[(1, 2, END)]),
        row(ENDED),
        field(0, &[]),
        field(4, &[1, 2, 3]),
    ];
    let (mut jobs, mut rows) = (Vec::new(), vec![Vec::new()]);
    for _ in 0..4 {
        let longer = |row: &Vec<u8>| pieces.each_ref().map(|piece| [&row[..], piece].concat());
        rows = rows.iter().flat_map(longer).collect();
        jobs.extend(rows.iter().map(|row| [&pieces[0][..], row].concat()));
        jobs.extend(rows.iter().cloned());
    }
    jobs
}

/// Fields of lengths about those allowed, and of lengths of which one byte alone would be; each in a
/// job that is sound otherwise, and last in one that lacks its last byte.
fn lengths() -> Vec<Vec<u8>> {
    const FAR: [usize; 16] = [
        127, 128, 255, 256, 257, 259, 261, 319, 320, 321, 768, 1_280, 16_384, 20_480, 65_530,
        65_535,
    ];
    let (name, thread, end) = (field(NAME, b"n"), field(THREAD, &[1, 2, 3]), row(ENDED));
    let mut jobs = Vec::new();
    for length in (0..=70).chain(FAR) {
        let content = vec![0; length];
        let [first, second, third] = [NAME, THREAD, ROW].map(|tag| field(tag, &content));
        jobs.push([&first[..], &thread, &end].concat());
        jobs.push([&name[..], &second, &end].concat());
        jobs.push([&name[..], &thread, &third, &end].concat());
        for mut cut in [
            first,
            [&name[..], &second].concat(),
            [name.clone(), third].concat(),
        ] {
            cut.pop();
            jobs.push(cut);
        }
    }
    jobs
}

/// Every row of up to three commands, of every kind, that stand or move on either axis; with an end
/// behind it and without, in one field and in a field for each command.
fn short_lists() -> Vec<Vec<u8>> {
    let mut lists: Vec<Vec<Command>> = vec![Vec::new()];
    let mut last = lists.clone();
    for _ in 0..3 {
        last = last.iter().flat_map(|list| longer(list)).collect();
        lists.extend(last.iter().cloned());
    }
    let mut jobs = Vec::new();
    for list in lists {
        let closed = [&list[..], &[ended(&list)]].concat();
        for cmds in [list, closed] {
            jobs.push(job(b"", &[], [&cmds[..]]));
            jobs.push(job(b"", &[], cmds.chunks(1)));
        }
    }
    jobs
}

/// A list with each command behind it.
fn longer(list: &[Command]) -> Vec<Vec<Command>> {
    let (x, y, _) = ended(list);
    let mut lists = Vec::new();
    for kind in STITCH..=END {
        for cmd in [(x, y, kind), (x + 3, y, kind), (x, y - 2, kind)] {
            lists.push([list, &[cmd]].concat());
        }
    }
    lists
}

/// Every two of the places first, between others, and of a trim.
fn places() -> Vec<Vec<u8>> {
    let mut jobs = Vec::new();
    for x in PLACES {
        for y in PLACES {
            let lists = [
                vec![(x, y, STITCH), (x, y, END)],
                vec![(1, 2, STITCH), (x, y, JUMP), (1, 2, STITCH), (1, 2, END)],
                vec![(x, y, TRIM), (x, y, END)],
            ];
            jobs.extend(lists.map(|cmds| job(b"place", &[], [&cmds[..]])));
        }
    }
    jobs
}

/// About 1,000 and 2,000 commands, in fields of several lengths, with and without empty ones between;
/// and every count from 999 to 2,001, 1,000 commands to a field and all in one.
fn counts() -> Vec<Vec<u8>> {
    let mut jobs = Vec::new();
    for count in 999..=2_001 {
        let cmds = stitches(count);
        for size in [1_000, FULL] {
            jobs.push(job(b"count", &[], cmds.chunks(size)));
        }
    }
    for count in [998, 999, 1_000, 1_001, 1_999, 2_000, 2_001] {
        let cmds = stitches(count);
        for size in [1, 7, 999, 1_000, 1_001, FULL] {
            let apart = cmds.chunks(size).flat_map(|row| [row, &[]]);
            jobs.push(job(b"count", &[], apart));
            jobs.push(job(b"count", &[], cmds.chunks(size)));
        }
    }
    jobs
}

/// About as many commands as a field or a list may have, and more. Some have an end besides, so that
/// they are in order if only the low bits of their count are taken, or only so many as may be; in
/// some a 13 or 14 stands behind the commands that are too many.
fn long_lists() -> Vec<Vec<u8>> {
    const COUNTS: [usize; 8] = [
        FULL,
        FULL + 1,
        65_534,
        65_535,
        65_536,
        65_537,
        70_000,
        131_072,
    ];
    const EARLY: [(usize, usize); 4] = [
        (65_536, 65_535),
        (65_537, 1),
        (66_000, 464),
        (131_072, 65_535),
    ];
    let mut jobs = Vec::new();
    for count in COUNTS {
        let cmds = stitches(count);
        jobs.extend([1, 1_000, FULL].map(|size| job(b"long", &[], cmds.chunks(size))));
    }
    for (count, end) in EARLY {
        let mut cmds = stitches(count);
        cmds[end - 1] = ended(&cmds[..end - 1]);
        jobs.push(job(b"early", &[], cmds.chunks(1_000)));
    }
    let job = job(b"too many", &[], stitches(65_536).chunks(1_000));
    jobs.push(with(&job, job.len() - 5, 5));
    jobs.push([&job[..], &field(9, &[])].concat());
    jobs.push(job[..job.len() - 1].to_vec());
    jobs
}

/// About as many colour changes and threads as may be; more threads besides without commands, with a
/// place outside and with a trim that moves.
fn many() -> Vec<Vec<u8>> {
    const CHANGES: [usize; 8] = [253, 254, 255, 256, 300, 510, 512, 65_534];
    const THREADS: [usize; 12] = [
        254, 255, 256, 257, 300, 511, 512, 513, 21_845, 21_846, 65_536, 65_791,
    ];
    let mut jobs = Vec::new();
    for count in CHANGES {
        let cmds = [&vec![(0, 0, CHANGE); count][..], ENDED].concat();
        jobs.push(job(b"changes", &threads(255), cmds.chunks(100)));
        jobs.push(job(b"changes", &threads(256), cmds.chunks(FULL)));
    }
    for count in THREADS {
        let threads = threads(count);
        let outside = [(16_001, 0, STITCH), (16_001, 0, END)];
        let moved = [(1, 0, TRIM), (1, 0, END)];
        let lists: [&[Command]; 4] = [&[], ENDED, &outside, &moved];
        jobs.extend(lists.map(|cmds| job(b"threads", &threads, [cmds])));
    }
    jobs
}

fn threads(count: usize) -> Vec<[u8; 3]> {
    let thread = |at: usize| [at as u8, (at >> 8) as u8, 200];
    (0..count).map(thread).collect()
}

/// As long as a job may be and one byte longer: of empty fields with faults at both ends and
/// without, of commands, of threads.
fn longest() -> Vec<Vec<u8>> {
    let mut jobs: Vec<Vec<u8>> = [LONGEST - 1, LONGEST, LONGEST + 1].map(padded).into();
    let (sound, kind) = (padded(LONGEST), LONGEST - 5);
    let [tag, length] = [kind - 3, kind - 2];
    for (at, byte) in [
        (0, 9),
        (1, 3),
        (tag, THREAD),
        (tag, 9),
        (length, 6),
        (kind, 5),
        (kind, STITCH),
        (kind + 1, 1),
        (kind + 2, 0x7F),
    ] {
        jobs.push(with(&sound, at, byte));
    }
    jobs.push(with(&padded(LONGEST + 1), 0, 9));
    jobs.push(vec![NAME; LONGEST + 1]);
    let full = job(b"full", &[], stitches(31 * FULL).chunks(FULL));
    jobs.push(with(&full, full.len() - 5, 5));
    jobs.push(full);
    jobs.push(job(b"full", &threads(349_000), [ENDED]));
    jobs
}

/// A sound job of so many bytes: a name of up to two bytes, empty rows of commands, and an end.
fn padded(length: usize) -> Vec<u8> {
    let end = row(ENDED);
    let mut job = field(NAME, &b"pp"[..(length - end.len()) % 3]);
    let rows = (length - end.len() - job.len()) / 3;
    job.extend(field(ROW, &[]).repeat(rows));
    job.extend(end);
    job
}
