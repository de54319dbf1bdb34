//! Random jobs to import, most of them short: of random lists, some with faults, in rows of random
//! lengths, some damaged; and fields in no order.

use crate::inputs::jobs::{self, FULL, NAME, PLACES, ROW, THREAD};
use crate::inputs::lists::{self, CHANGE, CHANGES, TRIM};
use crate::oracle::{Command, Format};
use crate::random::Random;

/// A random job: one of eight of fields in no order; of the others one of three of a list with a
/// fault, and half of them damaged.
pub fn any(random: &mut Random) -> Vec<u8> {
    if random.below(8) == 0 {
        return scattered(random);
    }
    let (mut cmds, threads) = list(random);
    if random.below(3) == 0 {
        spoil(&mut cmds, random);
    }
    let mut job = jobs::job(&name(random), &threads, rows(&cmds, random));
    if random.below(2) == 0 {
        for _ in 0..random.pick(&[1, 1, 1, 2, 3]) {
            damage(&mut job, random);
        }
    }
    job
}

/// A name of any bytes, few of them longer than may be.
pub fn name(random: &mut Random) -> Vec<u8> {
    let length = match random.below(20) {
        0 => 60 + random.below(11),
        _ => random.below(65),
    };
    (0..length).map(|_| random.byte()).collect()
}

/// A list in order, with steps as long as any format allows.
fn list(random: &mut Random) -> (Vec<Command>, Vec<[u8; 3]>) {
    let length = match random.below(1_000) {
        0 => random.below(65_535),
        1..20 => random.below(3_000),
        20..100 => random.below(300),
        _ => random.below(30),
    };
    let list = lists::random(random.pick(&Format::ALL), length, random);
    let mut cmds = list.cmds;
    // Trims for the colour changes past as many as may be.
    let changes = cmds.iter_mut().filter(|cmd| cmd.2 == CHANGE);
    changes.skip(CHANGES).for_each(|cmd| cmd.2 = TRIM);
    (cmds, list.threads)
}

/// A fault in a list, or what is just none.
fn spoil(cmds: &mut Vec<Command>, random: &mut Random) {
    let last = cmds.len() - 1;
    let at = match random.below(3) {
        0 => last,
        _ => random.below(last + 1),
    };
    let (x, y, kind) = cmds[at];
    let step = random.pick(&[1, -1]);
    match random.below(9) {
        0 => cmds[at].0 = random.pick(&PLACES),
        1 => cmds[at].1 = random.pick(&PLACES),
        2 => cmds[at] = (x + step, y, kind),
        3 => cmds[at] = (x, y + step, kind),
        4 => cmds[at].2 = random.below(5) as u8,
        5 => cmds.truncate(at),
        6 => cmds.push(cmds[last]),
        _ => {
            let (x, y, _) = cmds[at.saturating_sub(1)];
            let count = random.pick(&[250, 253, 254, 255, 256]);
            cmds.splice(at..at, vec![(x, y, CHANGE); count]);
        }
    }
}

/// The commands in rows of random lengths, empty ones too.
fn rows<'a>(cmds: &'a [Command], random: &mut Random) -> Vec<&'a [Command]> {
    let most = random.pick(&[1, 2, 5, 40, 1_000, FULL]);
    let (mut rows, mut rest) = (Vec::new(), cmds);
    while !rest.is_empty() {
        let length = random.below(most + 1).min(rest.len());
        let (row, behind) = rest.split_at(length);
        rows.push(row);
        rest = behind;
    }
    rows
}

/// Fields in no order, most of them behind a name and of a length that is allowed.
fn scattered(random: &mut Random) -> Vec<u8> {
    let mut job = match random.below(4) {
        0 => Vec::new(),
        _ => jobs::field(NAME, &name(random)),
    };
    for _ in 0..random.below(6) {
        let tag = random.pick(&[NAME, THREAD, THREAD, ROW, ROW, ROW, ROW, 0, 4, 255]);
        let length = match tag {
            _ if random.below(8) == 0 => random.below(70),
            THREAD => 3,
            _ => 5 * random.below(4),
        };
        let mut byte = || random.pick(&[0, 0, 0, 0, 1, 2, 3, 4, 4, 5]);
        let content: Vec<u8> = (0..length).map(|_| byte()).collect();
        job.extend(jobs::field(tag, &content));
    }
    job
}

/// A cut, a changed byte, or a changed field.
fn damage(job: &mut Vec<u8>, random: &mut Random) {
    if job.is_empty() {
        job.push(random.byte());
        return;
    }
    let at = place(job, random);
    let byte = match random.below(2) {
        0 => random.byte(),
        _ => random.below(6) as u8,
    };
    match random.below(8) {
        0 => job.truncate(at),
        1 | 2 => job[at] ^= 1 << random.below(8),
        3 => job[at] = byte,
        4 => job.insert(at, byte),
        5 => {
            job.remove(at);
        }
        _ => change_field(job, random),
    }
}

/// A byte of a job: a tag, one of a length, a kind, or any.
fn place(job: &[u8], random: &mut Random) -> usize {
    let fields = jobs::fields(job);
    let field = &fields[random.below(fields.len())];
    let at = match random.below(6) {
        part @ 0..3 => field.start + part,
        3 => field.start + 3 + 5 * random.below(field.len() / 5 + 1),
        _ => random.below(job.len()),
    };
    at.min(job.len() - 1)
}

/// A field dropped, repeated, put elsewhere, or made longer or shorter.
fn change_field(job: &mut Vec<u8>, random: &mut Random) {
    let resized;
    let fields = jobs::fields(job).into_iter();
    let mut parts: Vec<&[u8]> = fields.map(|field| &job[field]).collect();
    let (at, other) = (random.below(parts.len()), random.below(parts.len()));
    match random.below(5) {
        0 => {
            parts.remove(at);
        }
        1 => parts.insert(other, parts[at]),
        2 => parts.swap(at, other),
        _ => {
            let mut content = parts[at].get(3..).unwrap_or_default().to_vec();
            let length = (content.len() + random.below(11)).saturating_sub(5);
            content.resize(length.min(65_535), 0);
            resized = jobs::field(parts[at][0], &content);
            parts[at] = &resized;
        }
    }
    *job = parts.concat();
}
