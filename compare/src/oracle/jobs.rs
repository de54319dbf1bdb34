//! Jobs, from request 4's text (Item 4 of document 02): what a job says, where its name stands, and
//! the job of a list. The published Rust has none of this. A job is gone through from front to back,
//! so the first fault that is met is the first by place.

use crate::oracle::{LONGEST, refusals};
use crate::port::Lists;

const NAME: u8 = 1;
const THREAD: u8 = 2;
const COMMANDS: u8 = 3;

/// A name has no more bytes.
const LONGEST_NAME: usize = 64;

/// The last known kind, which is the end's.
const LAST_KIND: u8 = 4;

/// So many commands are exported to a field.
const TO_A_FIELD: usize = 1_000;

const TOO_LONG: u8 = 2;
const BUFFER_TOO_SHORT: u8 = 11;
/// An unknown tag or kind, a tag out of order, or no name.
const BAD_TAG: u8 = 13;
/// A field that passes the end, or a length that its tag does not allow.
const BAD_LENGTH: u8 = 14;

/// Lengths of the four buffers: x, y, kinds and thread bytes.
pub type Room = [usize; 4];

/// What is imported into buffers of these lengths.
pub fn import(job: &[u8], room: Room) -> Result<Lists, u8> {
    let list = read(job)?;
    match fits(&list, room) {
        true => Ok(list),
        false => Err(BUFFER_TOO_SHORT),
    }
}

/// What a job says, whatever the buffers.
pub fn read(job: &[u8]) -> Result<Lists, u8> {
    if job.len() > LONGEST {
        return Err(TOO_LONG);
    }
    let list = fields(job)?;
    match refusals::of_list(&list) {
        0 => Ok(list),
        number => Err(number),
    }
}

/// How much of each buffer a list takes.
pub fn lengths(list: &Lists) -> Room {
    let Lists {
        xs,
        ys,
        kinds,
        threads,
        ..
    } = list;
    [xs.len(), ys.len(), kinds.len(), threads.len()]
}

pub fn fits(list: &Lists, room: Room) -> bool {
    let mut pairs = lengths(list).into_iter().zip(room);
    pairs.all(|(length, room)| length <= room)
}

/// Where the name starts in the job, and its length: it is the first field, behind its tag and its
/// length.
pub fn name(job: &[u8]) -> Result<(u64, u64), u8> {
    let list = read(job)?;
    Ok((3, list.name.len() as u64))
}

/// The fields of a job joined, whatever the list that they make.
pub fn fields(job: &[u8]) -> Result<Lists, u8> {
    let mut list = Lists::default();
    let (mut before, mut rest) = (None, job);
    while let Some((&tag, behind)) = rest.split_first() {
        let in_order = match tag {
            NAME => before.is_none(),
            THREAD => matches!(before, Some(NAME | THREAD)),
            COMMANDS => before.is_some(),
            _ => false,
        };
        if !in_order {
            return Err(BAD_TAG);
        }
        let (&length, behind) = behind.split_first_chunk().ok_or(BAD_LENGTH)?;
        let length = usize::from(u16::from_le_bytes(length));
        let allowed = match tag {
            NAME => length <= LONGEST_NAME,
            THREAD => length == 3,
            _ => length.is_multiple_of(5),
        };
        if !allowed || length > behind.len() {
            return Err(BAD_LENGTH);
        }
        let (content, behind) = behind.split_at(length);
        match tag {
            NAME => list.name.extend(content),
            THREAD => list.threads.extend(content),
            _ => commands(content, &mut list)?,
        }
        (before, rest) = (Some(tag), behind);
    }
    match before {
        Some(_) => Ok(list),
        None => Err(BAD_TAG),
    }
}

fn commands(content: &[u8], list: &mut Lists) -> Result<(), u8> {
    for &[kind, x_low, x_high, y_low, y_high] in content.as_chunks().0 {
        if kind > LAST_KIND {
            return Err(BAD_TAG);
        }
        list.kinds.push(kind);
        list.xs.push(i16::from_le_bytes([x_low, x_high]).into());
        list.ys.push(i16::from_le_bytes([y_low, y_high]).into());
    }
    Ok(())
}

/// The job of a list, whatever the buffer.
pub fn export(list: &Lists) -> Result<Vec<u8>, u8> {
    if list.name.len() > LONGEST_NAME {
        return Err(BAD_LENGTH);
    }
    match refusals::of_list(list) {
        0 => Ok(job(list)),
        number => Err(number),
    }
}

/// The job of an accepted list, whose places fit 16 bits.
fn job(list: &Lists) -> Vec<u8> {
    let mut job = Vec::new();
    put(NAME, &list.name, &mut job);
    for thread in list.threads.chunks(3) {
        put(THREAD, thread, &mut job);
    }
    let places = list.xs.iter().zip(&list.ys);
    let commands: Vec<[u8; 5]> = places
        .zip(&list.kinds)
        .map(|((&x, &y), &kind)| {
            let [x_low, x_high] = (x as i16).to_le_bytes();
            let [y_low, y_high] = (y as i16).to_le_bytes();
            [kind, x_low, x_high, y_low, y_high]
        })
        .collect();
    for row in commands.chunks(TO_A_FIELD) {
        put(COMMANDS, row.as_flattened(), &mut job);
    }
    job
}

/// Adds a field to a job.
fn put(tag: u8, content: &[u8], job: &mut Vec<u8>) {
    job.push(tag);
    job.extend((content.len() as u16).to_le_bytes());
    job.extend(content);
}
