//! How far off the threads are, from request 5's text: "the largest distance between a thread and the
//! chart's own colour of any entry written for it in the PEC part or the JEF table; a thread without
//! an entry doesn't count, and the answer is 0 if none counts". The entries are found in the file
//! that the published Rust wrote; `color_distance` and the charts are the published ones.

use crate::formats::color_distance;
use crate::formats::jef_data::JEF_PALETTE;
use crate::formats::pec_data::PEC_PALETTE;
use crate::oracle::Format;

type Colour = [u8; 3];

/// The largest distance of the threads of a list from the colours in its file; 0 if none counts, as
/// in a format that has no chart.
pub fn largest(format: Format, file: &[u8], threads: &[Colour]) -> u32 {
    let colours = match format {
        Format::Pec => of_pec_part(&file[8..]),
        Format::Pes => of_pec_part(&file[number(file, 8)..]),
        Format::Jef => of_jef_table(file),
        Format::Dst | Format::Exp | Format::Vp3 => Vec::new(),
    };
    let pairs = threads.iter().zip(colours);
    let distances = pairs.filter_map(|(&thread, colour)| Some(color_distance(thread, colour?)));
    u32::try_from(distances.max().unwrap_or(0)).expect("a distance of 32 bits")
}

/// The chart's own colours of the entries: at 48 their count less one, FF for none, then a byte each.
fn of_pec_part(part: &[u8]) -> Vec<Option<Colour>> {
    let count = part[48].wrapping_add(1);
    let entries = part[49..].iter().take(count.into());
    let colour = |&entry: &u8| {
        let (r, g, b, _) = PEC_PALETTE[usize::from(entry)];
        (entry > 0).then_some([r, g, b])
    };
    entries.map(colour).collect()
}

/// The same of a JEF: their count at 24, and from 116 on a number each. Without threads there is one
/// entry that is written for none.
fn of_jef_table(file: &[u8]) -> Vec<Option<Colour>> {
    let colour = |at: usize| {
        let entry = number(file, 116 + 4 * at);
        let (r, g, b, _, _) = JEF_PALETTE[entry];
        (entry > 0).then_some([r, g, b])
    };
    (0..number(file, 24)).map(colour).collect()
}

/// The signed number of 32 bits at a place, low byte first.
fn number(file: &[u8], at: usize) -> usize {
    let bytes = file[at..at + 4].try_into().expect("four bytes");
    usize::try_from(i32::from_le_bytes(bytes)).expect("a number that is not below zero")
}
