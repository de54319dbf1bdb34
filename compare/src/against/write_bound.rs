//! The port's bound of a file's length against the formulas that the C header
//! states, and against the files.

use crate::against::tally::{Calls, Function};
use crate::inputs::faulty_lists::Asked;
use crate::oracle::{Format, refusals};
use crate::port;

/// Counts of commands and of threads about which a formula changes, and huge ones.
const COMMANDS: [usize; 11] = [
    0,
    1,
    253,
    254,
    255,
    65_534,
    65_535,
    65_536,
    1 << 32,
    usize::MAX - 1,
    usize::MAX,
];
const THREADS: [usize; 7] = [0, 1, 254, 255, 256, 1 << 32, usize::MAX];

/// Asks for the bound of a list's file, which is empty if the list is refused, and
/// for those of other counts.
pub fn compare(asked: &Asked, file: &[u8], calls: &mut Calls) {
    let (n, t) = (asked.list.kinds.len(), asked.list.threads.len() / 3);
    let counts = [
        (n, t),
        (COMMANDS[n % COMMANDS.len()], t),
        (n, THREADS[n % THREADS.len()]),
        (usize::MAX, usize::MAX),
    ];
    for (commands, threads) in counts {
        let told = port::write_bound(&asked.ext, commands, threads);
        let wanted = formula(&asked.ext, commands, threads);
        let short = (commands, threads) == (n, t) && told < file.len();
        let found = match (told == wanted, short) {
            (false, _) => Some(format!("{told}, wanted {wanted}")),
            (_, true) => Some(format!("{told}, and the file has {} bytes", file.len())),
            _ => None,
        };
        let found = found.map(|what| format!("{commands} commands, {threads} threads: {what}"));
        calls.take(Function::WriteBound, None, found);
    }
}

/// The bound as the header states it.
fn formula(ext: &[u8], commands: usize, threads: usize) -> usize {
    let (n, t) = (commands.min(65_535), threads.min(255));
    let changes = n.min(254);
    match refusals::format(ext) {
        Some(Format::Pes) => 1_094 + 26 * n + 228 * changes,
        Some(Format::Pec) => 992 + 6 * n + 228 * changes,
        Some(Format::Dst) => 512 + 9 * n,
        Some(Format::Exp) => 4 * n,
        Some(Format::Jef) => 124 + 4 * n + 8 * t,
        Some(Format::Vp3) => 283 + 8 * n + 57 * changes,
        None => 0,
    }
}
