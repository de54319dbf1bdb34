//! The port's answer to whether a file fits a hoop, against the places that the published Rust reads, in
//! VP3 the plain reader, and against those that the port itself reads with ample buffers.

use crate::against::lent_cells::Lent;
use crate::against::tally::{Calls, Function};
use crate::inputs::files::File;
use crate::oracle::hoop::{self, Hoop, Place};
use crate::oracle::{Answer, Reading, needles};
use crate::port;
use crate::random::Random;

/// The answer is set to one of these before a call.
const MARKS: [u32; 2] = [0xA5A5_A5A5, 0x5A5A_5A5A];

/// The least hoop that has all places of a file, None if there are none, or the number of the refusal.
pub type Least = Result<Option<Hoop>, u32>;

/// A cell for the calls.
#[derive(Default)]
pub struct Hoops {
    answer: Lent<u32>,
}

impl Hoops {
    /// Asks about many hoops; the answers are those of the oracle, and those that follow from what the
    /// port itself reads.
    pub fn compare(
        &mut self,
        file: &File,
        answer: &Answer,
        own: Least,
        random: &mut Random,
        calls: &mut Calls,
    ) {
        for (at, hoop) in hoops(answer, random).into_iter().enumerate() {
            let wanted = hoop::fits(answer, hoop);
            let found = self.fits(file, hoop, wanted, own, MARKS[at % 2]);
            let found = found.map(|what| format!("hoop {:?}: {what}", hoop.edges()));
            calls.take(Function::Fits, Some(wanted.err().unwrap_or(0)), found);
        }
    }

    /// What differs in one call.
    fn fits(
        &mut self,
        file: &File,
        hoop: Hoop,
        wanted: Result<bool, u8>,
        own: Least,
        mark: u32,
    ) -> Option<String> {
        let number = port::fits(&file.ext, &file.bytes, hoop, self.answer.lend_one(mark));
        let told = (number, self.answer.one());
        let by_read: (u32, u32) = match own {
            Ok(least) => (0, least.is_none_or(|least| hoop.holds(least)).into()),
            Err(number) => (number, 0),
        };
        let wanted_number = wanted.err().unwrap_or(0);
        if number != u32::from(wanted_number) {
            return Some(format!("number {number}, wanted {wanted_number}"));
        }
        let yes = wanted.unwrap_or(false);
        let found = self.answer.difference("answer", &[yes.into()]);
        found.or_else(|| {
            (told != by_read).then(|| format!("{told:?}, by the port's read {by_read:?}"))
        })
    }
}

/// The hoops that a file is held against.
fn hoops(answer: &Answer, random: &mut Random) -> Vec<Hoop> {
    let reading = answer.as_ref().ok();
    let places: Vec<Place> = reading.into_iter().flat_map(hoop::places).collect();
    match (reading, hoop::around(places.iter().copied())) {
        (Some(reading), Some(exact)) => about(exact, reading, &places, random),
        _ => about_nothing(random),
    }
}

/// For a file with runs: the exact one, which just holds it, and each edge one off; crossed ones; the
/// widest; one of the first point and one of any; that of the needle places; random ones.
fn about(exact: Hoop, reading: &Reading, places: &[Place], random: &mut Random) -> Vec<Hoop> {
    let mut hoops = vec![exact, Hoop::WIDEST];
    hoops.extend(exact.one_off());
    hoops.extend(crossed(exact));
    hoops.extend([places[0], random.pick(places)].map(Hoop::at));
    let needles = needles::of_file(&reading.blocks).into_iter();
    hoops.extend(hoop::around(needles.map(|(_, x, y)| (x, y))));
    hoops.push(near(exact, 2, random));
    hoops.push(mixed(exact, random.pick(places), random));
    hoops
}

/// For a file that is refused or has no runs: the widest, one of a point, crossed ones, a random one.
fn about_nothing(random: &mut Random) -> Vec<Hoop> {
    let point = Hoop::at((0, 0));
    let mut hoops = vec![Hoop::WIDEST, point, near(point, 200, random)];
    hoops.extend(crossed(point));
    hoops
}

/// Left past right, and top past bottom, by one and as far as can be.
fn crossed(hoop: Hoop) -> [Hoop; 4] {
    let [left, right, top, bottom] = hoop.edges();
    let past = |edge: i32| edge.saturating_add(1);
    let (least, greatest) = (i32::MIN, i32::MAX);
    [
        Hoop::of([past(left), left, top, bottom]),
        Hoop::of([greatest, least, top, bottom]),
        Hoop::of([left, right, past(top), top]),
        Hoop::of([left, right, greatest, least]),
    ]
}

/// Each edge up to so far off.
fn near(hoop: Hoop, far: i32, random: &mut Random) -> Hoop {
    let moved = |edge: i32| edge.saturating_add(random.between(-far, far));
    Hoop::of(hoop.edges().map(moved))
}

/// Each edge as it is, one off, at a place of the file or as far out as can be.
fn mixed(hoop: Hoop, (x, y): Place, random: &mut Random) -> Hoop {
    let [left, right, top, bottom] = hoop.edges();
    let mut edge = |edge: i32, place: i32, out: i32| {
        let (less, more) = (edge.saturating_sub(1), edge.saturating_add(1));
        random.pick(&[edge, less, more, place, out])
    };
    Hoop {
        left: edge(left, x, i32::MIN),
        right: edge(right, x, i32::MAX),
        top: edge(top, y, i32::MIN),
        bottom: edge(bottom, y, i32::MAX),
    }
}
