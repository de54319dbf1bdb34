//! Whether a design fits a hoop, from request 6's text: "the answer is yes if every place of every run
//! has x from left to right and y from top to bottom, edges included, and no otherwise", "a file without
//! runs is a yes, and every refusal of reading but 11 comes as there". The places are those that the
//! published Rust reads, in VP3 the plain reader.

use crate::oracle::{Answer, Reading};

pub type Place = (i32, i32);

/// The four edges. If left is past right or top past bottom, no place is inside.
#[derive(Clone, Copy, Debug, PartialEq)]
pub struct Hoop {
    pub left: i32,
    pub right: i32,
    pub top: i32,
    pub bottom: i32,
}

impl Hoop {
    /// Every place is inside.
    pub const WIDEST: Hoop = Hoop::of([i32::MIN, i32::MAX, i32::MIN, i32::MAX]);

    /// Left, right, top and bottom.
    pub const fn of([left, right, top, bottom]: [i32; 4]) -> Hoop {
        Hoop {
            left,
            right,
            top,
            bottom,
        }
    }

    pub fn edges(self) -> [i32; 4] {
        [self.left, self.right, self.top, self.bottom]
    }

    /// Just one place is inside.
    pub fn at((x, y): Place) -> Hoop {
        Hoop::of([x, x, y, y])
    }

    pub fn has(self, (x, y): Place) -> bool {
        self.left <= x && x <= self.right && self.top <= y && y <= self.bottom
    }

    /// Whether all of another hoop, which is not crossed, is inside.
    pub fn holds(self, other: Hoop) -> bool {
        self.has((other.left, other.top)) && self.has((other.right, other.bottom))
    }

    /// The hoop with one edge one off, each edge both ways, as far as 32 bits go.
    pub fn one_off(self) -> impl Iterator<Item = Hoop> {
        let edges = self.edges();
        let moved = move |(at, by): (usize, i32)| {
            let mut moved = edges;
            moved[at] = edges[at].checked_add(by)?;
            Some(Hoop::of(moved))
        };
        let both = (0..4).flat_map(|at| [(at, -1), (at, 1)]);
        both.filter_map(moved)
    }
}

/// Yes or no, or the number of the refusal.
pub fn fits(answer: &Answer, hoop: Hoop) -> Result<bool, u8> {
    match answer {
        Ok(reading) => Ok(places(reading).all(|place| hoop.has(place))),
        Err(number) => Err(*number),
    }
}

/// All points of all runs.
pub fn places(reading: &Reading) -> impl Iterator<Item = Place> {
    let runs = reading.blocks.iter().flat_map(|block| &block.runs);
    runs.flatten().copied()
}

/// The least hoop that has all points of a file; None if it has no runs.
pub fn exact(reading: &Reading) -> Option<Hoop> {
    around(places(reading))
}

/// The least hoop that has all these places; None if there are none.
pub fn around(places: impl Iterator<Item = Place>) -> Option<Hoop> {
    places.map(Hoop::at).reduce(|hoop, place| Hoop {
        left: hoop.left.min(place.left),
        right: hoop.right.max(place.right),
        top: hoop.top.min(place.top),
        bottom: hoop.bottom.max(place.bottom),
    })
}
