//! Lists for VP3: steps of any length within the range of places, centres that are
//! halves, trims in all places, blocks that are empty, all counts of threads.

use crate::inputs::lists::{self, CHANGE, EDGE, JUMP, List, Move, STITCH, TRIM};
use crate::random::Random;

/// A kind and the place that it leads to.
type Goal = (u8, i32, i32);

/// Scripts for the list of writes and for the boundary lists.
pub fn scripts() -> Vec<Vec<Move>> {
    let mut found = across();
    found.extend(halves());
    found.extend(empty_blocks());
    found.extend(trims());
    found
}

/// More lists: every count of threads, and random ones of few places or of only long
/// steps.
pub fn lists(random: &mut Random) -> Vec<List> {
    let blocks = [(STITCH, 4, 4), (CHANGE, 0, 0), (JUMP, 1, 0), (CHANGE, 0, 0)];
    let mut found = Vec::new();
    for count in 0..=255 {
        let mut made = lists::list("threads", &blocks.repeat(count % 3), random);
        made.threads = lists::threads(count, random);
        found.push(made);
    }
    for at in 0..600 {
        let script = match at % 2 {
            0 => near(1 + at % 30, random),
            _ => far(1 + at % 30, random),
        };
        found.push(lists::list("places", &script, random));
    }
    found
}

/// The moves that lead through places.
fn through(goals: &[Goal]) -> Vec<Move> {
    let mut here = (0, 0);
    let mut script = Vec::new();
    for &(kind, x, y) in goals {
        let there = if kind < TRIM { (x, y) } else { here };
        script.push((kind, there.0 - here.0, there.1 - here.1));
        here = there;
    }
    script
}

/// From one edge to the other and back, by stitches and jumps, with a trim, a colour
/// change or a short step between them.
fn across() -> Vec<Vec<Move>> {
    const CORNERS: [[(i32, i32); 2]; 6] = [
        [(EDGE, EDGE), (-EDGE, -EDGE)],
        [(-EDGE, EDGE), (EDGE, -EDGE)],
        [(EDGE, 0), (-EDGE, 0)],
        [(0, -EDGE), (0, EDGE)],
        [(EDGE, 1), (-EDGE + 1, -1)],
        [(-1, -EDGE), (1, EDGE - 1)],
    ];
    let mut scripts = Vec::new();
    for [(ax, ay), (bx, by)] in CORNERS {
        for between in [None, Some(TRIM), Some(CHANGE)] {
            for kinds in [[STITCH, STITCH], [JUMP, STITCH], [STITCH, JUMP]] {
                let mut goals = vec![(kinds[0], ax, ay)];
                goals.extend(between.map(|kind| (kind, 0, 0)));
                goals.push((kinds[1], bx, by));
                goals.extend(between.map(|kind| (kind, 0, 0)));
                goals.push((STITCH, ax, ay));
                goals.push((STITCH, ax - ax.signum(), ay - ay.signum()));
                scripts.push(through(&goals));
            }
        }
    }
    scripts
}

/// Designs of one to three places with odd widths or heights, about (0, 0) and to all
/// sides of it, with a colour change at each place.
fn halves() -> Vec<Vec<Move>> {
    let mut scripts = Vec::new();
    for (x, y) in [(1, 0), (0, 1), (1, 1), (3, -1), (-1, 5), (-127, -3), (2, 7)] {
        for (a, b) in [(0, 0), (-1, -1), (-2, 1), (15_001, -15_002)] {
            let goals = [
                (JUMP, a, b),
                (CHANGE, 0, 0),
                (STITCH, a + x, b + y),
                (CHANGE, 0, 0),
                (STITCH, a, b + y),
                (CHANGE, 0, 0),
            ];
            scripts.push(through(&goals));
        }
    }
    scripts
}

/// Blocks without commands first, between and last, and blocks of one kind.
fn empty_blocks() -> Vec<Vec<Move>> {
    let change = (CHANGE, 0, 0);
    let ones = [
        (STITCH, 5, -6),
        (STITCH, 0, 0),
        (JUMP, 300, 400),
        (TRIM, 0, 0),
    ];
    let mut scripts = Vec::new();
    for one in ones {
        for other in ones {
            scripts.push(vec![change, one, change, change, other]);
            scripts.push(vec![one, change, other, change]);
            scripts.push(vec![one, other, change, other, one]);
        }
    }
    scripts
}

/// A short script with trims at every place of it that there can be, alone and
/// together.
fn trims() -> Vec<Vec<Move>> {
    const MOVES: [Move; 6] = [
        (STITCH, 3, 1),
        (STITCH, 0, 0),
        (JUMP, -200, 9),
        (STITCH, 1, -130),
        (CHANGE, 0, 0),
        (STITCH, 7, 7),
    ];
    let mut scripts = Vec::new();
    for places in 1_usize..1 << (MOVES.len() + 1) {
        let mut script = Vec::new();
        for (at, &one) in MOVES.iter().enumerate() {
            if places >> at & 1 == 1 {
                script.push((TRIM, 0, 0));
            }
            script.push(one);
        }
        if places >> MOVES.len() & 1 == 1 {
            script.push((TRIM, 0, 0));
        }
        scripts.push(script);
    }
    scripts
}

/// Places up to three from (0, 0), and many blocks.
fn near(length: usize, random: &mut Random) -> Vec<Move> {
    const KINDS: [u8; 8] = [STITCH, STITCH, STITCH, JUMP, JUMP, TRIM, CHANGE, CHANGE];
    let mut goal = || {
        let kind = random.pick(&KINDS);
        (kind, random.between(-3, 3), random.between(-3, 3))
    };
    let goals: Vec<Goal> = (0..length).map(|_| goal()).collect();
    through(&goals)
}

/// Any places, and places whose steps are about 127 and -128 on one axis.
fn far(length: usize, random: &mut Random) -> Vec<Move> {
    const KINDS: [u8; 8] = [STITCH, STITCH, STITCH, STITCH, STITCH, JUMP, TRIM, CHANGE];
    const TURNS: [i32; 6] = [126, 127, 128, -127, -128, -129];
    let (mut x, mut y) = (0, 0);
    let mut goals = Vec::new();
    for _ in 0..length {
        match random.below(4) {
            0 => x += random.pick(&TURNS),
            1 => y += random.pick(&TURNS),
            2 => (x, y) = (random.between(-EDGE, EDGE), random.between(-EDGE, EDGE)),
            _ => {
                (x, y) = (
                    random.pick(&[-EDGE, 0, EDGE]),
                    random.pick(&[-EDGE, 0, EDGE]),
                )
            }
        }
        (x, y) = (x.clamp(-EDGE, EDGE), y.clamp(-EDGE, EDGE));
        goals.push((random.pick(&KINDS), x, y));
    }
    through(&goals)
}
