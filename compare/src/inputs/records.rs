//! Stitch bytes made of whole records of a format, so that a reading goes far.

use crate::oracle::Format;
use crate::random::Random;

#[derive(Clone, Copy, PartialEq)]
pub enum Kind {
    Stitch,
    Jump,
    Change,
    /// The end, or a record that ends the reading as well.
    End,
}

/// One record; a jump may be any record that ends the run and no more.
pub fn record(format: Format, kind: Kind, random: &mut Random) -> Vec<u8> {
    match format {
        Format::Pes | Format::Pec => pec(kind, random),
        Format::Dst => dst(kind, random),
        Format::Exp => pair(kind, &[0x04, 0x04, 0x80], random),
        Format::Jef => pair(kind, &[0x02, 0x02, 0x04, 0x80], random),
        Format::Vp3 => vp3(kind, random),
    }
}

/// Records of all kinds up to a length; an end comes seldom.
pub fn mixed(format: Format, length: usize, random: &mut Random) -> Vec<u8> {
    const KINDS: [Kind; 10] = [
        Kind::Stitch,
        Kind::Stitch,
        Kind::Stitch,
        Kind::Stitch,
        Kind::Stitch,
        Kind::Stitch,
        Kind::Jump,
        Kind::Jump,
        Kind::Change,
        Kind::Change,
    ];
    let mut bytes = Vec::new();
    while bytes.len() < length {
        let kind = match random.below(150) {
            0 => Kind::End,
            _ => random.pick(&KINDS),
        };
        bytes.extend(record(format, kind, random));
    }
    bytes
}

/// Records without an end up to a length: in turn up to three colour changes, a
/// stitch, and up to so many jumps and stitches each.
pub fn going(format: Format, length: usize, most: usize, random: &mut Random) -> Vec<u8> {
    let mut bytes = Vec::new();
    while bytes.len() < length {
        let changes = random.below(4);
        let mut kinds = vec![Kind::Change; changes];
        kinds.push(Kind::Stitch);
        kinds.resize(kinds.len() + random.below(most + 1), Kind::Jump);
        kinds.resize(kinds.len() + random.below(most + 1), Kind::Stitch);
        for kind in kinds {
            bytes.extend(record(format, kind, random));
        }
    }
    bytes
}

/// A record of EXP or JEF; some stitches of EXP are controls.
fn pair(kind: Kind, jumps: &[u8], random: &mut Random) -> Vec<u8> {
    let step = |random: &mut Random| match random.below(3) {
        0 => random.pick(&[0x00, 0x00, 0x01, 0x7F, 0x80, 0x81, 0xFF]),
        _ => random.byte(),
    };
    let (x, y) = (step(random), step(random));
    let control = match kind {
        Kind::Stitch if x != 0x80 => return vec![x, y],
        Kind::Stitch if jumps.contains(&0x02) => return vec![0x7F, y],
        Kind::Stitch => 0x02,
        Kind::Jump => random.pick(jumps),
        Kind::Change if random.below(3) != 0 => return vec![0x80, 0x01, 0, 0],
        Kind::Change => 0x01,
        Kind::End => random.pick(&[0x10, 0x10, 0x00, 0x03, 0x05, 0x07, 0x81, 0xFF]),
    };
    vec![0x80, control, x, y]
}

/// The bits of a third byte that are free in a record of its kind.
fn dst(kind: Kind, random: &mut Random) -> Vec<u8> {
    let sides = random.pick(&[0x00, 0x04, 0x08, 0x0C]);
    let third = match kind {
        Kind::Stitch => {
            let any = random.byte();
            let clear = random.pick(&[0x80, 0x02, 0x01]);
            if any & 0x83 == 0x83 { any ^ clear } else { any }
        }
        Kind::Jump => 0x83 | sides | random.pick(&[0x00, 0x10, 0x20, 0x30]),
        Kind::Change => 0xC3 | sides | random.pick(&[0x00, 0x10, 0x20]),
        Kind::End => 0xF3 | sides,
    };
    vec![random.byte(), random.byte(), third]
}

fn pec(kind: Kind, random: &mut Random) -> Vec<u8> {
    match kind {
        Kind::Change => vec![0xFE, 0xB0, random.byte()],
        Kind::End => vec![0xFF, 0x00],
        Kind::Stitch => [pec_step(random), pec_step(random)].concat(),
        Kind::Jump => match random.below(3) {
            0 => [pec_step(random), pec_marked(random)].concat(),
            1 => [pec_marked(random), pec_step(random)].concat(),
            _ => [pec_marked(random), pec_marked(random)].concat(),
        },
    }
}

/// A step of one byte or two that marks no jump.
fn pec_step(random: &mut Random) -> Vec<u8> {
    match random.below(4) {
        0 => vec![random.pick(&[0x00, 0x01, 0x3E, 0x3F, 0x40, 0x41, 0x7F])],
        1 => vec![random.byte() % 128],
        2 => vec![random.pick(&[0x80, 0x87, 0x88, 0x8F]), random.byte()],
        _ => vec![0x80 | random.byte() & 0x4F, random.byte()],
    }
}

/// A step of two bytes that marks a jump, and is no colour change and no end.
fn pec_marked(random: &mut Random) -> Vec<u8> {
    let mark = random.pick(&[0x10, 0x20, 0x30]);
    let step = [0x80 | mark | random.byte() & 0x4F, random.byte()];
    match step {
        [0xFE, 0xB0] | [0xFF, 0x00] => vec![step[0], 0x01],
        _ => step.to_vec(),
    }
}

/// No record of VP3 opens a block or ends the reading: a pair that does nothing and the
/// end of a run stand for them. Some stitches are long ones.
fn vp3(kind: Kind, random: &mut Random) -> Vec<u8> {
    let (x, y) = (random.byte(), random.byte());
    match kind {
        Kind::Stitch if random.below(4) == 0 => vp3_long(random),
        Kind::Stitch if x == 0x80 => vec![random.pick(&[0x00, 0x7F, 0x81]), y],
        Kind::Stitch => vec![x, y],
        Kind::Jump | Kind::End => vec![0x80, 0x03],
        Kind::Change => vec![
            0x80,
            random.pick(&[0x00, 0x02, 0x02, 0x04, 0x07, 0x10, 0x80, 0xFF]),
        ],
    }
}

/// A long stitch, with the pair that the writer puts behind it or without.
fn vp3_long(random: &mut Random) -> Vec<u8> {
    let mut step = || match random.below(3) {
        0 => random.pick(&[0, 127, 128, -127, -128, -129, i16::MAX, i16::MIN]),
        1 => random.between(-300, 300) as i16,
        _ => random.draw() as i16,
    };
    let ([a, b], [c, d]) = (step().to_be_bytes(), step().to_be_bytes());
    let mut bytes = vec![0x80, 0x01, a, b, c, d];
    if random.below(2) == 0 {
        bytes.extend([0x80, 0x02]);
    }
    bytes
}
