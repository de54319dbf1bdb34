//! DST files about single steps: for each axis one of 1,024 stitches, which have every setting
//! of its ten bits.

use crate::inputs::files::{File, dst_file};

/// Where the bits of each axis begin in the first two bytes, and in the third.
const AXES: [(u8, u8); 2] = [(0, 2), (4, 4)];

pub fn boundary() -> Vec<File> {
    let axis = |&(at, third): &(u8, u8)| {
        let stitch = |setting: u16| {
            let [low, high] = setting.to_le_bytes();
            [(low % 16) << at, (low / 16) << at, 0x03 | high << third]
        };
        dst_file("", &(0..1024).flat_map(stitch).collect::<Vec<u8>>())
    };
    AXES.iter().map(axis).collect()
}
