//! Stand-in for the planned design: the fields that the format modules touch,
//! and a list of commands laid ready for the harness.

use crate::formats::Cmd;
use crate::geom::Polyline;
use std::cell::RefCell;

#[derive(Clone, Debug, Default)]
pub struct Run {
    pub pts: Polyline,
    pub trim_before: bool,
}

#[derive(Clone, Debug, Default)]
pub struct Block {
    pub color: [u8; 3],
    pub runs: Vec<Run>,
}

#[derive(Clone, Debug, Default)]
pub struct Design {
    pub name: String,
    pub blocks: Vec<Block>,
    pub stitch_shapes: Vec<Vec<Vec<(usize, usize)>>>,
    /// Ours: what `more_writers::commands` takes away and gives back.
    pub ready: RefCell<Vec<Cmd>>,
}
