//! The EXP, JEF and VP3 writers on a list of ours: `more.rs` compiled a second time,
//! below a `commands` that gives back the list laid ready in the design.

use crate::design::Design;
pub use crate::formats::{
    Cmd, ExportOptions, Op, StreamOptions, color_distance, jef_data, stream_bounds,
};

pub fn commands(design: &Design, _: &StreamOptions) -> Vec<Cmd> {
    design.ready.take()
}

include!(concat!(env!("OUT_DIR"), "/more.rs"));
