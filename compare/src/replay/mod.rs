//! Lists of the published Rust's answers, which the port's own programs replay, what
//! its program `runs` should print, and the rows that the definitions are computed on.

pub mod answers;
pub mod case_bytes;
pub mod edges;
pub mod reads;
pub mod runs_layout;
pub mod vp3;
pub mod writes;
