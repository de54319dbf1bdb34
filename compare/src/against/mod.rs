//! The port's calls against the published Rust and document 01's refusals, and those of jobs against
//! the plain ones.

pub mod hoops;
pub mod jobs;
pub mod lent_cells;
pub mod parts;
pub mod reads;
pub mod tally;
pub mod write_bound;
pub mod writes;

pub use parts::compare;
