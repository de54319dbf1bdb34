//! The published Rust of zigzag's formats and the port beside it: the Rust as an
//! oracle, inputs, the comparison, benchmarks, and lists of answers to replay.

// The published modules find `anyhow` under this name.
extern crate self as anyhow;

include!(concat!(env!("OUT_DIR"), "/modules.rs"));

pub mod against;
pub mod bench;
pub mod inputs;
pub mod oracle;
pub mod port;
pub mod random;
pub mod replay;

// The published modules look for these at the top.
pub use oracle::standins::anyhow::{Error, Result};
pub use oracle::standins::{design, params};
