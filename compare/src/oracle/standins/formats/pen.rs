//! Stand-in: the PEN format is not compared.

use crate::design::Design;

pub struct Encoded {
    pub bytes: Vec<u8>,
}

pub fn encode(_: &Design) -> Encoded {
    Encoded { bytes: Vec::new() }
}
