//! Stand-ins for what the published modules lean on; the crate gives them the names
//! that those look for. The ones in `formats` are laid beside them by `build.rs`.

pub mod anyhow;
pub mod design;
pub mod params;
