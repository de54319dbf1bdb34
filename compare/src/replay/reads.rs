//! The list that the command `reads` makes: hard files, each with what the oracle reads
//! in it.

use crate::inputs::hard_files::HardFiles;
use crate::oracle;
use crate::replay::answers::{self, Groups};
use crate::replay::case_bytes::put_long;
use std::io::{BufWriter, Write};
use std::path::Path;
use std::{fs, io};

/// Writes the first cases of a seed to the file `reads` in a folder.
pub fn write(count: usize, seed: u64, folder: &Path) -> io::Result<()> {
    fs::create_dir_all(folder)?;
    let mut out = BufWriter::new(fs::File::create(folder.join("reads"))?);
    let (mut groups, mut length) = (Groups::default(), 0);
    let mut files = HardFiles::new(seed);
    for _ in 0..count {
        let (file, case) = files.fitting(|file| answers::read(&file.ext, &file.bytes));
        let mut bytes = Vec::new();
        put_long(&mut bytes, &case);
        out.write_all(&bytes)?;
        groups.add(oracle::group(&file.ext));
        length += bytes.len();
    }
    println!("reads: {groups}, {length} bytes");
    out.flush()
}
