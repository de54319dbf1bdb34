//! The lists that the commands `writes` and `longs` make: hard lists, each with the
//! file that the published Rust writes of it.

use crate::inputs::boundary_lists;
use crate::inputs::hard_lists::{any, boundary};
use crate::inputs::lists::{self, List};
use crate::oracle::Format;
use crate::random::Random;
use crate::replay::answers::{self, Groups};
use crate::replay::case_bytes::{put_long, put_u32};
use std::io::{BufWriter, Write};
use std::path::Path;
use std::{fs, io};

/// A file of cases being written.
pub struct Cases {
    name: &'static str,
    out: BufWriter<fs::File>,
    groups: Groups,
    pub made: usize,
    length: usize,
}

/// Writes the first cases of a seed to the file `writes` in a folder, the
/// formats by turns.
pub fn write(count: usize, seed: u64, folder: &Path) -> io::Result<()> {
    let mut cases = Cases::new(folder, "writes")?;
    let mut random = Random::new(seed);
    let mut boundary = Format::ALL.map(|format| boundary(format, seed).into_iter());
    let mut left_out = Groups::default();
    while cases.made < count {
        let turn = cases.made % Format::ALL.len();
        let format = Format::ALL[turn];
        let list = boundary[turn].next();
        let list = list.unwrap_or_else(|| any(format, &mut random));
        if !lists::accepted(format, &list.cmds, &list.threads) {
            left_out.add("outside the domain");
            continue;
        }
        match answers::write(format, &list.name, &list.cmds, &list.threads) {
            Some(case) => cases.add(format.ext(), &case, put_long)?,
            None => left_out.add(&format!("too long {}", format.ext())),
        }
    }
    cases.end()?;
    let waiting: usize = boundary.iter().map(|lists| lists.len()).sum();
    println!("left out: {left_out}");
    println!("boundary lists that the count did not reach: {waiting}");
    Ok(())
}

/// Writes the long lists of a seed to the file `longs` in a folder, and with
/// them the boundary lists that `write` leaves out. The lengths of a case and
/// of its file stand in four bytes.
pub fn write_long(seed: u64, folder: &Path) -> io::Result<()> {
    let mut cases = Cases::new(folder, "longs")?;
    for format in Format::ALL {
        let lists = boundary(format, seed);
        for list in lists.iter().chain(&boundary_lists::long(format, seed)) {
            let List {
                name,
                cmds,
                threads,
            } = list;
            let accepted = lists::accepted(format, cmds, threads);
            if accepted && answers::write(format, name, cmds, threads).is_none() {
                let case = answers::write_long(format, name, cmds, threads);
                cases.add(format.ext(), &case, put_longer)?;
            }
        }
    }
    cases.end()
}

impl Cases {
    pub fn new(folder: &Path, name: &'static str) -> io::Result<Cases> {
        fs::create_dir_all(folder)?;
        Ok(Cases {
            name,
            out: BufWriter::new(fs::File::create(folder.join(name))?),
            groups: Groups::default(),
            made: 0,
            length: 0,
        })
    }

    pub fn add(
        &mut self,
        group: &str,
        case: &[u8],
        put: fn(&mut Vec<u8>, &[u8]),
    ) -> io::Result<()> {
        let mut bytes = Vec::new();
        put(&mut bytes, case);
        self.groups.add(group);
        self.made += 1;
        self.length += bytes.len();
        self.out.write_all(&bytes)
    }

    pub fn end(&mut self) -> io::Result<()> {
        println!("{}: {}, {} bytes", self.name, self.groups, self.length);
        self.out.flush()
    }
}

/// Bytes behind a length of four bytes.
fn put_longer(out: &mut Vec<u8>, bytes: &[u8]) {
    put_u32(out, bytes.len());
    out.extend_from_slice(bytes);
}
