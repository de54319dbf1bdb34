//! Lays the published modules, byte for byte, into the build folder, with our
//! stand-ins beside them, and tells the crate where they are. Links the port's
//! archive if there is one.

use std::path::{Path, PathBuf};
use std::process::exit;
use std::{env, fs};

/// Modules compiled as published, below `src/` of the published folder.
const PUBLISHED: [&str; 8] = [
    "geom.rs",
    "formats/mod.rs",
    "formats/read.rs",
    "formats/dst.rs",
    "formats/pes.rs",
    "formats/more.rs",
    "formats/pec_data.rs",
    "formats/jef_data.rs",
];

/// Modules that `formats/mod.rs` names and that are ours here.
const STANDINS: [&str; 3] = ["pen.rs", "preview.rs", "worksheet.rs"];

/// The port's calls for C.
const ARCHIVE: &str = "libstitch_box_c.a";

fn main() {
    let home = PathBuf::from(env::var_os("CARGO_MANIFEST_DIR").unwrap());
    let out = PathBuf::from(env::var_os("OUT_DIR").unwrap());
    let published = match env::var_os("ZIGZAG_SRC") {
        Some(folder) => PathBuf::from(folder),
        None => home.join("../../shared/docs/src"),
    };
    println!("cargo::rerun-if-env-changed=ZIGZAG_SRC");
    let modules = out.join("zigzag");
    fs::create_dir_all(modules.join("formats")).unwrap();
    for name in PUBLISHED {
        lay(&published.join("src").join(name), &modules.join(name));
    }
    for name in STANDINS {
        lay(
            &home.join("src/oracle/standins/formats").join(name),
            &modules.join("formats").join(name),
        );
    }
    let declare = |name: &str, file: &str| {
        let path = modules.join(file);
        format!("#[path = {:?}]\npub mod {name};\n", path.to_str().unwrap())
    };
    let root = declare("geom", "geom.rs") + &declare("formats", "formats/mod.rs");
    fs::write(out.join("modules.rs"), root).unwrap();
    fs::write(out.join("more.rs"), declare("more", "formats/more.rs")).unwrap();
    link(&home);
}

/// Links the archive in the folder that STITCH_BOX_LIB names, or else where the
/// port's own build puts it, and sets the cfg `stitch_box`.
fn link(home: &Path) {
    println!("cargo::rustc-check-cfg=cfg(stitch_box)");
    println!("cargo::rerun-if-env-changed=STITCH_BOX_LIB");
    let named = env::var_os("STITCH_BOX_LIB").map(PathBuf::from);
    let folders = named.into_iter().chain([home.join("../crates/stitch_box_c/out")]);
    for folder in folders {
        let archive = folder.join(ARCHIVE);
        if archive.is_file() {
            println!("cargo::rerun-if-changed={}", archive.display());
            println!("cargo::rustc-link-search=native={}", folder.display());
            println!("cargo::rustc-link-lib=static=stitch_box_c");
            println!("cargo::rustc-cfg=stitch_box");
            return;
        }
    }
}

fn lay(from: &Path, to: &Path) {
    println!("cargo::rerun-if-changed={}", from.display());
    if let Err(error) = fs::read(from).and_then(|bytes| fs::write(to, bytes)) {
        println!(
            "cargo::error=cannot lay {} into the build folder: {error}. Set ZIGZAG_SRC to the \
             folder of the published Rust, the one that holds src/formats/mod.rs.",
            from.display()
        );
        exit(1);
    }
}
