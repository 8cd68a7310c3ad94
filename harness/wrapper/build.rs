//! Links the proved store's archive, from the folder that LURDEMPOS_ARCHIVE names or from the repository's own.

use std::env;
use std::path::{Path, PathBuf};

fn main() {
    println!("cargo::rerun-if-env-changed=LURDEMPOS_ARCHIVE");
    let here = env::var_os("CARGO_MANIFEST_DIR").expect("cargo sets it");
    let folder = match env::var_os("LURDEMPOS_ARCHIVE") {
        Some(folder) => PathBuf::from(folder),
        None => Path::new(&here).join("../../crates/lurdempos/out"),
    };
    let archive = folder.join("liblurdempos.a");
    println!("cargo::rerun-if-changed={}", archive.display());
    if !archive.is_file() {
        println!(
            "cargo::error={} is missing: run `rt lib` in crates/lurdempos first",
            archive.display()
        );
        return;
    }
    println!("cargo::rustc-link-search=native={}", folder.display());
    println!("cargo::rustc-link-lib=static=lurdempos");
}
