//! Links libpackmap.a from the folder that PACKMAP_LIB names, or else from target/packmap/lib of
//! the repository.

use std::env;
use std::path::{Path, PathBuf};

fn main() {
    println!("cargo::rerun-if-env-changed=PACKMAP_LIB");
    let package = env::var_os("CARGO_MANIFEST_DIR").expect("cargo names the package's folder");
    let own = || Path::new(&package).join("../target/packmap/lib");
    let folder = env::var_os("PACKMAP_LIB").map_or_else(own, PathBuf::from);
    let archive = folder.join("libpackmap.a");
    println!("cargo::rerun-if-changed={}", archive.display());
    if !archive.is_file() {
        println!(
            "cargo::error={} is missing; make it by tools/install target/packmap, or name its \
             folder in PACKMAP_LIB",
            archive.display()
        );
    }
    println!("cargo::rustc-link-search=native={}", folder.display());
    println!("cargo::rustc-link-lib=static=packmap");
}
