//! With the feature `beside` an earlier archive is linked too: libpackmap_earlier.a from the folder
//! that PACKMAP_BESIDE names, made by bench/run.

use std::env;

fn main() {
    println!("cargo::rerun-if-env-changed=PACKMAP_BESIDE");
    if env::var_os("CARGO_FEATURE_BESIDE").is_none() {
        return;
    }
    let Some(folder) = env::var_os("PACKMAP_BESIDE") else {
        println!("cargo::error=PACKMAP_BESIDE is not set; use bench/run --beside FOLDER");
        return;
    };
    let folder = folder.to_string_lossy();
    println!("cargo::rerun-if-changed={folder}/libpackmap_earlier.a");
    println!("cargo::rustc-link-search=native={folder}");
    println!("cargo::rustc-link-lib=static=packmap_earlier");
}
