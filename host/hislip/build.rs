//! Links the proved archive `libhislip.a`: from the directory in HISLIP_LIB_DIR, or from
//! `target` of the repository.

use std::env;
use std::path::{Path, PathBuf};

fn main() {
    println!("cargo:rerun-if-env-changed=HISLIP_LIB_DIR");
    let own = env::var("CARGO_MANIFEST_DIR").expect("cargo sets it");
    let directory = match env::var_os("HISLIP_LIB_DIR") {
        Some(directory) => PathBuf::from(directory),
        None => Path::new(&own).join("../../target"),
    };
    let archive = directory.join("libhislip.a");
    println!("cargo:rerun-if-changed={}", archive.display());
    if !archive.is_file() {
        eprintln!("{} is missing: run `make library` first", archive.display());
        std::process::exit(1);
    }
    println!("cargo:rustc-link-search=native={}", directory.display());
    println!("cargo:rustc-link-lib=static=hislip");
    // For the test that compiles the C example against the same archive.
    println!("cargo:rustc-env=HISLIP_ARCHIVE={}", archive.display());
}
