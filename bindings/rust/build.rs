//! Finds liblogbuffer.a, which `./archive` of the repository builds, and has it linked: in the folder that LOGBUFFER_LIB_DIR names, else in target/ of
//! the repository. Read src/lib.rs next.

use std::{env, path::PathBuf};

fn main() {
    println!("cargo:rerun-if-env-changed=LOGBUFFER_LIB_DIR");
    let dir = match env::var_os("LOGBUFFER_LIB_DIR") {
        Some(dir) => PathBuf::from(dir),
        None => PathBuf::from(env::var_os("CARGO_MANIFEST_DIR").expect("cargo sets it")).join("../../target"),
    };
    let archive = dir.join("liblogbuffer.a");
    if !archive.is_file() {
        println!("cargo:warning=no {}: build it with ./archive, or let LOGBUFFER_LIB_DIR name its folder", archive.display());
        std::process::exit(1);
    }
    println!("cargo:rerun-if-changed={}", archive.display());
    println!("cargo:rustc-link-search=native={}", dir.display());
    println!("cargo:rustc-link-lib=static=logbuffer");
}
