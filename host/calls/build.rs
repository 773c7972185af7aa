//! Links libhost_calls.a, which `host/archives host_calls` makes.
//!
//! It is taken from the folder that CALLS_LIB_DIR names, else from target/staticlib of the project.

use std::env;
use std::path::PathBuf;
use std::process::exit;

fn main() {
    println!("cargo:rerun-if-env-changed=CALLS_LIB_DIR");
    let folder = match env::var_os("CALLS_LIB_DIR") {
        Some(folder) => PathBuf::from(folder),
        None => PathBuf::from(env::var_os("CARGO_MANIFEST_DIR").expect("cargo sets it"))
            .join("../../target/staticlib"),
    };
    let archive = folder.join("libhost_calls.a");
    println!("cargo:rerun-if-changed={}", archive.display());
    if !archive.is_file() {
        eprintln!("calls: {} is missing.", archive.display());
        eprintln!("Run `host/archives host_calls` in the project's folder to make it,");
        eprintln!("or set CALLS_LIB_DIR to the folder that has libhost_calls.a.");
        exit(1);
    }
    println!("cargo:rustc-link-search=native={}", folder.display());
    println!("cargo:rustc-link-lib=static=host_calls");
}
