//! Finds the archive of the proved calls.

use std::env;
use std::path::PathBuf;
use std::process::exit;

fn main() {
    let here = PathBuf::from(env::var_os("CARGO_MANIFEST_DIR").unwrap_or_default());
    let folder = here.join("../../target/staticlib");
    let archive = folder.join("libservice.a");
    println!("cargo:rerun-if-changed={}", archive.display());
    if !archive.is_file() {
        eprintln!("target/staticlib/libservice.a is not there: run `bindings/run` first");
        exit(1);
    }
    println!("cargo:rustc-link-search=native={}", folder.display());
    println!("cargo:rustc-link-lib=static=service");
}
