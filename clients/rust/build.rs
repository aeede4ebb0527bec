//! Finds libfunnelfawn.a: in the directory that FUNNELFAWN_LIB names, else where `tools/build funnelfawn` puts it.

use std::env::var_os;
use std::path::{Path, PathBuf};
use std::process::exit;

const ARCHIVE: &str = "libfunnelfawn.a";

fn main() {
    // a whole path: the linker does not run where this does
    let directory = directory();
    let directory = directory.canonicalize().unwrap_or(directory);
    let archive = directory.join(ARCHIVE);
    println!("cargo:rerun-if-env-changed=FUNNELFAWN_LIB");
    println!("cargo:rerun-if-changed={}", archive.display());
    if !archive.is_file() {
        eprintln!("funnelfawn: there is no {}.", archive.display());
        eprintln!("Either run `tools/build funnelfawn` at the top of the repository, which puts it into target/staticlib,");
        eprintln!("or set the environment variable FUNNELFAWN_LIB to the directory that has {ARCHIVE} (an absolute path).");
        exit(1);
    }
    println!("cargo:rustc-link-search=native={}", directory.display());
    println!("cargo:rustc-link-lib=static=funnelfawn");
}

fn directory() -> PathBuf {
    match var_os("FUNNELFAWN_LIB") {
        Some(named) => PathBuf::from(named),
        None => package().join("../../target/staticlib"),
    }
}

fn package() -> PathBuf {
    var_os("CARGO_MANIFEST_DIR").map_or_else(|| Path::new(".").into(), PathBuf::from)
}
