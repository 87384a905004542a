//! Finds `libbradawlet.a`, which every program that uses the crate links.

use std::env;
use std::path::PathBuf;
use std::process;

const VARIABLE: &str = "BRADAWLET_LIBRARIES";

/// The folder that the variable names, else the one that `./build` writes to. An empty variable names none.
fn libraries() -> PathBuf {
    println!("cargo:rerun-if-env-changed={VARIABLE}");
    match env::var_os(VARIABLE) {
        Some(folder) if !folder.is_empty() => PathBuf::from(folder),
        _ => PathBuf::from(env!("CARGO_MANIFEST_DIR")).with_file_name("target").join("lib"),
    }
}

fn stop(why: &str) -> ! {
    eprintln!("bradawlet: {why}");
    process::exit(1)
}

fn main() {
    let folder = libraries();
    if folder.is_relative() {
        stop(&format!("{VARIABLE} must be an absolute path, and {} is not", folder.display()));
    }
    let archive = folder.join("libbradawlet.a");
    // Where there is none yet, one that is built later must be seen too.
    println!("cargo:rerun-if-changed={}", archive.display());
    if !archive.is_file() {
        let instead = format!("set {VARIABLE} to the folder that has it");
        stop(&format!("there is no {}: run ./build in the repository, or {instead}", archive.display()));
    }
    println!("cargo:rustc-link-search=native={}", folder.display());
    println!("cargo:rustc-link-lib=static=bradawlet");
}
