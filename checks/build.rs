//! Tells where the engine's static library lies. Only what takes in `src/library.rs` links it.
//!
//! For the benchmark, the feature `bench`, it also compiles the plain C, by clang and by gcc, into a library.

use std::env::{var, var_os};
use std::path::{Path, PathBuf};
use std::process::Command;

/// The plain C, each file for one part of the engine.
const PLAIN_C: [&str; 8] =
    ["bank", "estimate", "projection", "two_levels", "update", "rounds", "finish", "spot"];

fn main() {
    let checks = var("CARGO_MANIFEST_DIR").unwrap();
    let directory = Path::new(&checks).join("../target/staticlib");
    println!("cargo::rustc-link-search=native={}", directory.display());
    println!("cargo::rerun-if-changed={}", directory.join("libdemosaic_c.a").display());
    if var_os("CARGO_FEATURE_BENCH").is_some() {
        plain_c(&Path::new(&checks).join("c"));
    }
}

/// A library with the plain C calls of each compiler, for the processor that every x86-64 machine has.
fn plain_c(sources: &Path) {
    println!("cargo::rerun-if-changed={}", sources.display());
    let out = PathBuf::from(var("OUT_DIR").unwrap());
    let mut archiver = Command::new("ar");
    archiver.arg("crs").arg(out.join("libplain_c.a"));
    for compiler in ["clang", "gcc"] {
        for part in PLAIN_C {
            let object = out.join(format!("plain_{part}_{compiler}.o"));
            compile(compiler, &sources.join(format!("plain_{part}.c")), &object);
            archiver.arg(object);
        }
    }
    run(&mut archiver);
    println!("cargo::rustc-link-search=native={}", out.display());
}

/// Each name that other files see ends in the compiler's.
fn compile(compiler: &str, source: &Path, object: &Path) {
    run(Command::new(compiler)
        .args(["-O3", "-std=c11", "-Wall", "-Wextra", "-Werror", "-fPIE"])
        .arg(format!("-DPLAIN(name)=plain_##name##_{compiler}"))
        .args(["-c".as_ref(), source, "-o".as_ref(), object]));
}

fn run(command: &mut Command) {
    let program = command.get_program().to_owned();
    let status = command.status().unwrap_or_else(|error| panic!("{program:?} does not start: {error}"));
    assert!(status.success(), "{program:?} fails, {status}");
}
