//! Finds libfir.a: in the folder that FIR_LIB_DIR names, else in ../target/staticlib.

use std::env;
use std::path::PathBuf;
use std::process::exit;

fn main() {
    println!("cargo:rerun-if-env-changed=FIR_LIB_DIR");
    let package = PathBuf::from(env::var_os("CARGO_MANIFEST_DIR").unwrap());
    let named = env::var_os("FIR_LIB_DIR").unwrap_or_else(|| "../target/staticlib".into());
    let folder = package.join(named);
    let archive = folder.join("libfir.a");
    println!("cargo:rerun-if-changed={}", archive.display());
    if !archive.is_file() {
        eprintln!("no {}: make it with `./library`", archive.display());
        exit(1);
    }
    println!("cargo:rustc-link-search=native={}", folder.display());
    println!("cargo:rustc-link-lib=static=fir");
}
