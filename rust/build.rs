//! Says where the proved library lies: in the folder TDEA_LIB_DIR, or where `make lib` leaves it.
use std::env;
use std::path::PathBuf;
use std::process::exit;

fn main() {
    println!("cargo::rerun-if-env-changed=TDEA_LIB_DIR");
    let folder = env::var_os("TDEA_LIB_DIR").map_or_else(made_here, PathBuf::from);
    let archive = folder.join("libtdea.a");
    println!("cargo::rerun-if-changed={}", archive.display());
    if !archive.is_file() {
        eprintln!("{} is missing: run 'make lib' first, or name its folder in TDEA_LIB_DIR", archive.display());
        exit(1);
    }
    println!("cargo::rustc-link-search=native={}", folder.display());
    println!("cargo::rustc-link-lib=static=tdea");
}

fn made_here() -> PathBuf {
    let here = env::var_os("CARGO_MANIFEST_DIR").expect("cargo names the crate's folder");
    PathBuf::from(here).join("../build/lib")
}
