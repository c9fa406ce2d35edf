//! Links libstation_watch.a, which bin/library builds, from the directory that the
//! environment variable STATIC_LIBRARY_DIR names, or else from this repository's
//! target/lib.

use std::env;
use std::path::{Path, PathBuf};
use std::process::exit;

fn main() {
    println!("cargo:rerun-if-env-changed=STATIC_LIBRARY_DIR");
    let directory = directory();
    let archive = directory.join("libstation_watch.a");
    println!("cargo:rerun-if-changed={}", archive.display());
    if !archive.is_file() {
        eprintln!("station-watch: there is no {}", archive.display());
        eprintln!("station-watch: run bin/library, which builds target/lib/libstation_watch.a,");
        eprintln!("station-watch: or name its directory in STATIC_LIBRARY_DIR");
        exit(1);
    }
    println!("cargo:rustc-link-search=native={}", directory.display());
    println!("cargo:rustc-link-lib=static=station_watch");
}

fn directory() -> PathBuf {
    match env::var_os("STATIC_LIBRARY_DIR") {
        Some(named) => PathBuf::from(named),
        None => {
            let here = env::var_os("CARGO_MANIFEST_DIR").expect("cargo sets it");
            Path::new(&here).join("../target/lib")
        }
    }
}
