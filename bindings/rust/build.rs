//! Links the library's archive, `libtainhosa.a`: from the folder that TAINHOSA_LIBRARY names, else from the repository's
//! `target/staticlib`, where `tools/ready library` leaves it.
use std::path::PathBuf;

fn main() {
    println!("cargo:rerun-if-env-changed=TAINHOSA_LIBRARY");
    let built = || PathBuf::from(env!("CARGO_MANIFEST_DIR")).join("../../target/staticlib");
    let named = std::env::var_os("TAINHOSA_LIBRARY").map_or_else(built, PathBuf::from);
    let folder = named.canonicalize().unwrap_or(named);
    let archive = folder.join("libtainhosa.a");
    if !archive.is_file() {
        eprintln!(
            "{} is missing: run tools/ready library, or set TAINHOSA_LIBRARY to the folder that has it",
            archive.display()
        );
        std::process::exit(1);
    }
    println!("cargo:rerun-if-changed={}", archive.display());
    println!("cargo:rustc-link-search=native={}", folder.display());
    println!("cargo:rustc-link-lib=static=tainhosa");
}
