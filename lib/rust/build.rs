//! Links target/lib/libtanglepunt.a of the repository, which lib/build makes, or the archive in the folder TANGLEPUNT_LIB_DIR.
use std::env;
use std::path::PathBuf;
use std::process::exit;

fn main() {
    let here = env::var_os("CARGO_MANIFEST_DIR").unwrap_or_default();
    let folder = match env::var_os("TANGLEPUNT_LIB_DIR") {
        Some(folder) => PathBuf::from(folder),
        None => PathBuf::from(here).join("../../target/lib"),
    };
    let archive = folder.join("libtanglepunt.a");
    println!("cargo::rerun-if-env-changed=TANGLEPUNT_LIB_DIR");
    println!("cargo::rerun-if-changed={}", archive.display());
    if !archive.is_file() {
        println!("cargo::error={} is not there; lib/build makes it", archive.display());
        exit(1);
    }
    println!("cargo::rustc-link-search=native={}", folder.display());
    println!("cargo::rustc-link-lib=static=tanglepunt");
}
