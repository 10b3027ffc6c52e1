//! Links `libpansuyog.a` and `libpansuyog_file.a`: from the folder that PANSUYOG_LIB names, or from where `./library` of this repository
//! puts them.
use std::env;
use std::path::{Path, PathBuf};
use std::process::exit;

/// Links one of the libraries of a folder.
fn link(folder: &Path, name: &str) {
    let archive = folder.join(format!("lib{name}.a"));
    println!("cargo:rerun-if-changed={}", archive.display());
    if !archive.is_file() {
        eprintln!(
            "{} isn't there: ./library builds it, and PANSUYOG_LIB names another folder",
            archive.display()
        );
        exit(1);
    }
    println!("cargo:rustc-link-lib=static={name}");
}

fn main() {
    println!("cargo:rerun-if-env-changed=PANSUYOG_LIB");
    let folder = env::var_os("PANSUYOG_LIB").map_or_else(|| PathBuf::from(env!("CARGO_MANIFEST_DIR")).join("../c/out"), PathBuf::from);
    println!("cargo:rustc-link-search=native={}", folder.display());
    link(&folder, "pansuyog");
    link(&folder, "pansuyog_file");
}
