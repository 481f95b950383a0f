//! Finds the archive: in the folder that VASIGMON_LIB_DIR names, else where
//! `tools/archive` writes it.

use std::{env, path::PathBuf};

fn main() {
    let folder = match env::var_os("VASIGMON_LIB_DIR") {
        Some(folder) => PathBuf::from(folder),
        None => PathBuf::from(env!("CARGO_MANIFEST_DIR")).join("../../crates/vasigmon/out"),
    };
    let archive = folder.join("libvasigmon.a");
    println!("cargo::rerun-if-env-changed=VASIGMON_LIB_DIR");
    println!("cargo::rerun-if-changed={}", archive.display());
    if !archive.is_file() {
        println!(
            "cargo::error=there is no {}: run `tools/archive`, or set VASIGMON_LIB_DIR",
            archive.display()
        );
        return;
    }
    println!("cargo::rustc-link-search=native={}", folder.display());
    println!("cargo::rustc-link-lib=static=vasigmon");
}
