//! Finds the source of gix-refspec, in the folder that GIX_REFSPEC_SRC names (the
//! crate's, or its src) or in shared/docs/src beside the repository's top folder,
//! checks that its files are the ones of SHA256SUMS, and copies them to
//! ../target/gix-refspec, from where Cargo compiles them. A copy and not a link, so that no tool that
//! walks this workspace (as `cargo fmt` does) can reach the originals.

use std::{
    env,
    error::Error,
    fs::{self, File},
    path::{Path, PathBuf},
    process::Command,
};

fn main() {
    println!("cargo::rerun-if-env-changed=GIX_REFSPEC_SRC");
    println!("cargo::rerun-if-changed=SHA256SUMS");
    if let Err(why) = provide() {
        println!("cargo::error={why}");
    }
}

fn provide() -> Result<(), Box<dyn Error>> {
    let here = Path::new(env!("CARGO_MANIFEST_DIR"));
    let sums = here.join("SHA256SUMS");
    let named = match env::var_os("GIX_REFSPEC_SRC") {
        Some(folder) => PathBuf::from(folder),
        None => here.join("../../../../shared/docs/src"),
    };
    let from = if named.join("src/lib.rs").is_file() { named.join("src") } else { named };
    if !from.join("lib.rs").is_file() {
        return Err(
            format!("the source of gix-refspec is not in {}: set GIX_REFSPEC_SRC", from.display()).into()
        );
    }
    let to = here.join("../target/gix-refspec");
    let _ = fs::remove_dir_all(&to);
    fs::create_dir_all(to.join("match_group"))?;
    for line in fs::read_to_string(&sums)?.lines() {
        let (_, name) = line.split_once("  ").ok_or("SHA256SUMS has a line without a name")?;
        let (original, copy) = (from.join(name), to.join(name));
        fs::write(&copy, fs::read(&original)?)?;
        // The copy is as old as its original: it is made again only if either changes.
        File::options().append(true).open(&copy)?.set_modified(fs::metadata(&original)?.modified()?)?;
        println!("cargo::rerun-if-changed={}", original.display());
        println!("cargo::rerun-if-changed={}", copy.display());
    }
    let check = Command::new("sha256sum")
        .args(["--check", "--strict", "--quiet"])
        .arg(&sums)
        .current_dir(&to)
        .output()?;
    if !check.status.success() {
        let failed = String::from_utf8_lossy(&check.stdout).replace('\n', " ");
        return Err(
            format!("the files in {} are not the ones of SHA256SUMS: {failed}", from.display()).into()
        );
    }
    Ok(())
}
