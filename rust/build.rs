//! Links the store's archive, where there is one for the target.

use std::env;
use std::path::{Path, PathBuf};

const ARCHIVE: &str = "libbridge.a";

fn variable(name: &str) -> String {
    env::var(name).unwrap_or_default()
}

/// Where the archive is: the directory of the environment's choice, or the one that `.ci/archive`
/// writes to.
fn directory() -> PathBuf {
    match env::var_os("HRNKOVIDA_ARCHIVE_DIR") {
        Some(chosen) => PathBuf::from(chosen),
        None => Path::new(&variable("CARGO_MANIFEST_DIR")).join("../target/staticlib"),
    }
}

fn link() {
    let directory = directory();
    let archive = directory.join(ARCHIVE);
    println!("cargo::rerun-if-changed={}", archive.display());
    if !archive.is_file() {
        println!(
            "cargo::error=the store's archive is not at {}: run `.ci/archive` at the top \
             of the repository, or set HRNKOVIDA_ARCHIVE_DIR to the directory that holds {ARCHIVE}",
            archive.display()
        );
        return;
    }
    println!("cargo::rustc-link-search=native={}", directory.display());
    println!("cargo::rustc-link-lib=static=bridge");
}

fn main() {
    println!("cargo::rerun-if-changed=build.rs");
    println!("cargo::rerun-if-env-changed=HRNKOVIDA_ARCHIVE_DIR");
    let (arch, os) = (
        variable("CARGO_CFG_TARGET_ARCH"),
        variable("CARGO_CFG_TARGET_OS"),
    );
    if arch == "x86_64" && os == "linux" {
        link();
        return;
    }
    println!(
        "cargo::warning=the store's archive holds code for Linux on x86-64; for {os} on {arch} \
         this crate can be checked (`cargo check`), but nothing that calls the store can be linked"
    );
}
