//! Links libpowhanire.a of the folder that POWHANIRE_LIB_DIR names, or else the one of this repository.

use std::path::{Path, PathBuf};

fn main() {
    let built = Path::new(env!("CARGO_MANIFEST_DIR")).join("../../crates/powhanire/out");
    let folder = std::env::var_os("POWHANIRE_LIB_DIR").map_or(built, PathBuf::from);
    let archive = folder.join("libpowhanire.a");
    if !archive.exists() {
        println!("cargo:warning=there is no {}:", archive.display());
        println!("cargo:warning=`rt lib --cpu x86-64` in crates/powhanire writes one,");
        println!("cargo:warning=or POWHANIRE_LIB_DIR names the folder of one by its full path");
    }
    if std::env::var("CARGO_CFG_TARGET_ARCH").as_deref() != Ok("x86_64") {
        println!("cargo:warning=the archive is for x86-64 alone");
    }
    println!("cargo:rustc-link-search=native={}", folder.display());
    println!("cargo:rustc-link-lib=static=powhanire");
    println!("cargo:rerun-if-changed={}", archive.display());
    println!("cargo:rerun-if-env-changed=POWHANIRE_LIB_DIR");
}
