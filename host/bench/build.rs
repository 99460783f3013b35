//! Links the proved desk's own code, where it has been written out and the target is the one that it is written for.

use std::env;
use std::path::Path;
use std::process::Command;

fn main() {
    println!("cargo:rerun-if-changed=build.rs");
    // An older cargo warns of what a newer compiler asks for.
    if Some(80) <= minor() {
        println!("cargo:rustc-check-cfg=cfg(archive)");
    }
    let told = |name| env::var(name).expect("cargo tells a build script");
    if told("CARGO_CFG_TARGET_ARCH") != "x86_64" || told("CARGO_CFG_TARGET_OS") != "linux" {
        return;
    }
    let folder = Path::new(&told("CARGO_MANIFEST_DIR")).join("../../target/staticlib");
    let archive = folder.join("libarchive.a");
    println!("cargo:rerun-if-changed={}", archive.display());
    if archive.exists() {
        println!("cargo:rustc-cfg=archive");
        println!("cargo:rustc-link-search=native={}", folder.display());
        println!("cargo:rustc-link-lib=static=archive");
    }
}

/// Of the compiler's version, 80 in 1.80.0.
fn minor() -> Option<u32> {
    let said = Command::new(env::var_os("RUSTC")?)
        .arg("--version")
        .output();
    let said = String::from_utf8(said.ok()?.stdout).ok()?;
    said.split('.').nth(1)?.parse().ok()
}
