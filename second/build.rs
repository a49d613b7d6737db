//! Links the proved archive, libasternhaken.a, from the folder that ASTERNHAKEN_LIB names.
//!
//! The library's archive is for x86-64 and stands in ../target/lib. On another processor its own build of the same module is linked,
//! from ../target/native.

use std::path::Path;

fn main() {
    println!("cargo:rerun-if-env-changed=ASTERNHAKEN_LIB");
    let here = std::env::var("CARGO_MANIFEST_DIR").unwrap();
    let usual = match std::env::var("CARGO_CFG_TARGET_ARCH").as_deref() {
        Ok("x86_64") => "../target/lib",
        _ => "../target/native",
    };
    let folder = std::env::var("ASTERNHAKEN_LIB").unwrap_or_else(|_| usual.to_string());
    let folder = Path::new(&here).join(folder);
    println!("cargo:rerun-if-changed={}", folder.join("libasternhaken.a").display());
    println!("cargo:rustc-link-search=native={}", folder.display());
    println!("cargo:rustc-link-lib=static=asternhaken");
}
