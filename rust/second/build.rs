//! Finds the static library: in the folder that CONGAVEIL_LIB_DIR names, else in ../../target/staticlib.

use std::env;
use std::path::PathBuf;

fn main() {
    let here = PathBuf::from(env::var("CARGO_MANIFEST_DIR").expect("cargo names the crate's folder"));
    let folder = match env::var("CONGAVEIL_LIB_DIR") {
        Ok(named) => PathBuf::from(named),
        Err(_) => here.join("..").join("..").join("target").join("staticlib"),
    };
    println!("cargo:rustc-link-search=native={}", folder.display());
    println!("cargo:rustc-link-lib=static=congaveil");
    println!("cargo:rerun-if-env-changed=CONGAVEIL_LIB_DIR");
    println!("cargo:rerun-if-changed={}", folder.join("libcongaveil.a").display());
    println!("cargo:rerun-if-changed=build.rs");
}
