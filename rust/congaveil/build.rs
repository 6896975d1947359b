//! Links libcongaveil.a: from the folder that CONGAVEIL_LIB_DIR names, or from target/staticlib of this repository.
use std::{
    env,
    path::{Path, PathBuf},
    process::exit,
};

fn stop(why: String) -> ! {
    eprintln!("{why}");
    exit(1)
}

fn main() {
    println!("cargo:rerun-if-changed=build.rs");
    println!("cargo:rerun-if-env-changed=CONGAVEIL_LIB_DIR");
    let here = env::var_os("CARGO_MANIFEST_DIR").unwrap_or_default();
    // An empty value is as good as none. A relative one would be looked up in this crate's folder and not in the caller's.
    let dir = match env::var_os("CONGAVEIL_LIB_DIR").filter(|dir| !dir.is_empty()).map(PathBuf::from) {
        None => Path::new(&here).join("../../target/staticlib"),
        Some(dir) if dir.is_absolute() => dir,
        Some(dir) => stop(format!("CONGAVEIL_LIB_DIR is {}: name the folder of libcongaveil.a by an absolute path", dir.display())),
    };
    let library = dir.join("libcongaveil.a");
    println!("cargo:rerun-if-changed={}", library.display());
    if !library.is_file() {
        stop(format!("{} is not there: run `tools/library` in the repository, or name its folder in CONGAVEIL_LIB_DIR", library.display()));
    }
    println!("cargo:rustc-link-search=native={}", dir.display());
    println!("cargo:rustc-link-lib=static=congaveil");
}
