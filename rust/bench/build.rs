//! What to compare with: ISA-L's xor_gen, Debian's libisal-dev; and running parity as FFmpeg keeps it, compiled as FFmpeg is, and with vectors.
use std::{env, path::Path, process::Command};

fn run(program: &str, arguments: &[&str]) {
    let status = Command::new(program).args(arguments).status();
    assert!(status.as_ref().map_or(false, |status| status.success()), "{program}: {status:?}");
}

fn main() {
    println!("cargo:rustc-link-lib=isal");
    println!("cargo:rerun-if-changed=build.rs");
    println!("cargo:rerun-if-changed=src/prompeg.c");
    let out = env::var("OUT_DIR").expect("cargo names it");
    let path = |name: &str| Path::new(&out).join(name).to_str().expect("a path in UTF-8").to_owned();
    let (objects, library) = ([path("prompeg.o"), path("vectors.o")], path("libprompeg.a"));
    let ways = ["-fno-tree-vectorize", "-DNAMED(name)=vectors_##name"];
    for (object, way) in objects.iter().zip(ways) {
        run("gcc", &["-std=c99", "-O3", way, "-fPIC", "-Wall", "-Wextra", "-c", "src/prompeg.c", "-o", object]);
    }
    run("ar", &["crs", &library, &objects[0], &objects[1]]);
    println!("cargo:rustc-link-search=native={out}");
    println!("cargo:rustc-link-lib=static=prompeg");
}
