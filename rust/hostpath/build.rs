//! Links libhostpath.a, which `oracle/library` has the toolchain make for x86-64. HOSTPATH_LIB names its
//! folder; without it, the repository's own target/staticlib is taken, or on another processor
//! target/native, where `oracle/library` writes a build for tests and figures.
use std::env;
use std::path::PathBuf;

fn main() {
    println!("cargo:rerun-if-env-changed=HOSTPATH_LIB");
    let folder = env::var_os("HOSTPATH_LIB").map_or_else(beside, |named| from_caller(named.into()));
    let archive = folder.join("libhostpath.a");
    assert!(
        archive.is_file(),
        "no {}: HOSTPATH_LIB has to name the folder of libhostpath.a, which `oracle/library` in the \
         repository builds and prints",
        archive.display()
    );
    println!("cargo:rerun-if-changed={}", archive.display());
    println!("cargo:rustc-link-search=native={}", folder.canonicalize().unwrap().display());
    println!("cargo:rustc-link-lib=static=hostpath");
}

/// A folder as whoever called cargo names it. This program runs in the crate's own folder, and PWD has the caller's.
fn from_caller(folder: PathBuf) -> PathBuf {
    if folder.is_relative() {
        println!("cargo:rerun-if-env-changed=PWD");
    }
    PathBuf::from(env::var_os("PWD").unwrap_or_default()).join(folder)
}

fn beside() -> PathBuf {
    let product = env::var("CARGO_CFG_TARGET_ARCH").unwrap() == "x86_64";
    let here = PathBuf::from(env::var_os("CARGO_MANIFEST_DIR").unwrap());
    here.join("../../target").join(if product { "staticlib" } else { "native" })
}
