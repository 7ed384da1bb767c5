//! Writes the module lines that compile the five files where they stand, so that no byte of them is
//! copied or changed. ORACLE_SOURCE names the folder that holds them under their published paths.
use std::path::{Path, PathBuf};
use std::{env, fs};

const BESIDE: &str = "../../../shared/docs/src";
const PUBLISHED: &str = "ibc-core/ics24-host/types/src";
const TOP: [&str; 2] = ["path", "validate"];
const IDENTIFIERS: [&str; 3] = ["channel_id", "client_id", "connection_id"];

fn main() {
    println!("cargo:rerun-if-env-changed=ORACLE_SOURCE");
    let source = source().join(PUBLISHED);
    let out = PathBuf::from(env::var_os("OUT_DIR").unwrap());
    fs::write(out.join("top.rs"), modules(&source, &TOP)).unwrap();
    let identifiers = modules(&source.join("identifiers"), &IDENTIFIERS);
    fs::write(out.join("identifiers.rs"), identifiers).unwrap();
}

fn source() -> PathBuf {
    let here = PathBuf::from(env::var_os("CARGO_MANIFEST_DIR").unwrap());
    let named = env::var_os("ORACLE_SOURCE").map_or(here.join(BESIDE), PathBuf::from);
    named.canonicalize().unwrap_or_else(|e| {
        panic!("{}: {e}; ORACLE_SOURCE names the Rust's folder", named.display())
    })
}

fn modules(folder: &Path, names: &[&str]) -> String {
    names.iter().map(|name| module(&folder.join(name).with_extension("rs"), name)).collect()
}

fn module(file: &Path, name: &str) -> String {
    assert!(file.is_file(), "no {}", file.display());
    println!("cargo:rerun-if-changed={}", file.display());
    format!("#[path = {:?}]\npub mod {name};\n", file.to_str().unwrap())
}
