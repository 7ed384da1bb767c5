//! Names the release whose answers the program prints: the one that compiles it.
use std::env;
use std::process::Command;

fn main() {
    let said =
        Command::new(env::var_os("RUSTC").unwrap()).arg("--version").output().unwrap().stdout;
    let said = String::from_utf8(said).unwrap();
    let release: Vec<&str> = said.split_whitespace().take(2).collect();
    println!("cargo:rustc-env=RELEASE={}", release.join(" "));
    println!("cargo:rerun-if-changed=build.rs");
}
