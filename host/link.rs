//! The build script of each package that links a proved static library: `libraries.txt` lists it,
//! and `host/archives PACKAGE` builds it, under the package's name.

use std::env;
use std::fs;
use std::path::Path;
use std::process::exit;

fn main() {
    let package = env::var("CARGO_PKG_NAME").expect("cargo sets it");
    let manifest = env::var("CARGO_MANIFEST_DIR").expect("cargo sets it");
    let host = Path::new(&manifest).join("..");
    let libraries = host.join("libraries.txt");
    let listed = fs::read_to_string(&libraries).expect("host/libraries.txt is there");
    let is_listed = listed
        .lines()
        .filter_map(|line| line.split_once(": "))
        .any(|(of, _)| of == package);
    assert!(is_listed, "host/libraries.txt has the package");
    let folder = host.join("../target/staticlib");
    let archive = folder.join(format!("lib{package}.a"));
    println!("cargo:rerun-if-changed={}", libraries.display());
    println!("cargo:rerun-if-changed={}", archive.display());
    if !archive.exists() {
        eprintln!("no target/staticlib/lib{package}.a: run `host/archives {package}`");
        exit(1);
    }
    println!("cargo:rustc-link-search=native={}", folder.display());
    println!("cargo:rustc-link-lib=static={package}");
}
