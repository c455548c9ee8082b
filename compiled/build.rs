//! Links libjasminebrace.a. It is taken from ../target/staticlib, or from the
//! folder that JASMINEBRACE_LIB names.

use std::env;
use std::path::PathBuf;

const VARIABLE: &str = "JASMINEBRACE_LIB";

fn main() {
    let package = PathBuf::from(env::var("CARGO_MANIFEST_DIR").expect("cargo names the package"));
    let folder = match env::var(VARIABLE) {
        Ok(folder) => PathBuf::from(folder),
        Err(_) => package.join("../target/staticlib"),
    };
    let archive = folder.join("libjasminebrace.a");
    assert!(archive.is_file(), "{} is missing", archive.display());
    println!("cargo:rerun-if-env-changed={VARIABLE}");
    println!("cargo:rerun-if-changed={}", archive.display());
    println!("cargo:rustc-link-search=native={}", folder.display());
    println!("cargo:rustc-link-lib=static=jasminebrace");
}
