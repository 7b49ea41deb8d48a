//! Build script of the crates that link an archive: says where the archive stands.
//!
//! The archive has the name of the crate behind `lib`. Its folder is the value of PITHREAD_LIB, taken from
//! the folder tests if it is not absolute; without it, `target/staticlib` at the root of the repository.

use std::env;
use std::path::PathBuf;

fn main() {
    let here = PathBuf::from(env::var_os("CARGO_MANIFEST_DIR").expect("cargo sets this"));
    let name = env::var("CARGO_PKG_NAME").expect("cargo sets this");
    let root = here.ancestors().nth(2).expect("the crate stands two folders deep in the repository");
    let folder = match env::var_os("PITHREAD_LIB") {
        Some(folder) => root.join("tests").join(folder),
        None => root.join("target/staticlib"),
    };
    let archive = folder.join(format!("lib{name}.a"));
    if !archive.exists() {
        println!("cargo:warning={} is not there: tests/build.sh {name} writes it", archive.display());
    }
    println!("cargo:rerun-if-env-changed=PITHREAD_LIB");
    println!("cargo:rerun-if-changed={}", folder.display());
    println!("cargo:rerun-if-changed={}", archive.display());
    println!("cargo:rustc-link-search=native={}", folder.display());
}
