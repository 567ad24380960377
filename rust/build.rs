//! Tells the linker where libjamturret.a stands.
//!
//! The library is made by `c/build` at the repository root and
//! stands in target/staticlib there. The environment variable
//! JAMTURRET_LIB_DIR names another folder (a relative one is taken from this
//! crate's folder), for instance one with a stand-in library that is broken on
//! purpose to try the tests.

use std::env;
use std::path::PathBuf;

fn main() {
    println!("cargo:rerun-if-env-changed=JAMTURRET_LIB_DIR");
    let root = PathBuf::from(env::var("CARGO_MANIFEST_DIR").expect("cargo sets it"));
    let named = env::var("JAMTURRET_LIB_DIR");
    let folder = root.join(named.as_deref().unwrap_or("../target/staticlib"));
    let library = folder.join("libjamturret.a");
    println!("cargo:rerun-if-changed={}", library.display());
    if !library.exists() {
        println!(
            "cargo:warning={} is missing: run `c/build` at the repository root, or set JAMTURRET_LIB_DIR",
            library.display()
        );
    }
    println!("cargo:rustc-link-search=native={}", folder.display());
    println!("cargo:rustc-link-lib=static=jamturret");
}
