//! Tells the linker where libsearches.a stands: the searches of the crate
//! `waiting`, exported for our tests and their benchmark by
//! `c/build searches` at the repository root. JAMTURRET_LIB_DIR names
//! another folder, as it does for the library (../rust/build.rs).

use std::env;
use std::path::PathBuf;

fn main() {
    println!("cargo:rerun-if-env-changed=JAMTURRET_LIB_DIR");
    let root = PathBuf::from(env::var("CARGO_MANIFEST_DIR").expect("cargo sets it"));
    let named = env::var("JAMTURRET_LIB_DIR");
    let folder = root.join(named.as_deref().unwrap_or("../target/staticlib"));
    let library = folder.join("libsearches.a");
    println!("cargo:rerun-if-changed={}", library.display());
    if !library.exists() {
        println!(
            "cargo:warning={} is missing: run `c/build searches` at the repository root",
            library.display()
        );
    }
    println!("cargo:rustc-link-search=native={}", folder.display());
    println!("cargo:rustc-link-lib=static=searches");
}
