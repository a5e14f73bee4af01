//! Finds the archive of the verified library, built by `tests/library`.

use std::path::Path;

fn main() {
    let archives = Path::new(env!("CARGO_MANIFEST_DIR")).join("../../target/staticlib");
    println!("cargo::rustc-link-search=native={}", archives.display());
    println!("cargo::rustc-link-lib=static=capi");
    println!(
        "cargo::rerun-if-changed={}",
        archives.join("libcapi.a").display()
    );
    println!("cargo::rerun-if-changed=build.rs");
}
