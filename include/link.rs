//! Build script of the packages in Rust (tests/, tools/): links the proved library's archive.

use std::env;
use std::path::Path;

fn main() {
    let manifest = env::var("CARGO_MANIFEST_DIR").expect("cargo sets CARGO_MANIFEST_DIR");
    let folder = Path::new(&manifest).join("../target/staticlib");
    let archive = folder.join("libicode.a");
    println!("cargo::rerun-if-changed={}", archive.display());
    if !archive.is_file() {
        let path = archive.display();
        println!(
            "cargo::error={path} is missing; run `include/build` in the repository first"
        );
        return;
    }
    println!("cargo::rustc-link-search=native={}", folder.display());
    // Not bundled into the rlib of tests/: only the binaries are linked with it.
    println!("cargo::rustc-link-lib=static:-bundle=icode");
}
