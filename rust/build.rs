//! Tells the linker where the library of the proved calls is: in the folder that BERRYTICK_LIBRARY names, or where `tools/library` writes it
//! in this repository.

use std::path::{Path, PathBuf};

fn main() {
    println!("cargo:rerun-if-changed=build.rs");
    println!("cargo:rerun-if-env-changed=BERRYTICK_LIBRARY");
    let folder = match std::env::var_os("BERRYTICK_LIBRARY") {
        Some(folder) => PathBuf::from(folder),
        None => {
            let here = std::env::var_os("CARGO_MANIFEST_DIR").expect("cargo names the folder of the crate");
            Path::new(&here).join("../target/staticlib")
        }
    };
    println!("cargo:rerun-if-changed={}", folder.join("libexported.a").display());
    println!("cargo:rustc-link-search=native={}", folder.display());
    println!("cargo:rustc-link-lib=static=exported");
}
