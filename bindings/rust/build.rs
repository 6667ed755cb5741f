//! Tells the linker where `libmifdagus.a` is: in the folder that MIFDAGUS_LIB names, or in `out/` of the checkout.

use std::path::PathBuf;
use std::{env, process};

fn main() {
    println!("cargo:rerun-if-env-changed=MIFDAGUS_LIB");
    let folder = match env::var_os("MIFDAGUS_LIB") {
        Some(folder) => PathBuf::from(folder),
        None => PathBuf::from(env::var_os("CARGO_MANIFEST_DIR").unwrap_or_default()).join("../../out"),
    };
    let archive = folder.join("libmifdagus.a");
    if !archive.is_file() {
        eprintln!("there is no {}: build it with bin/build --library, and set MIFDAGUS_LIB to its folder", archive.display());
        process::exit(1);
    }
    println!("cargo:rerun-if-changed={}", archive.display());
    println!("cargo:rustc-link-search=native={}", folder.display());
    println!("cargo:rustc-link-lib=static=mifdagus");
}
