//! Finds libcapi.a, which `tools/build capi` writes to target/staticlib of the repository. MALLUVOM_LIB_DIR names
//! another folder.

use std::path::PathBuf;
use std::{env, process};

fn main() {
    println!("cargo:rerun-if-env-changed=MALLUVOM_LIB_DIR");
    let here = PathBuf::from(env::var_os("CARGO_MANIFEST_DIR").expect("cargo sets CARGO_MANIFEST_DIR"));
    let folder = match env::var_os("MALLUVOM_LIB_DIR").filter(|named| !named.is_empty()) {
        Some(named) => PathBuf::from(named),
        None => here.join("../../target/staticlib"),
    };
    // Neither this script nor the linker runs in the folder that cargo was called in.
    if folder.is_relative() {
        eprintln!("MALLUVOM_LIB_DIR must be an absolute path, and is {}", folder.display());
        process::exit(1);
    }
    let library = folder.join("libcapi.a");
    println!("cargo:rerun-if-changed={}", library.display());
    if !library.is_file() {
        eprintln!("{} is not there: build it by `tools/build capi` in the repository's root,", library.display());
        eprintln!("or name the folder of another libcapi.a in MALLUVOM_LIB_DIR");
        process::exit(1);
    }
    println!("cargo:rustc-link-search=native={}", folder.display());
    println!("cargo:rustc-link-lib=static=capi");
}
