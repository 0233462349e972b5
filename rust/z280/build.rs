//! Finds the proved library: `target/staticlib` at the top of the tree, or the folder that Z280_LIB_DIR names.

use std::path::PathBuf;
use std::{env, process};

fn main() {
    println!("cargo:rerun-if-env-changed=Z280_LIB_DIR");
    let folder = match env::var_os("Z280_LIB_DIR") {
        Some(named) => PathBuf::from(named),
        None => PathBuf::from(env::var_os("CARGO_MANIFEST_DIR").expect("cargo sets it")).join("../../target/staticlib"),
    };
    let library = folder.join("libz280.a");
    println!("cargo:rerun-if-changed={}", library.display());
    if !library.is_file() {
        eprintln!("There is no {}.", library.display());
        eprintln!("Prove and build it at the top of the tree:  tools/make.sh library");
        eprintln!("or name the folder that has libz280.a:       Z280_LIB_DIR=folder cargo build");
        process::exit(1);
    }
    println!("cargo:rustc-link-search=native={}", folder.display());
    println!("cargo:rustc-link-lib=static=z280");
}
