//! Links libsheet.a: from the directory that SHEET_LIB_DIR names, or from where `c/library` puts it in this repository.

use std::env;
use std::path::PathBuf;

fn main() {
    println!("cargo:rerun-if-env-changed=SHEET_LIB_DIR");
    let directory = match env::var_os("SHEET_LIB_DIR") {
        Some(directory) => PathBuf::from(directory),
        None => PathBuf::from(env::var_os("CARGO_MANIFEST_DIR").expect("cargo names the package's folder"))
            .join("../../target/staticlib"),
    };
    let library = directory.join("libsheet.a");
    println!("cargo:rerun-if-changed={}", library.display());
    if !library.is_file() {
        panic!(
            "{} is not there: run c/library in the repository's root, or name the folder of libsheet.a in SHEET_LIB_DIR",
            library.display()
        );
    }
    println!("cargo:rustc-link-search=native={}", directory.display());
    println!("cargo:rustc-link-lib=static=sheet");
}
