//! Finds the proved library: in the folder that BRIDLESNOW_LIB names (where it is installed as libbridlesnow.a), else in the repository's target/door,
//! where `door/library` writes it.
use std::env;
use std::path::{Path, PathBuf};

fn main() {
    println!("cargo:rerun-if-env-changed=BRIDLESNOW_LIB");
    let here = PathBuf::from(env::var("CARGO_MANIFEST_DIR").expect("cargo says where the crate is"));
    let (folder, name) = match env::var("BRIDLESNOW_LIB") {
        Ok(folder) => (PathBuf::from(folder), "bridlesnow"),
        Err(_) => (here.join("../../target/door"), "door"),
    };
    let library = folder.join(format!("lib{name}.a"));
    if !Path::new(&library).exists() {
        println!("cargo:warning=door/library writes the library, and BRIDLESNOW_LIB names another folder that has it");
        panic!("{} is not there", library.display());
    }
    println!("cargo:rerun-if-changed={}", library.display());
    println!("cargo:rustc-link-search=native={}", folder.display());
    println!("cargo:rustc-link-lib=static={name}");
}
