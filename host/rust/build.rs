//! Links the archives when the feature `archive` is on, from the folder named by LOARGWEN_LIB.

use std::env;
use std::path::Path;

const LIBRARIES: [&str; 3] = ["loargwen", "step_records", "word_face"];

fn main() {
    println!("cargo:rerun-if-env-changed=LOARGWEN_LIB");
    println!("cargo:rerun-if-changed=build.rs");
    if env::var_os("CARGO_FEATURE_ARCHIVE").is_some() {
        let folder = env::var("LOARGWEN_LIB").expect("LOARGWEN_LIB must name the archives' folder");
        println!("cargo:rustc-link-search=native={folder}");
        LIBRARIES.iter().for_each(|library| link(&folder, library));
    }
}

fn link(folder: &str, library: &str) {
    let archive = Path::new(folder).join(format!("lib{library}.a"));
    assert!(archive.is_file(), "no archive at {}", archive.display());
    println!("cargo:rerun-if-changed={}", archive.display());
    println!("cargo:rustc-link-lib=static={library}");
}
