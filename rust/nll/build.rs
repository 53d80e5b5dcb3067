//! Links the static library `nll` of the folder that `NLL_STATICLIB` names, or of `target/staticlib` in the repository.

use std::path::PathBuf;
use std::{env, process};

fn main() {
    let default = || PathBuf::from(env::var("CARGO_MANIFEST_DIR").unwrap()).join("../../target/staticlib");
    let folder = env::var("NLL_STATICLIB").map_or_else(|_| default(), PathBuf::from);
    if folder.is_relative() {
        eprintln!("NLL_STATICLIB has to be an absolute path: {}", folder.display());
        process::exit(1);
    }
    let archive = folder.join("libnll.a");
    println!("cargo:rerun-if-env-changed=NLL_STATICLIB");
    println!("cargo:rerun-if-changed={}", archive.display());
    if !archive.is_file() {
        eprintln!(
            "there is no {}: run `./staticlib` in the repository, or name its folder in NLL_STATICLIB",
            archive.display()
        );
        process::exit(1);
    }
    println!("cargo:rustc-env=NLL_ARCHIVE={}", archive.display());
    println!("cargo:rustc-link-search=native={}", folder.display());
    println!("cargo:rustc-link-lib=static=nll");
}
