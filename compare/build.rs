//! Copies the crate's dlmalloc.rs, word for word, to where the library includes it from, and links our archive.
use std::path::{Path, PathBuf};
use std::{env, fs};

const VARIABLE: &str = "NUKASOBE_CRATE";
const DEFAULT: &str = "../../shared/docs/src";
const LIB_VARIABLE: &str = "NUKASOBE_LIB";
const LIB_DEFAULT: &str = "../target/host";

fn folder(variable: &str, default: &str) -> PathBuf {
    println!("cargo:rerun-if-env-changed={variable}");
    let here = PathBuf::from(env::var("CARGO_MANIFEST_DIR").unwrap());
    // a relative folder is meant from the compare folder, not from where cargo happens to stand
    here.join(env::var(variable).unwrap_or_else(|_| default.to_string()))
}

fn main() {
    println!("cargo:rerun-if-changed=build.rs");
    crate_source();
    our_archive();
}

fn crate_source() {
    let source = folder(VARIABLE, DEFAULT).join("src").join("dlmalloc.rs");
    println!("cargo:rustc-check-cfg=cfg(crate_there)");
    println!("cargo:rerun-if-changed={}", source.display());
    if source.is_file() {
        let out = env::var("OUT_DIR").unwrap();
        fs::copy(&source, Path::new(&out).join("dlmalloc.rs")).unwrap();
        println!("cargo:rustc-cfg=crate_there");
    }
}

fn our_archive() {
    let folder = folder(LIB_VARIABLE, LIB_DEFAULT);
    let archive = folder.join("libabi.a");
    println!("cargo:rustc-check-cfg=cfg(library_there)");
    println!("cargo:rerun-if-changed={}", archive.display());
    if archive.is_file() {
        println!("cargo:rustc-link-search=native={}", folder.display());
        println!("cargo:rustc-link-lib=static=abi");
        println!("cargo:rustc-cfg=library_there");
    }
}
