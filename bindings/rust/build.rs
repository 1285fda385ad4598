//! Links libabi.a from the folder that NUKASOBE_LIB names, else from where compare/build_library.sh puts it.
use std::env;
use std::path::PathBuf;

const VARIABLE: &str = "NUKASOBE_LIB";
const DEFAULT: &str = "../../target/host";

fn main() {
    let here = PathBuf::from(env::var("CARGO_MANIFEST_DIR").unwrap());
    // a relative folder is meant from this crate's folder
    let folder = here.join(env::var(VARIABLE).unwrap_or_else(|_| DEFAULT.to_string()));
    let archive = folder.join("libabi.a");
    println!("cargo::rerun-if-env-changed={VARIABLE}");
    println!("cargo::rerun-if-changed={}", archive.display());
    println!("cargo::rerun-if-changed=build.rs");
    if archive.is_file() {
        println!("cargo::rustc-link-search=native={}", folder.display());
        println!("cargo::rustc-link-lib=static=abi");
    } else {
        println!("cargo::error=no libabi.a in {}: run compare/build_library.sh, or let {VARIABLE} name the folder that has it", folder.display());
    }
}
