//! Links libcfdp.a, from the folder that CFDP_LIB names or from where link/archive.sh makes it.
use std::env::var;

fn main() {
    let here = var("CARGO_MANIFEST_DIR").expect("cargo sets it");
    let folder = var("CFDP_LIB").unwrap_or(format!("{here}/../../target/staticlib"));
    println!("cargo:rustc-link-search=native={folder}");
    println!("cargo:rustc-link-lib=static=cfdp");
    println!("cargo:rerun-if-changed={folder}/libcfdp.a");
    println!("cargo:rerun-if-env-changed=CFDP_LIB");
}
