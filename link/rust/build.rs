// Links the archive that link/archive.sh made.
fn main() {
    let archives = concat!(env!("CARGO_MANIFEST_DIR"), "/../../target/staticlib");
    println!("cargo:rustc-link-search=native={archives}");
    println!("cargo:rustc-link-lib=static=cfdp");
    println!("cargo:rerun-if-changed={archives}/libcfdp.a");
}
