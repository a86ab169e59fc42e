//! Links the proved library that `tools/staticlib.sh` writes.

use std::env;
use std::path::PathBuf;

const LIBRARY: &str = "libcapi.a";

fn main() {
    let package = PathBuf::from(env::var("CARGO_MANIFEST_DIR").expect("cargo names the package's folder"));
    let folder = package.join("../../target/staticlib");
    let library = folder.join(LIBRARY);
    println!("cargo::rerun-if-changed={}", library.display());
    if !library.exists() {
        println!("cargo::error=target/staticlib/{LIBRARY} is missing: first run `tools/staticlib.sh` at the root");
        return;
    }
    println!("cargo::rustc-link-search=native={}", folder.display());
    println!("cargo::rustc-link-lib=static=capi");
}
