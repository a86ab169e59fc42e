//! Links the proved library that `tools/staticlib.sh` writes, and the peer, which is built here for this machine. The
//! proved library is made a shared one as well, to be opened beside that of another commit.

use std::env;
use std::path::{Path, PathBuf};
use std::process::Command;

const LIBRARY: &str = "libcapi.a";
const PEER: &str = "src/peer.c";
const PEER_FLAGS: [&str; 7] = ["-std=c11", "-O3", "-march=native", "-Wall", "-Wextra", "-Werror", "-c"];

fn main() {
    let [package, built] =
        ["CARGO_MANIFEST_DIR", "OUT_DIR"].map(|name| PathBuf::from(env::var(name).expect("cargo names its folders")));
    link_library(&package.join("../target/staticlib"), &built.join("capi.so"));
    build_peer(&package, &built);
}

fn link_library(folder: &Path, shared: &Path) {
    let library = folder.join(LIBRARY);
    println!("cargo::rerun-if-changed={}", library.display());
    if !library.exists() {
        println!("cargo::error=target/staticlib/{LIBRARY} is missing: first run `tools/staticlib.sh` at the root");
        return;
    }
    println!("cargo::rustc-link-search=native={}", folder.display());
    println!("cargo::rustc-link-lib=static=capi");
    let [whole, rest] = ["-Wl,--whole-archive", "-Wl,--no-whole-archive"];
    run(Command::new("cc").args(["-shared", "-o"]).arg(shared).arg(whole).arg(library).arg(rest));
    println!("cargo::rustc-env=SHARED_CAPI={}", shared.display());
}

fn build_peer(package: &Path, built: &Path) {
    let (source, headers, object) = (package.join(PEER), package.join("../include"), built.join("peer.o"));
    println!("cargo::rerun-if-changed={}", source.display());
    println!("cargo::rerun-if-changed={}", headers.display());
    run(Command::new("cc").args(PEER_FLAGS).arg("-I").arg(headers).arg(source).arg("-o").arg(&object));
    run(Command::new("ar").arg("crs").arg(built.join("libpeer.a")).arg(object));
    println!("cargo::rustc-link-search=native={}", built.display());
    println!("cargo::rustc-link-lib=static=peer");
}

/// What the command says where it fails is shown as cargo's errors.
fn run(command: &mut Command) {
    match command.output() {
        Ok(output) if output.status.success() => (),
        Ok(output) => String::from_utf8_lossy(&output.stderr).lines().for_each(|line| println!("cargo::error={line}")),
        Err(error) => println!("cargo::error={command:?}: {error}"),
    }
}
