//! Links dist/<target>/libtoruxeng.a of this repository, or libtoruxeng.a from the folder that TORUXENG_ARCHIVE names.

use std::env;
use std::path::PathBuf;
use std::process::exit;

const TARGETS: &str = "x86_64-unknown-linux-gnu, aarch64-unknown-linux-gnu and aarch64-linux-android";

fn main() {
    println!("cargo:rerun-if-env-changed=TORUXENG_ARCHIVE");
    let folder = folder();
    let archive = folder.join("libtoruxeng.a");
    println!("cargo:rerun-if-changed={}", archive.display());
    if !archive.is_file() {
        eprintln!("no {}: `make archive` writes dist/<target>/libtoruxeng.a for {TARGETS}", archive.display());
        exit(1);
    }
    println!("cargo:rustc-link-search=native={}", folder.display());
    println!("cargo:rustc-link-lib=static=toruxeng");
}

/// A folder that is not absolute is looked for from this crate's own.
fn folder() -> PathBuf {
    let [own, target] = ["CARGO_MANIFEST_DIR", "TARGET"].map(|name| env::var_os(name).expect("cargo sets it for a build script"));
    let own = PathBuf::from(own);
    match env::var_os("TORUXENG_ARCHIVE") {
        Some(named) => own.join(named),
        // hosts/rust/toruxeng stands three folders below the repository's root
        None => own.ancestors().nth(3).unwrap_or(&own).join("dist").join(target),
    }
}
