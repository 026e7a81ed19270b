//! Links `libvullades.a` from the folder that `VULLADES_LIB` names, or from the one where the repository builds it.

use std::env;
use std::path::{Path, PathBuf};

fn main() {
    let here = PathBuf::from(env::var_os("CARGO_MANIFEST_DIR").expect("cargo names the package"));
    let folder = here.join(env::var_os("VULLADES_LIB").unwrap_or("../../build".into()));
    println!("cargo::rerun-if-env-changed=VULLADES_LIB");
    println!("cargo::rerun-if-changed=build.rs");
    println!("cargo::rerun-if-changed={}", archive(&folder).display());
    println!("cargo::rustc-link-search=native={}", folder.display());
    println!("cargo::rustc-link-lib=static=vullades");
}

/// The archive in a folder, which is to be there.
fn archive(folder: &Path) -> PathBuf {
    let archive = folder.join("libvullades.a");
    assert!(archive.is_file(), "there is no {}", archive.display());
    archive
}
