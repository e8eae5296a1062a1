//! Links librovinuset.a out of the project's target folder, or out of the folder that ROVINUSET_LIB names.
use std::{env, path::PathBuf};

fn main() {
    let here = PathBuf::from(env::var_os("CARGO_MANIFEST_DIR").expect("cargo sets it"));
    let folder = env::var_os("ROVINUSET_LIB").map_or_else(|| here.join("../../target"), PathBuf::from);
    let archive = folder.join("librovinuset.a");
    assert!(archive.is_file(), "no {}: './rovinuset archive' makes it", archive.display());
    println!("cargo:rustc-link-search=native={}", folder.display());
    println!("cargo:rustc-link-lib=static=rovinuset");
    println!("cargo:rerun-if-changed={}", archive.display());
    println!("cargo:rerun-if-env-changed=ROVINUSET_LIB");
}
