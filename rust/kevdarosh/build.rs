//! Links libkevdarosh.a, which `tools/library DIR` makes. KEVDAROSH_LIB names that folder, from where cargo was called or from this package if it is a relative path; without it target/library of
//! the repository is taken.

use std::env::var_os;
use std::path::{Path, PathBuf};

const ARCHIVE: &str = "libkevdarosh.a";

fn main() {
    println!("cargo:rerun-if-env-changed=KEVDAROSH_LIB");
    let package = PathBuf::from(var_os("CARGO_MANIFEST_DIR").expect("cargo says where the package is"));
    let folder = var_os("KEVDAROSH_LIB").map_or_else(|| Path::new("../../target/library").into(), PathBuf::from);
    // A build script runs in the package's folder; a shell leaves in PWD where cargo was called. An absolute folder stays as it is.
    let tried: Vec<PathBuf> = var_os("PWD").map(PathBuf::from).into_iter().chain([package]).map(|from| from.join(&folder)).collect();
    let Some(folder) = tried.iter().find(|folder| folder.join(ARCHIVE).exists()) else {
        panic!("no {ARCHIVE} in {tried:?}: make it with `tools/library DIR` of the repository, and let KEVDAROSH_LIB name DIR");
    };
    let folder = folder.canonicalize().expect("the archive was found in it");
    println!("cargo:rerun-if-changed={}", folder.join(ARCHIVE).display());
    println!("cargo:rustc-link-search=native={}", folder.display());
    println!("cargo:rustc-link-lib=static=kevdarosh");
}
