//! Finds the original sources, checks that they are the ones that the project was written against, and tells the
//! crate where they are. Nothing of them is copied.
//!
//! The folder is CHITCHAT_SRC, or else `../shared/docs/src` seen from the project's root or from a folder above it.

use std::path::{Path, PathBuf};
use std::process::Command;

fn original(oracle: &Path) -> PathBuf {
    println!("cargo:rerun-if-env-changed=CHITCHAT_SRC");
    if let Some(folder) = std::env::var_os("CHITCHAT_SRC") {
        return PathBuf::from(folder);
    }
    oracle
        .ancestors()
        .map(|above| above.join("shared/docs/src"))
        .find(|folder| folder.join("chitchat/src/state.rs").is_file())
        .expect(
            "the original sources are not beside the project: set CHITCHAT_SRC to the folder that holds chitchat/src",
        )
}

fn main() {
    let here = PathBuf::from(std::env::var_os("CARGO_MANIFEST_DIR").unwrap());
    let oracle = here.parent().unwrap().canonicalize().unwrap();
    let original = original(&oracle).canonicalize().expect("CHITCHAT_SRC names no folder");
    let sums = oracle.join("SHA256SUMS");

    let checked = Command::new("sha256sum")
        .args(["--check", "--strict", "--quiet"])
        .arg(&sums)
        .current_dir(&original)
        .status()
        .expect("sha256sum runs");
    assert!(checked.success(), "the original sources are not those of SHA256SUMS");

    println!("cargo:rerun-if-changed={}", sums.display());
    println!("cargo:rerun-if-changed={}", original.join("chitchat/src").display());
    println!("cargo:rustc-env=CHITCHAT={}", original.join("chitchat/src").display());
    println!("cargo:rustc-check-cfg=cfg(original_listener)");
    println!("cargo:rustc-check-cfg=cfg(feature, values(\"testsuite\"))");
    if std::env::var("CARGO_PKG_NAME").unwrap() == "judge-listener" {
        println!("cargo:rustc-cfg=original_listener");
    }
}
