//! Links the proved archive, from the directory of PRTR_LIB or from crates/prtr/out of the repository.

use std::env;
use std::path::{Path, PathBuf};
use std::process::exit;

/// The directory that should hold the archive.
fn directory() -> PathBuf {
    match env::var_os("PRTR_LIB") {
        Some(named) => PathBuf::from(named),
        None => Path::new(env!("CARGO_MANIFEST_DIR")).join("../../crates/prtr/out"),
    }
}

fn main() {
    let archive = directory().join("libprtr.a");
    println!("cargo:rerun-if-env-changed=PRTR_LIB");
    println!("cargo:rerun-if-changed={}", archive.display());
    let Ok(archive) = archive.canonicalize() else {
        eprintln!("There is no archive {}.", archive.display());
        eprintln!("Build it with `rt lib` in crates/prtr of the repository,");
        eprintln!("or set PRTR_LIB to the whole path of the directory that holds libprtr.a.");
        exit(1);
    };
    let directory = archive.parent().expect("a file is in a directory");
    println!("cargo:rustc-link-search=native={}", directory.display());
    println!("cargo:rustc-link-lib=static=prtr");
    // Given to the build scripts of packages that use this one, as DEP_PRTR_ARCHIVE.
    println!("cargo:archive={}", archive.display());
}
