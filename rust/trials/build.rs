//! Tells the tests which archive was linked, so that the C program links the same one.

use std::env;

fn main() {
    let archive = env::var("DEP_PRTR_ARCHIVE").expect("prtr's build script names its archive");
    println!("cargo:rerun-if-changed=build.rs");
    println!("cargo:rustc-env=PRTR_ARCHIVE={archive}");
}
