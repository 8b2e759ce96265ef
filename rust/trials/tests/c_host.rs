//! A C program over the header and the archive prints document 01's figures.

use std::path::Path;
use std::process::Command;

use trials::c::{self, compile};
use trials::trial::say;

/// The C program and the header added to a compiler's command.
fn add_program(command: &mut Command, options: &[&str]) {
    let package = Path::new(env!("CARGO_MANIFEST_DIR"));
    command
        .args(options)
        .arg("-I")
        .arg(package.join("../../include"))
        .arg(package.join("tests/c/figures.c"));
}

#[test]
fn c_prints_the_papers_figures() {
    let program = Path::new(env!("CARGO_TARGET_TMPDIR")).join("figures");
    let mut command = c::command();
    add_program(&mut command, &["-std=c11", "-Wstrict-prototypes"]);
    // The archive that this test is linked with too.
    command.arg(env!("PRTR_ARCHIVE")).arg("-o").arg(&program);
    compile(&mut command);
    let out = Command::new(&program).output().expect("the program runs");
    assert!(out.status.success());
    assert_eq!(
        String::from_utf8_lossy(&out.stdout),
        include_str!("c/figures.txt")
    );
}

#[test]
fn the_header_is_cpp_too() {
    let Some(compiler) = c::compiler("CXX", ["c++", "g++", "clang++"]) else {
        say("skipped: there is no C++ compiler (c++, g++ or clang++), and CXX names none");
        return;
    };
    let mut command = c::strict(&compiler);
    let options = ["-x", "c++", "-std=c++11", "-fsyntax-only"];
    add_program(&mut command, &options);
    compile(&mut command);
}
