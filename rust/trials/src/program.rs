//! The repository's programs, run by their files.

use std::env;
use std::io::{self, Write};
use std::path::{Path, PathBuf};
use std::process::{Command, Output, Stdio};
use std::thread;

/// A program's file: what `PRTR_NAME` names, or else crates/name/out/name of the repository.
pub fn path(name: &str) -> PathBuf {
    let crates = Path::new(env!("CARGO_MANIFEST_DIR")).join("../../crates");
    let named = env::var_os(format!("PRTR_{}", name.to_uppercase()));
    named.map_or(crates.join(name).join("out").join(name), PathBuf::from)
}

/// A program's file, which must be there.
pub fn built(name: &str) -> PathBuf {
    let program = path(name);
    assert!(
        program.is_file(),
        "there is no program {}; `rt run`, in crates/{name}, builds it",
        program.display()
    );
    program
}

/// What a program prints for an input, which it may leave half read.
pub fn output(program: &Path, input: &[u8]) -> io::Result<Output> {
    fed(program, input, usize::MAX)
}

/// The same, where the input comes through the pipe in parts of so many bytes.
pub fn fed(program: &Path, input: &[u8], size: usize) -> io::Result<Output> {
    let mut command = Command::new(program);
    let mut child = command
        .stdin(Stdio::piped())
        .stdout(Stdio::piped())
        .stderr(Stdio::piped())
        .spawn()?;
    let mut stdin = child.stdin.take().expect("a pipe was asked for");
    thread::scope(|scope| {
        scope.spawn(move || {
            input
                .chunks(size)
                .try_for_each(|part| stdin.write_all(part))
        });
        child.wait_with_output()
    })
}

/// The text of a program that could read all and write all; panics with what it said else.
pub fn text(out: Output) -> Vec<u8> {
    let said = String::from_utf8_lossy(&out.stderr);
    assert!(
        out.status.success() && said.is_empty(),
        "ended with {} and said: {said}",
        out.status
    );
    out.stdout
}
