//! A case that failed, as files under target/differences.

use std::any::Any;
use std::fs;
use std::panic::{catch_unwind, AssertUnwindSafe};
use std::path::{Path, PathBuf};

/// What a side answers, or the words of its panic.
pub fn caught<A>(side: impl FnOnce() -> A) -> Result<A, String> {
    catch_unwind(AssertUnwindSafe(side)).map_err(|panic| words(&*panic))
}

/// A side's text; the words of its panic behind its name, which the other side never prints.
pub fn text(name: &str, side: impl FnOnce() -> Vec<u8>) -> Vec<u8> {
    caught(side).unwrap_or_else(|words| format!("{name} panicked: {words}\n").into_bytes())
}

fn words(panic: &(dyn Any + Send)) -> String {
    let fixed = panic.downcast_ref::<&str>().map(|words| words.to_string());
    fixed
        .or_else(|| panic.downcast_ref::<String>().cloned())
        .unwrap_or_else(|| "without words".into())
}

/// Writes an input, and what was said of it beside it with the ending txt; gives the input's path.
pub fn write(name: &str, input: &[u8], said: &str) -> PathBuf {
    let path = path(name, input);
    fs::write(&path, input).expect("the case is written");
    fs::write(path.with_extension("txt"), said).expect("what was said is written");
    path
}

/// A path that the input's bytes name.
fn path(name: &str, input: &[u8]) -> PathBuf {
    let folder = Path::new(env!("CARGO_MANIFEST_DIR")).join("../target/differences");
    fs::create_dir_all(&folder).expect("the folder of differences is made");
    let hash = input.iter().fold(0xcbf2_9ce4_8422_2325u64, |hash, &byte| {
        (hash ^ byte as u64).wrapping_mul(0x0000_0100_0000_01b3)
    });
    folder.join(format!("{}-{hash:016x}.case", name.replace(' ', "-")))
}

/// What both sides said, after the first line in which they differ.
pub fn both(library: &[u8], model: &[u8]) -> String {
    let [library, model] = [library, model].map(String::from_utf8_lossy);
    let line = library
        .lines()
        .zip(model.lines())
        .take_while(|(one, other)| one == other)
        .count();
    format!("differing from line {line} on, counted from 0\nlibrary:\n{library}\nmodel:\n{model}\n")
}
