//! Each wrong edit is named in docs/TRACE.md, under a sentence that it tries, and each that is named there is one.

use std::fs;
use std::path::{Path, PathBuf};

fn root() -> PathBuf {
    Path::new(env!("CARGO_MANIFEST_DIR")).join("../..")
}

/// What stands between backticks, by words.
fn names(text: &str) -> Vec<&str> {
    text.split('`').skip(1).step_by(2).collect()
}

/// The crate and the name of each edit.
fn edits() -> Vec<(String, String)> {
    let mut all = Vec::new();
    for crate_folder in fs::read_dir(root().join("crates")).unwrap() {
        let crate_folder = crate_folder.unwrap();
        let Ok(files) = fs::read_dir(crate_folder.path().join("must-fail")) else {
            continue;
        };
        for file in files {
            let file = file.unwrap().file_name().into_string().unwrap();
            let name = file.strip_suffix(".edit").expect("an edit");
            let of = crate_folder.file_name().into_string().unwrap();
            all.push((of, name.to_string()));
        }
    }
    all
}

#[test]
fn each_edit_tries_a_sentence() {
    let trace = fs::read_to_string(root().join("docs/TRACE.md")).unwrap();
    let named = names(&trace);
    let edits = edits();
    assert!(!edits.is_empty());
    for (of, name) in edits {
        let whole = format!("{of}/{name}");
        assert!(
            named.iter().any(|it| *it == name || *it == whole),
            "{whole}"
        );
    }
}

#[test]
fn each_edit_that_is_named_is_there() {
    let trace = fs::read_to_string(root().join("docs/TRACE.md")).unwrap();
    let is_word = |s: &str| {
        s.bytes()
            .all(|b| b.is_ascii_lowercase() || b.is_ascii_digit() || b == b'_')
    };
    for it in names(&trace) {
        let Some((of, name)) = it.split_once('/') else {
            continue;
        };
        let folder = root().join("crates").join(of);
        if is_word(name) && folder.is_dir() {
            assert!(
                folder
                    .join("must-fail")
                    .join(format!("{name}.edit"))
                    .is_file(),
                "{it}"
            );
        }
    }
}
