//! C that a test compiles.

use std::env;
use std::process::Command;

/// What stands in `variable` alone, where it is set, or else the first of the usual names that answers.
pub fn compiler(variable: &str, usual: [&str; 3]) -> Option<String> {
    if let Ok(named) = env::var(variable) {
        return Some(named);
    }
    let answers = |name: &&str| {
        let out = Command::new(name).arg("--version").output();
        out.is_ok_and(|out| out.status.success())
    };
    usual.into_iter().find(answers).map(String::from)
}

/// A C compiler with every warning an error.
pub fn command() -> Command {
    let compiler = compiler("CC", ["cc", "gcc", "clang"])
        .expect("there is no C compiler (cc, gcc or clang), and CC names none");
    strict(&compiler)
}

/// A compiler with every warning an error.
pub fn strict(compiler: &str) -> Command {
    let mut command = Command::new(compiler);
    command.args(["-O2", "-Wall", "-Wextra", "-Wpedantic", "-Werror"]);
    command
}

/// Stops with what the compiler says, where it says no.
pub fn compile(command: &mut Command) {
    let out = command
        .output()
        .unwrap_or_else(|fault| panic!("{command:?}: {fault}"));
    let said = String::from_utf8_lossy(&out.stderr);
    assert!(out.status.success(), "{command:?}: {said}");
}
