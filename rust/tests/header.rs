//! Compiles a C program against the header and the archive, and runs it.
#![cfg(feature = "library")]

use std::path::Path;
use std::process::Command;

#[test]
fn c_program() {
    let root = Path::new(env!("CARGO_MANIFEST_DIR"));
    let program = Path::new(env!("CARGO_TARGET_TMPDIR")).join("header");
    let mut compiler = Command::new("cc");
    compiler.args(["-std=c11", "-Wall", "-Wextra", "-Wpedantic", "-Werror"]);
    compiler.arg("-I").arg(root.join("../include"));
    compiler.arg(root.join("tests/header.c")).arg(root.join("../target/staticlib/libexports.a"));
    assert!(compiler.arg("-o").arg(&program).status().expect("a C compiler").success());
    let run = Command::new(program).output().expect("the program runs");
    assert!(run.status.success(), "{}", String::from_utf8_lossy(&run.stdout));
}
