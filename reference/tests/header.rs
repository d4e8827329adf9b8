//! The header of the C interface: a program that makes every call compiles as C and as C++ without
//! a warning, and what it finds is what 01 says.

use std::fs;
use std::path::{Path, PathBuf};
use std::process::Command;

const WARNINGS: [&str; 4] = ["-Wall", "-Wextra", "-Werror", "-pedantic"];

fn root() -> PathBuf {
    Path::new(env!("CARGO_MANIFEST_DIR")).join("..")
}

fn source() -> PathBuf {
    root().join("reference/tests/header/every_call.c")
}

/// Compiles the program in this language, links the archive, and runs it on B.
fn compiles_and_runs(compiler: &str, language: &str, standard: &str) {
    let program = Path::new(env!("CARGO_TARGET_TMPDIR")).join(format!("every_call_{standard}"));
    let compiled = Command::new(compiler)
        .args(WARNINGS)
        .arg(format!("-std={standard}"))
        .arg("-I")
        .arg(root().join("crates/capi"))
        .args(["-x", language])
        .arg(source())
        .args(["-x", "none"])
        .arg(root().join("crates/capi/out/libcapi.a"))
        .arg("-o")
        .arg(&program)
        .status();
    assert!(compiled.expect(compiler).success(), "{compiler}");
    let ran = Command::new(program)
        .arg(root().join("samples/b.plan"))
        .status();
    assert!(ran.unwrap().success());
}

#[test]
fn as_c() {
    compiles_and_runs("cc", "c", "c11");
}

#[test]
fn as_cpp() {
    compiles_and_runs("c++", "c++", "c++17");
}

/// The program makes every call that the header declares.
#[test]
fn makes_every_call() {
    let header = fs::read_to_string(root().join("crates/capi/knowetop.h")).unwrap();
    let program = fs::read_to_string(source()).unwrap();
    let declared = header.lines().filter_map(|line| {
        let mut returned = ["uint32_t ", "uint64_t "].into_iter();
        let rest = returned.find_map(|kind| line.strip_prefix(kind))?;
        Some(rest.split_once('(')?.0)
    });
    let declared: Vec<&str> = declared.collect();
    assert_eq!(declared.len(), 15);
    for call in declared {
        assert!(program.contains(&format!("{call}(")), "{call}");
    }
}
