//! The program `knowetop`, run as a program: it prints what the reference does, to the byte.
//! `rt run` in `crates/knowetop` builds it.

use std::fs;
use std::io::Write;
use std::path::{Path, PathBuf};
use std::process::{Command, Stdio};

use reference::model::listing::printed;
use reference::tools::generate::{any_plan, plan, Shape, LIMITS};
use reference::tools::random::Random;

fn root() -> PathBuf {
    Path::new(env!("CARGO_MANIFEST_DIR")).join("..")
}

/// What the program prints for this standard input.
fn run(input: &[u8]) -> String {
    let program = root().join("crates/knowetop/out/knowetop");
    assert!(
        program.exists(),
        "no crates/knowetop/out/knowetop: run `rt run` in crates/knowetop first"
    );
    let mut running = Command::new(program)
        .stdin(Stdio::piped())
        .stdout(Stdio::piped())
        .spawn()
        .unwrap();
    // A program that has read enough may end before it is handed all of a long input.
    let _ = running.stdin.take().unwrap().write_all(input);
    let end = running.wait_with_output().unwrap();
    assert!(end.status.success());
    String::from_utf8(end.stdout).unwrap()
}

fn sample(name: &str) -> Vec<u8> {
    fs::read(root().join(format!("samples/{name}.plan"))).unwrap()
}

#[test]
fn prints_each_sample() {
    let first_lines = [
        ("b", "CLEAR 17"),
        ("b-without-order", "OPEN 12"),
        ("b-flag-set", "DOOMED 17"),
        ("branch-blocked", "OPEN 30"),
        ("calibration-optional", "CLEAR 63"),
        ("equal-waits", "CLEAR 18"),
        ("finish-together", "OPEN 10"),
        ("generated", "CLEAR 98"),
        ("large", "DOOMED 393546"),
        ("merged", "CLEAR 47"),
        ("nodes-128", "CLEAR 0"),
        ("one-task", "CLEAR 0"),
        ("sequence-found", "OPEN 45"),
        ("sister", "CLEAR 47"),
        ("fifteen-bytes", "REFUSED 1"),
        ("nodes-129", "REFUSED 2"),
        ("one-byte-more", "REFUSED 3"),
        ("minutes-10081", "REFUSED 6"),
    ];
    for (name, line) in first_lines {
        assert_eq!(run(&sample(name)).lines().next(), Some(line), "{name}");
    }
    for file in fs::read_dir(root().join("samples")).unwrap() {
        let path = file.unwrap().path();
        if path.extension().is_some_and(|e| e == "plan") {
            let bytes = fs::read(&path).unwrap();
            assert_eq!(run(&bytes), printed(&bytes), "{}", path.display());
        }
    }
}

#[test]
fn prints_b_as_the_document_does() {
    assert_eq!(run(&sample("b")), "CLEAR 17\nRADI 12\nSATL 12\nCAST 0\n");
}

#[test]
fn prints_equal_waits_by_name() {
    let lines = "CLEAR 18\nTMP- 12\nTMP2 12\nTMPA 12\nTMPA 12\nTMPB 12\nCAST 0\nPING 0\n";
    assert_eq!(run(&sample("equal-waits")), lines);
}

#[test]
fn reads_an_input_of_any_length() {
    for length in [0, 1, 5136, 5137, 5138, 100_000] {
        let mut bytes = sample("large");
        bytes.resize(length, 0);
        assert_eq!(run(&bytes), printed(&bytes), "{length} bytes");
    }
}

#[test]
fn prints_drawn_plans() {
    let mut random = Random::new(28);
    for _ in 0..300 {
        let bytes = any_plan(&mut random, LIMITS).bytes();
        assert_eq!(run(&bytes), printed(&bytes));
    }
    for _ in 0..40 {
        let bytes = plan(&mut random, LIMITS, Shape::BUSHY).bytes();
        assert_eq!(run(&bytes), printed(&bytes));
    }
}
