//! The program `plans`, run as a program.

use std::io::Write;
use std::process::{Command, Stdio};

const TEXT: &[u8] = include_bytes!("../../samples/b.txt");
const PLAN: &[u8] = include_bytes!("../../samples/b.plan");
const STATE: &[u8] = include_bytes!("../../samples/b.state");
const NOISY: &[u8] = include_bytes!("../../samples/branch-blocked.plan");
const OPPOSED: &[u8] = include_bytes!("../../samples/finish-together.plan");
const DOOMED: &[u8] = include_bytes!("../../samples/b-flag-set.plan");
const QUAY: &[u8] = include_bytes!("../../samples/members.plan");
const SKIPPED: &[u8] = include_bytes!("../../samples/calibration-optional.state");

/// Whether it succeeds, what it prints, and what it says on standard error.
fn run(arguments: &[&str], input: &[u8]) -> (bool, Vec<u8>, String) {
    let mut program = Command::new(env!("CARGO_BIN_EXE_plans"))
        .args(arguments)
        .stdin(Stdio::piped())
        .stdout(Stdio::piped())
        .stderr(Stdio::piped())
        .spawn()
        .unwrap();
    // A program that refuses its arguments may end before it is handed its input.
    let _ = program.stdin.take().unwrap().write_all(input);
    let end = program.wait_with_output().unwrap();
    let said = String::from_utf8(end.stderr).unwrap();
    (end.status.success(), end.stdout, said)
}

#[test]
fn makes_and_shows() {
    assert_eq!(run(&["make"], TEXT), (true, PLAN.to_vec(), String::new()));
    assert_eq!(run(&["show"], PLAN), (true, TEXT.to_vec(), String::new()));
}

#[test]
fn refuses_with_the_number() {
    let refused = |number| (false, Vec::new(), format!("REFUSED {number}\n"));
    assert_eq!(run(&["show"], &PLAN[..81]), refused(3));
    assert_eq!(run(&["make"], b"flags 1\n0 TASK task 10081\n"), refused(6));
}

#[test]
fn lists_as_the_checker_prints() {
    let printed = |text: &str| (true, text.as_bytes().to_vec(), String::new());
    let b = "CLEAR 17\nRADI 12\nSATL 12\nCAST 0\n";
    assert_eq!(run(&["list"], PLAN), printed(b));
    assert_eq!(run(&["list"], &PLAN[..81]), printed("REFUSED 3\n"));
    assert_eq!(run(&["list"], b""), printed("REFUSED 1\n"));
}

#[test]
fn says_what_to_block() {
    let said = |text: &str| (true, text.as_bytes().to_vec(), String::new());
    let open = "OPEN: it is CLEAR with one of these blocked\n";
    assert_eq!(run(&["block"], NOISY), said(&format!("{open}4 FULL\n")));
    let made = |text: &str| run(&["make"], text.as_bytes()).1;
    // Two branches of which either will do, one of them under the other's sibling.
    let two = made(
        "flags 1\n0 ROOT all-of\n1 A--- task 0 under 0 leaves 0-set\n2 DROP optional under 0\n\
         3 PICK any-of under 2\n4 C--- task 0 under 3 leaves 0-clear\n5 D--- task 0 under 3\n",
    );
    let both = format!("{open}3 PICK\n4 C---\n");
    assert_eq!(run(&["block"], &two), said(&both));
    let neither = made(
        "flags 1\n0 ROOT any-of\n1 A--- task 0 under 0 needs 0-set\n\
         2 B--- task 0 under 0 needs 0-set\n3 C--- task 0 under 0\n",
    );
    let none = "OPEN: no single branch, blocked, makes it CLEAR\n";
    assert_eq!(run(&["block"], &neither), said(none));
    let alone = "OPEN: no branch can be blocked alone\n";
    assert_eq!(run(&["block"], OPPOSED), said(alone));
    assert_eq!(
        run(&["block"], PLAN),
        said("CLEAR: nothing has to be blocked\n")
    );
    let doomed = "DOOMED: it stays so, whatever is blocked\n";
    assert_eq!(run(&["block"], DOOMED), said(doomed));
    let refused = (false, Vec::new(), "REFUSED 3\n".to_string());
    assert_eq!(run(&["block"], &PLAN[..81]), refused);
}

#[test]
fn says_the_answer_for_members() {
    let said = |text: &str| (true, text.as_bytes().to_vec(), String::new());
    let quay = |members: &[&str]| run(&[&["members"], members].concat(), QUAY);
    assert_eq!(quay(&["7"]), said("CLEAR: with these aboard\n7 ELEC\n"));
    let two = "OPEN: with these aboard\n7 ELEC\n1 RINS\n";
    assert_eq!(quay(&["7", "1"]), said(two));
    let not = |text: &str| (false, Vec::new(), format!("{text}\n"));
    assert_eq!(quay(&["1", "11"]), not("11 is no node"));
    assert_eq!(quay(&["2"]), not("2 is no child of an all-of root"));
    assert_eq!(quay(&["1", "4", "1"]), not("1 is aboard already"));
    assert_eq!(quay(&["one"]), not("one is no number"));
    assert_eq!(run(&["members", "1"], &QUAY[..132]), not("REFUSED 3"));
    let (succeeds, printed, usage) = quay(&[]);
    assert!(!succeeds && printed.is_empty() && usage.contains("plans members NODE .. < PLAN"));
}

#[test]
fn draws_what_it_shows() {
    let (drawn, plan, _) = run(&["draw", "7"], b"");
    let (shown, text, _) = run(&["show"], &plan);
    assert!(drawn && shown);
    assert_eq!(run(&["make"], &text), (true, plan, String::new()));
}

#[test]
fn shows_a_skipped_group() {
    let path = concat!(
        env!("CARGO_MANIFEST_DIR"),
        "/../samples/calibration-optional.plan"
    );
    let shown = "set 0 1\n0 DOWN unfinished\n1 LOWR done\n2 CALI skipped\n3 TONE waiting\n\
         4 QUIK waiting\n5 PING running\nplace 1 task 1 LOWR\nplace 2 task 5 PING\n";
    let want = (true, shown.as_bytes().to_vec(), String::new());
    assert_eq!(run(&["state", path], SKIPPED), want);
}

#[test]
fn shows_a_state() {
    let path = concat!(env!("CARGO_MANIFEST_DIR"), "/../samples/b.plan");
    let shown = |text: &str| (true, text.as_bytes().to_vec(), String::new());
    let at_first = "0 MOOR unfinished\n1 CAST waiting\n2 COMS unfinished\n3 RADI waiting\n\
         4 SATL waiting\n";
    assert_eq!(run(&["state", path], &[0; 23]), shown(at_first));
    let begun = "set 1\n0 MOOR unfinished\n1 CAST done\n2 COMS unfinished\n3 RADI waiting\n\
         4 SATL running\nplace 1 task 1 CAST\nplace 2 task 4 SATL\n";
    assert_eq!(run(&["state", path], STATE), shown(begun));
    let refused = |number| (false, Vec::new(), format!("REFUSED {number}\n"));
    assert_eq!(run(&["state", path], &[0; 22]), refused(15));
    assert_eq!(run(&["state", path], &[255; 23]), refused(16));
    let text = concat!(env!("CARGO_MANIFEST_DIR"), "/../samples/b.txt");
    assert_eq!(run(&["state", text], &[0; 23]), refused(2));
}
