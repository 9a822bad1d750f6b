//! The players of `examples/players`: they compile without a warning, and the judge of their soak run says what the kiosks' lines show.
//! The run itself is `./test --long`'s.

use std::fs;
use std::io::Write;
use std::path::{Path, PathBuf};
use std::process::{Command, Stdio};

fn players() -> PathBuf {
    Path::new(env!("CARGO_MANIFEST_DIR")).parent().expect("tests/ has a parent").join("examples/players")
}

#[test]
fn they_compile_without_a_warning_and_are_under_250_lines() {
    let mut lines = 0;
    for name in ["link.h", "keeper.c", "kiosk.c", "lossy.c"] {
        let file = players().join(name);
        let text = fs::read_to_string(&file).unwrap_or_else(|e| panic!("{name}: {e}"));
        // The bad network is the soak run's, not the players'.
        lines += if name == "lossy.c" { 0 } else { text.lines().count() };
        let output = Path::new(env!("CARGO_TARGET_TMPDIR")).join(format!("{name}.o"));
        let status = Command::new("cc")
            .args(["-std=c11", "-O2", "-Wall", "-Wextra", "-Werror", "-pedantic", "-Wno-unused-function", "-I"])
            .arg(players().join("../../include"))
            .args(["-x", "c", "-c"])
            .arg(&file)
            .arg("-o")
            .arg(&output)
            .status();
        assert!(status.expect("cc runs").success(), "{name}");
    }
    assert!(lines < 250, "{lines}");
}

/// Whether the judge accepts these lines as those of 4 seconds, and what it prints.
fn judged(lines: &[&str]) -> (bool, String) {
    let mut judge = Command::new(players().join("judge"))
        .args(["seconds=4", "kiosks=2", "-"])
        .stdin(Stdio::piped())
        .stdout(Stdio::piped())
        .spawn()
        .expect("the judge runs");
    let text: String = lines.iter().map(|line| format!("{line}\n")).collect();
    judge.stdin.take().expect("a pipe").write_all(text.as_bytes()).expect("the judge reads");
    let output = judge.wait_with_output().expect("the judge ends");
    (output.status.success(), String::from_utf8(output.stdout).expect("plain text"))
}

/// Two kiosks, one after the other: 2 turns in 2 seconds, 24 and 30 messages.
const GOOD: [&str; 6] = [
    "kiosk 1 try 1000000 0",
    "kiosk 2 try 1000100 0",
    "kiosk 1 in 1000200 8",
    "kiosk 1 out 2000000 24",
    "kiosk 2 in 2000001 20",
    "kiosk 2 out 3000000 30",
];

#[test]
fn turns_one_after_the_other_are_accepted() {
    assert_eq!(judged(&GOOD), (true, "2 turns of 2 kiosks, 1 a second, 27.0 messages a turn\n".into()));
}

/// The lines come sorted, `in` before `out` of the same microsecond: the judge is handed that order.
#[test]
fn two_inside_at_once_are_refused() {
    let mut overlap = GOOD;
    overlap.swap(3, 4);
    let (accepted, said) = judged(&overlap);
    assert!(!accepted && said.contains("wrong: kiosks 1 and 2 inside at once, at 2000001"), "{said}");
}

#[test]
fn a_kiosk_that_waits_is_silent_or_never_ran_is_refused() {
    let refused = |lines: &[&str], why: &str| {
        let (accepted, said) = judged(lines);
        assert!(!accepted && said.contains(why), "{why}: {said}");
    };
    refused(&GOOD[..5], "wrong: kiosk 2 had no turn");
    refused(&[GOOD[0], GOOD[2], GOOD[3]], "wrong: 1 kiosks");
    let third = ["kiosk 3 try 3000001 0", "kiosk 3 in 3000002 8", "kiosk 3 out 3000003 12"];
    refused(&[&GOOD[..], &third].concat(), "wrong: 3 kiosks");
    let late = ["kiosk 1 try 3000001 28", "kiosk 1 in 5000002 36", "kiosk 1 out 5000003 40"];
    refused(&[&GOOD[..], &late].concat(), "wrong: kiosk 1 waited from 3000001 to 5000002");
    // Of the first of four seconds.
    let early = [GOOD[0], GOOD[1], GOOD[2], "kiosk 1 out 1000300 24", "kiosk 2 in 2000001 20", GOOD[5]];
    refused(&early, "wrong: kiosk 1 says nothing after 1000300");
}

#[test]
fn what_is_no_line_of_a_kiosk_is_refused() {
    for line in ["", "bind: Address already in use", "kiosk 1 in", "keeper 1 in 1 0", "kiosk 1 inside 1 0"] {
        let (accepted, said) = judged(&[&GOOD[..], &[line]].concat());
        assert!(!accepted && said.contains("wrong: not a line of a kiosk"), "{line:?}: {said}");
    }
    assert!(!judged(&[]).0);
}
