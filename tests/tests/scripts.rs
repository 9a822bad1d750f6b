//! The model's gallery program: the scripts of tests/scripts with their whole outputs, every form of a bad line, and the
//! limits of a script.

use sigma_tests::fault::Fault;
use sigma_tests::files::{contents, names};
use sigma_tests::players::WIDE;
use sigma_tests::script::{line_of, run, run_by, run_with};
use sigma_tests::setting::Setting;
use std::collections::BTreeSet;

fn output(script: &[u8]) -> String {
    String::from_utf8(run(script)).expect("the output is plain text")
}

#[test]
fn each_script_has_its_whole_output() {
    let scripts = names("script");
    assert_eq!(scripts, names("expected"));
    assert!(scripts.len() >= 30, "{scripts:?}");
    for name in scripts {
        let expected = String::from_utf8(contents(&format!("{name}.expected"))).expect("plain text");
        assert_eq!(output(&contents(&format!("{name}.script"))), expected, "{name}");
    }
}

#[test]
fn the_table_says_why_each_script_is_there() {
    let page = String::from_utf8(contents("README.md")).expect("plain text");
    let rows: Vec<&str> = page.lines().filter_map(|line| line.strip_prefix("| `")).collect();
    let names_in = rows.iter().filter_map(|row| row.split_once("` | ")).map(|(name, _)| name.into());
    let named: BTreeSet<String> = names_in.collect();
    assert_eq!((named, rows.len()), (names("script"), names("script").len()));
}

/// The largest ticket of all grows by one at a try or an exit at most: refusal 11 would take more of them than a script has lines.
#[test]
fn the_scripts_meet_every_refusal_that_a_script_can() {
    let (mut first, mut event) = (BTreeSet::new(), BTreeSet::new());
    for name in names("expected") {
        for line in String::from_utf8(contents(&format!("{name}.expected"))).expect("plain text").lines() {
            match line.split(' ').collect::<Vec<_>>()[..] {
                ["no", refusal] => first.insert(refusal.to_string()),
                [_, "no", refusal] => event.insert(refusal.to_string()),
                _ => false,
            };
        }
    }
    assert_eq!(first, ["16", "7"].map(String::from).into());
    assert_eq!(event, ["10", "15", "16", "17", "18", "19", "20"].map(String::from).into());
}

/// Kiosks without a clock print the same for every script but one: in no other does a kiosk try below what it has seen.
#[test]
fn the_clock_shows_in_one_script() {
    let shows = |name: &String| {
        let script = contents(&format!("{name}.script"));
        run_by(WIDE, &script) != run(&script)
    };
    assert_eq!(names("script").into_iter().filter(shows).collect::<Vec<_>>(), ["newcomer"]);
}

/// A program with one of the faults that document 01 tells of prints something else for one of the scripts at least.
#[test]
fn each_fault_shows_in_a_script() {
    for fault in [Fault::AnswersOwner, Fault::KeepsAnswers, Fault::CountsOldTicket, Fault::ComesTwice] {
        let wrong = |name: &String| {
            let script = contents(&format!("{name}.script"));
            run_with(&script, fault) != contents(&format!("{name}.expected"))
        };
        let shown: Vec<String> = names("script").into_iter().filter(wrong).collect();
        println!("{fault:?}: {shown:?}");
        assert!(!shown.is_empty(), "{fault:?}");
    }
}

/// The same as the file, but from document 01's page.
#[test]
fn the_example() {
    let script = b"setting 2 1 0 2\ntry 1\ntake 1\ntake 3\ntry 2\ntake 5\ntake 6\n";
    let expected = "gallery 2 1 0 2\n1 ok 2 0\n2 ok 1 0\n3 ok 0 1\n4 ok 2 1\n5 ok 1 1\n6 ok 0 2\nend 6 2 0\n";
    assert_eq!(output(script), expected);
    assert_eq!(output(&script[..script.len() - 1]), expected, "the last newline may be missing");
}

/// Every unsafe run, as a script.
#[test]
fn unsafe_runs_as_scripts() {
    let mut scripts = 0;
    for setting in Setting::all(31).into_iter().filter(|s| s.margin() <= 0) {
        let Setting { n, m, f } = setting;
        let run = setting.unsafe_run();
        let mut script = format!("setting {n} {m} {f} 2\n");
        run.iter().for_each(|&event| script += &format!("{}\n", line_of(event)));
        let out = output(script.as_bytes());
        assert!(out.ends_with(&format!("\nend {} 2 {}\n", run.len(), setting.restarted())), "{script}{out}");
        assert!(!out.contains(" no "), "{script}{out}");
        scripts += 1;
    }
    assert!(scripts > 5000, "{scripts}");
}

/// An event line alone in a gallery where `try 1` was made, so that messages 1 and 2 wait.
fn answer(line: &[u8]) -> String {
    let script = [b"setting 2 1 0 2\ntry 1\n", line, b"\ntry 2\n"].concat();
    let out = output(&script);
    let lines: Vec<&str> = out.lines().collect();
    assert_eq!(lines[3..4], ["3 ok 2 0"], "the line behind it is the next event");
    lines[2].strip_prefix("2 ").expect("the second line's number").to_string()
}

#[test]
fn bad_event_lines() {
    #[rustfmt::skip]
    let bad: [&[u8]; 34] = [
        b"", b" ", b"take", b"take ", b" take 1", b"take 1 ", b"take  1", b"take 1 1", b"take\t1", b"take 1\r", b"\r",
        b"take 1\0", b"\0", b"take \x81", b"\xff", b"Take 1", b"TAKE 1", b"tak 1", b"takes 1", b"take1", b"take 01",
        b"take 00", b"take +1", b"take -1", b"take -0", b"take 1.0", b"take 0x1", b"take 1e0", b"take one", b"1", b"1 take",
        b"take 4294967296", b"take 18446744073709551617", b"setting 2 1 0 2",
    ];
    for line in bad {
        assert_eq!(answer(line), "no 16", "{:?}", String::from_utf8_lossy(line));
    }
    assert_eq!(answer(b"take 1"), "ok 1 0");
}

/// Each byte but a newline in each place of a good line, and put before it, in it and behind it.
#[test]
fn one_wrong_byte() {
    let good = b"take 1";
    let mut accepted = BTreeSet::new();
    for byte in (0..=255u8).filter(|&b| b != b'\n') {
        for at in 0..=good.len() {
            let inserted = [&good[..at], &[byte], &good[at..]].concat();
            let mut lines = vec![inserted];
            if at < good.len() {
                lines.push([&good[..at], &[byte], &good[at + 1..]].concat());
            }
            for line in lines.into_iter().filter(|line| answer(line) != "no 16") {
                accepted.insert(line);
            }
        }
    }
    let number = |n: &[u8]| [b"take ", n].concat();
    let expected: BTreeSet<Vec<u8>> = (b'0'..=b'9')
        .flat_map(|d| [vec![d], vec![d, b'1'], vec![b'1', d]])
        .filter(|n| n.len() == 1 || n[0] != b'0')
        .map(|n| number(&n))
        .collect();
    assert_eq!(accepted, expected);
}

#[test]
fn numbers_that_nothing_has() {
    for line in ["take 0", "drop 0", "try 0", "down 0", "take 3", "take 4294967295", "try 3", "fall 257", "exit 65537"] {
        assert_eq!(answer(line.as_bytes()), "no 17", "{line}");
    }
    for line in ["up 258", "miss 65536", "check 4294967295", "down 3"] {
        assert_eq!(answer(line.as_bytes()), "no 17", "{line}");
    }
}

/// A line of any length is one line. Only the first can be well formed past 40 bytes.
#[test]
fn long_lines() {
    for length in [40, 41, 42, 79, 80, 81, 82, 4096, 100_000] {
        let line = [b"take ".as_slice(), &vec![b'9'; length - 5]].concat();
        assert_eq!(answer(&line), "no 16", "{length} bytes");
        let spaces = [b"take 1".as_slice(), &vec![b' '; length - 6]].concat();
        assert_eq!(answer(&spaces), "no 16", "{length} bytes");
        // Behind the 40th byte there is a good line, but not a line of its own.
        let behind = [vec![b'x'; 40].as_slice(), b"take 1"].concat();
        assert_eq!(answer(&behind), "no 16");
    }
    assert_eq!(output(b"setting 4294967295 4294967295 42949672 1"), "no 7\n");
    assert_eq!(output(b"setting 4294967295 4294967295 429496729 1"), "no 16\n");
    let last = b"setting 1 1 0 1\ntake 9999999999999999999999999999999999999";
    assert_eq!(output(last), "gallery 1 1 0 1\n1 no 16\nend 0 0 0\n");
}

#[test]
fn ends_of_input() {
    let alone = "gallery 4 3 1 2\nend 0 0 0\n";
    assert_eq!(output(b"setting 4 3 1 2"), alone);
    assert_eq!(output(b"setting 4 3 1 2\n"), alone);
    assert_eq!(output(b"setting 4 3 1 2\n\n"), "gallery 4 3 1 2\n1 no 16\nend 0 0 0\n");
    assert_eq!(output(b"setting 4 3 1 2\n\n\n"), "gallery 4 3 1 2\n1 no 16\n2 no 16\nend 0 0 0\n");
    for nothing in [b"".as_slice(), b"\n", b"\n\n", b"\nsetting 4 3 1 2\n", b" ", b"\0"] {
        assert_eq!(output(nothing), "no 16\n");
    }
}

#[test]
fn bad_first_lines() {
    #[rustfmt::skip]
    let forms = [
        "setting", "setting 4 3 1", "setting 4 3 1 2 ", "setting 4 3 1 2 1", " setting 4 3 1 2", "setting  4 3 1 2",
        "Setting 4 3 1 2", "settings 4 3 1 2", "gallery 4 3 1 2", "setting 4,3,1,2", "setting 4 3 1 2\r", "setting 04 3 1 2",
        "setting 4 3 00 2", "setting 4 3 -1 2", "setting 4294967296 3 1 2", "setting 0 0 0 4294967296", "try 1",
    ];
    let ranges = [
        "0 1 0 2",
        "32 22 10 2",
        "255 170 84 2",
        "256 171 85 2",
        "4 0 1 2",
        "4 5 1 2",
        "4 3 5 2",
        "4 3 1 0",
        "4 3 1 17",
        "0 0 0 0",
        "260 3 1 2",
        "4 259 1 2",
        "4 3 257 2",
        "4 3 1 258",
        "65540 3 1 2",
        "4 3 1 4294967295",
        "4294967295 3 1 2",
    ];
    for form in forms {
        assert_eq!(output(format!("{form}\ntry 1\n").as_bytes()), "no 16\n", "{form}");
    }
    for range in ranges {
        assert_eq!(output(format!("setting {range}\ntry 1\n").as_bytes()), "no 7\n", "{range}");
    }
}

/// All lines behind the first are counted, also the refused; what follows the millionth is not read.
#[test]
fn a_million_event_lines() {
    let mut script = b"setting 1 1 0 2\ntry 1\n".to_vec();
    for turn in 0..999_998 {
        script.extend(if turn % 2 == 0 { b"check 1\n".as_slice() } else { b"\n" });
    }
    let mut more = script.clone();
    script.extend(b"fall 1\n");
    more.extend(b"fall 1\nfall 2\nsetting\n");
    let out = output(&script);
    assert!(out.ends_with("\n999999 no 16\n1000000 ok 0 0\nend 500001 0 0\n"), "{}", &out[out.len() - 80..]);
    assert!(out.starts_with("gallery 1 1 0 2\n1 ok 1 0\n2 ok 0 0\n3 no 16\n4 ok 0 0\n"));
    assert_eq!(output(&more), out);
}
