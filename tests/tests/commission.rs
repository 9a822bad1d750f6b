//! The commission program beside the model: what it says of a setting, and the run of an unsafe one, which the gallery plays to two
//! holders, if it has room for so many keepers; and the thresholds that it offers for keepers and losses.

use sigma_tests::files::{answer, built, contents};
use sigma_tests::gallery::{Gallery, KEEPERS, RUN};
use sigma_tests::script::{event, line_of, lines, run};
use sigma_tests::setting::{thresholds, usual_losses, usual_threshold, Setting, Verdict};
use std::process::Command;

/// What goes to standard error and to standard output.
fn commission(words: &[&str]) -> (String, String) {
    let run = Command::new(built("commission").expect("run `rt run` in crates/commission first"))
        .args(words)
        .output()
        .expect("it runs");
    assert!(run.status.success());
    let text = |bytes: Vec<u8>| String::from_utf8(bytes).expect("plain text");
    (text(run.stderr), text(run.stdout))
}

fn of(n: u32, m: u32, f: u32) -> (String, String) {
    commission(&[&n.to_string(), &m.to_string(), &f.to_string()])
}

fn offered(n: u32, f: u32) -> (String, String) {
    commission(&[&n.to_string(), &f.to_string()])
}

/// The last line, where n is in range.
fn threshold(n: u32) -> String {
    let (Ok(m), Ok(losses)) = (usual_threshold(n), usual_losses(n)) else {
        return String::new();
    };
    format!("usual threshold {m} for f up to {}\n", losses.last().expect("no loss at least"))
}

/// What n and f alone are answered, all of it on standard error.
fn expected_offer(n: u32, f: u32) -> (String, String) {
    let first = match thresholds(n, f).as_deref() {
        Err(_) => "no 7 out of range".into(),
        Ok([]) => "thresholds none".into(),
        Ok(all) => format!("thresholds {} to {}", all[0], all[all.len() - 1]),
    };
    (format!("{first}\n{}", threshold(n)), String::new())
}

fn expected(setting: Setting) -> (String, String) {
    let Setting { n, m, f } = setting;
    let margin = format!("margin {}\n", setting.margin());
    let usual = threshold(n);
    match setting.verdict() {
        Verdict::Accepted => (format!("ok\n{margin}{usual}"), String::new()),
        Verdict::Stalls => (format!("no 9 stalls\n{margin}{usual}"), String::new()),
        Verdict::Unsafe(events) => {
            let lines: String = setting.unsafe_run().into_iter().map(|e| line_of(e) + "\n").collect();
            let fits = if n > KEEPERS { "fits no gallery: at most 31 keepers\n" } else { "" };
            (format!("no 8 unsafe\n{margin}events {events}\n{fits}{usual}"), format!("setting {n} {m} {f} 2\n{lines}"))
        }
    }
}

/// How the script's run ends, in the gallery or, where none has so many keepers, in the model's system without limits.
fn ends(setting: Setting, script: &[u8]) -> String {
    let printed = run(script);
    if setting.n <= KEEPERS {
        return String::from_utf8_lossy(&printed).lines().last().expect("a line").into();
    }
    assert_eq!(printed, b"no 7\n", "{setting:?}");
    let mut system = Gallery::new(setting, 2, RUN).expect("in range");
    lines(script).skip(1).for_each(|line| assert!(event(line).and_then(|event| system.event(event)).is_ok(), "{setting:?}"));
    format!("end {} {} {}", system.accepted, system.most_holders, system.most_down)
}

#[test]
fn as_the_model_has_it() {
    let few = Setting::all(7).into_iter();
    let many = [29, 30, 31, 32, 33, 60, 128, 254, 255]
        .into_iter()
        .flat_map(|n| [(n, 1, 0), (n, n, n), (n, 2 * n / 3, n / 3), (n, 2 * n / 3 + 1, n / 3), (n, n / 2, 0), (n, n, 0)]);
    let mut played = 0;
    for setting in few.chain(many.map(|(n, m, f)| Setting { n, m, f })) {
        let said = of(setting.n, setting.m, setting.f);
        assert_eq!(said, expected(setting), "{setting:?}");
        if let Verdict::Unsafe(events) = setting.verdict() {
            let end = ends(setting, said.1.as_bytes());
            assert_eq!(end, format!("end {events} 2 {}", setting.restarted()), "{setting:?}");
            played += 1;
        }
    }
    assert!(played > 100, "{played}");
}

/// The last setting of a gallery and the first that fits none, written out, and the longest run.
#[test]
fn settings_of_no_gallery() {
    let said = |n: u32, m: u32, f: u32| of(n, m, f).0;
    assert_eq!(said(31, 31, 31), "no 8 unsafe\nmargin 0\nevents 188\nusual threshold 21 for f up to 10\n");
    assert_eq!(
        said(32, 32, 32),
        "no 8 unsafe\nmargin 0\nevents 194\nfits no gallery: at most 31 keepers\nusual threshold 22 for f up to 10\n"
    );
    assert_eq!(said(32, 22, 10), "ok\nmargin 2\nusual threshold 22 for f up to 10\n");
    assert_eq!(said(60, 41, 20), "no 9 stalls\nmargin 2\nusual threshold 40 for f up to 19\n");
    assert_eq!(said(255, 170, 84), "ok\nmargin 1\nusual threshold 170 for f up to 84\n");
    let (said, script) = of(255, 255, 255);
    assert_eq!(
        said,
        "no 8 unsafe\nmargin 0\nevents 1532\nfits no gallery: at most 31 keepers\nusual threshold 170 for f up to 84\n"
    );
    assert_eq!(script.lines().count(), 1533);
    assert!(script.starts_with("setting 255 255 255 2\ntry 1\ntake 1\n") && script.ends_with("\ntake 1020\n"));
    let played = answer("gallery", &[], script.as_bytes());
    assert_eq!((played.stdout, played.stderr), (b"no 7\n".to_vec(), vec![]), "the gallery's answer");
}

#[test]
fn bad_input() {
    for (n, m, f) in [
        (0, 1, 0),
        (32, 33, 10),
        (255, 170, 256),
        (256, 171, 85),
        (257, 1, 0),
        (65_537, 1, 0),
        (3, 0, 1),
        (3, 4, 1),
        (3, 2, 4),
        (4_294_967_295, 1, 0),
    ] {
        assert_eq!(of(n, m, f), (format!("no 7 out of range\n{}", threshold(n)), String::new()), "{n} {m} {f}");
    }
}

/// The model's thresholds of n and f are all between two ends, and there is none exactly if 3 times f is at least n; the usual one is
/// accepted with the losses below a third of n, and with no more.
#[test]
fn thresholds_stand_between_two_ends() {
    for n in 1..=255 {
        for f in 0..=n {
            let between: Vec<u32> = (1..=n).filter(|m| 2 * m > n + f && *m <= n - f).collect();
            let all = thresholds(n, f).expect("in range");
            assert_eq!(all, between, "{n} {f}");
            assert_eq!(all.is_empty(), 3 * f >= n, "{n} {f}");
            assert!(all.windows(2).all(|two| two[1] == two[0] + 1), "{n} {f}");
        }
        assert_eq!(usual_losses(n), Ok((0..=(n - 1) / 3).collect()), "{n}");
        assert_eq!(thresholds(n, n + 1), Err(7), "{n}");
    }
    assert_eq!((thresholds(0, 0), thresholds(256, 0)), (Err(7), Err(7)));
}

#[test]
fn the_thresholds_for_keepers_and_losses() {
    let few = (1..=12).flat_map(|n| (0..=n + 1).map(move |f| (n, f)));
    let many = [13, 14, 15, 16, 21, 30, 31, 32, 33, 60, 63, 64, 65, 100, 127, 128, 129, 170, 171, 200, 253, 254, 255];
    let losses = |n: u32| [0, 1, n / 3 - 1, (n - 1) / 3, n / 3, n / 3 + 1, n / 2, n - 1, n, n + 1].map(|f| (n, f));
    for (n, f) in few.chain(many.into_iter().flat_map(losses)) {
        assert_eq!(offered(n, f), expected_offer(n, f), "{n} {f}");
    }
}

/// The most losses of every n, and one more: the ends of the range that meet, or almost, and none.
#[test]
fn the_usual_threshold_of_every_number_of_keepers() {
    for n in 1..=255 {
        let most = (n - 1) / 3;
        assert_eq!(offered(n, most), expected_offer(n, most), "{n}");
        assert_eq!(offered(n, most + 1), expected_offer(n, most + 1), "{n}");
        let usual = usual_threshold(n).expect("in range");
        assert_eq!(of(n, usual, most), expected(Setting { n, m: usual, f: most }), "{n}");
        assert!(of(n, usual, most + 1).0.starts_with("no "), "{n}");
    }
}

#[test]
fn thresholds_written_out() {
    for (n, f, said) in [
        (1, 0, "thresholds 1 to 1\nusual threshold 1 for f up to 0\n"),
        (1, 1, "thresholds none\nusual threshold 1 for f up to 0\n"),
        (2, 0, "thresholds 2 to 2\nusual threshold 2 for f up to 0\n"),
        (3, 0, "thresholds 2 to 3\nusual threshold 2 for f up to 0\n"),
        (3, 1, "thresholds none\nusual threshold 2 for f up to 0\n"),
        (4, 1, "thresholds 3 to 3\nusual threshold 3 for f up to 1\n"),
        (7, 1, "thresholds 5 to 6\nusual threshold 5 for f up to 2\n"),
        (7, 8, "no 7 out of range\nusual threshold 5 for f up to 2\n"),
        (32, 10, "thresholds 22 to 22\nusual threshold 22 for f up to 10\n"),
        (255, 0, "thresholds 128 to 255\nusual threshold 170 for f up to 84\n"),
        (255, 84, "thresholds 170 to 171\nusual threshold 170 for f up to 84\n"),
        (255, 85, "thresholds none\nusual threshold 170 for f up to 84\n"),
        (255, 255, "thresholds none\nusual threshold 170 for f up to 84\n"),
        (255, 256, "no 7 out of range\nusual threshold 170 for f up to 84\n"),
        (256, 0, "no 7 out of range\n"),
        (0, 0, "no 7 out of range\n"),
    ] {
        assert_eq!(offered(n, f), (said.into(), String::new()), "{n} {f}");
    }
}

/// Numbers too large for the program's own, of which the low bits alone would be in range.
#[test]
fn out_of_range() {
    let large = [256, 257, 260, 65_536, 65_540, 1 << 31, (1 << 31) + 4, u32::MAX - 1, u32::MAX];
    for n in [0].into_iter().chain(large) {
        assert_eq!(offered(n, 1), ("no 7 out of range\n".into(), String::new()), "{n}");
        assert_eq!(of(n, 3, 1), ("no 7 out of range\n".into(), String::new()), "{n}");
    }
    for f in large {
        assert_eq!(offered(4, f), expected_offer(4, f), "{f}");
        assert_eq!(of(4, 3, f), (format!("no 7 out of range\n{}", threshold(4)), String::new()), "{f}");
    }
}

/// 16 comes before 7, and is all that is said.
#[test]
fn not_two_or_three_numbers() {
    let refused = |words: &[&str]| {
        assert_eq!(commission(words), ("no 16 not two or three numbers\n".into(), String::new()), "{words:?}");
    };
    for words in ["", "3", "0", "256", "x", "3 2 1 0", "4 3 1 1", "3 2 1 0 0", "3 2 1 x"] {
        refused(&words.split_whitespace().collect::<Vec<_>>());
    }
    let bad = [
        "",
        "x",
        "1x",
        "01",
        "00",
        "+1",
        "-1",
        "-0",
        " 1",
        "1 ",
        "1\n",
        "1 2",
        "1.0",
        "0x1",
        "4294967296",
        "99999999999999999999",
        "١",
    ];
    for word in bad {
        for words in [[word, "1"], ["4", word], [word, "999"], ["999", word]] {
            refused(&words);
        }
        for words in [[word, "3", "1"], ["4", word, "1"], ["4", "3", word], ["999", "3", word]] {
            refused(&words);
        }
        refused(&[word]);
    }
}

#[test]
fn the_script_of_the_tour() {
    assert_eq!(of(3, 2, 1).1.into_bytes(), contents("two_holders.script"));
}
