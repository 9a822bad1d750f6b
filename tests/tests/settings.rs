//! The setting check, the events of the unsafe runs and the default threshold beside the model: the answer, and every word
//! lent, for all settings up to 60 servers, those of up to 255 where the verdict changes, and those around them.

use sigma_tests::library;
use sigma_tests::setting::{self as model, event_of, Setting};
use std::collections::{BTreeMap, BTreeSet};

/// Both are lent `lent` words out of equal arrays; the number that both gave, and the array as both left it.
fn same(
    what: &dyn Fn() -> String,
    lent: usize,
    by_library: impl Fn(&mut [u32]) -> u32,
    by_model: impl Fn(&mut [u32]) -> u32,
) -> (u32, [u32; 5]) {
    let before = [0xA5A5_A5A5, 0x5A5A_5A5A, 0x7777_7777, 0xFFFF_FFFF, 0x1234_5678];
    let (mut ours, mut theirs) = (before, before);
    let number = by_library(&mut ours[1..1 + lent]);
    let other = by_model(&mut theirs[1..1 + lent]);
    assert_eq!((number, ours), (other, theirs), "{}, {lent} words lent", what());
    let written = [0, 8, 9].contains(&number);
    assert_eq!(written, ours != before, "{}: {number}, {lent} words lent", what());
    (number, ours)
}

fn same_setting(n: u32, m: u32, f: u32, lent: usize) -> (u32, [u32; 5]) {
    let what = || format!("setting {n} {m} {f}");
    same(&what, lent, |words| library::setting(n, m, f, words), |words| model::setting(n, m, f, words))
}

fn same_event(n: u32, m: u32, f: u32, i: u32, lent: usize) -> u32 {
    let what = || format!("event {i} of {n} {m} {f}");
    same(&what, lent, |words| library::run_event(n, m, f, i, words), |words| model::run_event(n, m, f, i, words)).0
}

/// Numbers at and past the ends of every range, and such as a cut to 8 or 16 bits would bring into it.
fn around(n: u32) -> Vec<u32> {
    let mut numbers: Vec<u32> = (0..=33).collect();
    numbers.extend([127, 128, 254, 255, 256, 257, 256 + n, 65_535, 65_536, 65_537, 65_536 + n]);
    numbers.extend([1 << 31, (1 << 31) + n, 0u32.wrapping_sub(n), u32::MAX - 1, u32::MAX]);
    numbers
}

#[test]
fn every_setting_in_range() {
    let mut met = BTreeMap::new();
    for Setting { n, m, f } in Setting::all(60) {
        for lent in 0..=3 {
            let (number, words) = same_setting(n, m, f, lent);
            *met.entry((lent, number)).or_insert(0) += 1;
            if number != 6 {
                let margin = 2 * i64::from(m) - i64::from(n) - i64::from(f);
                assert_eq!(i64::from(words[1] as i32), margin);
            }
        }
    }
    assert_eq!(met.keys().copied().collect::<Vec<_>>(), [(0, 6), (1, 6), (2, 0), (2, 8), (2, 9), (3, 0), (3, 8), (3, 9)]);
    assert_eq!(met[&(0, 6)], (1..=60).map(|n| n * (n + 1)).sum::<i32>());
}

/// For each n to 255 and each m, the f at both ends of its range and where the verdict changes, by its two inequalities alone.
#[test]
fn every_edge_of_the_verdicts() {
    let mut met = BTreeMap::new();
    for (n, m) in (1..=255).flat_map(|n| (1..=n).map(move |m| (n, m))) {
        let (safe, alive) = (2 * m - n, n - m);
        let edges = [0, 1, n - 1, n, safe - 1, safe, safe + 1, alive - 1, alive, alive + 1];
        for f in edges.into_iter().filter(|f| (0..=n).contains(f)).collect::<BTreeSet<i32>>() {
            let (number, words) = same_setting(n as u32, m as u32, f as u32, 2);
            let expected = if f >= safe { (8, 4 * m + 2 + 2 * safe.max(0)) } else { (if f > alive { 9 } else { 0 }, 0) };
            assert_eq!((number, words[1] as i32, words[2] as i32), (expected.0, safe - f, expected.1), "{n} {m} {f}");
            *met.entry(number).or_insert(0) += 1;
        }
        assert_eq!(same_setting(n as u32, m as u32, n as u32 + 1, 2).0, 7);
    }
    assert!(met.keys().eq(&[0, 8, 9]) && met.values().all(|&times| times > 20_000), "{met:?}");
}

#[test]
fn the_worked_settings() {
    let worked: [(u32, u32, u32, u32, i32, u32); 17] = [
        (4, 3, 1, 0, 1, 0),
        (3, 2, 1, 8, 0, 12),
        (4, 4, 1, 9, 3, 0),
        (1, 1, 0, 0, 1, 0),
        (7, 5, 2, 0, 1, 0),
        (7, 5, 3, 8, 0, 28),
        (31, 21, 10, 0, 1, 0),
        (31, 1, 31, 8, -60, 6),
        (32, 22, 10, 0, 2, 0),
        (32, 22, 11, 9, 1, 0),
        (32, 21, 10, 8, 0, 106),
        (255, 170, 84, 0, 1, 0),
        (255, 170, 85, 8, 0, 852),
        (255, 1, 255, 8, -508, 6),
        (255, 255, 0, 0, 255, 0),
        (255, 255, 254, 9, 1, 0),
        (255, 255, 255, 8, 0, 1532),
    ];
    for (n, m, f, number, margin, events) in worked {
        let mut words = [77; 2];
        assert_eq!(library::setting(n, m, f, &mut words), number, "{n} {m} {f}");
        assert_eq!(words, [margin as u32, events], "{n} {m} {f}");
    }
}

/// Each of the three numbers from all around its range, with the others in range or not.
#[test]
fn settings_out_of_range() {
    let mut refused = 0;
    for n in around(4) {
        for m in around(n) {
            for f in around(n) {
                if Setting::new(n, m, f).is_ok() {
                    continue;
                }
                refused += 1;
                assert_eq!(same_setting(n, m, f, 2).0, 7);
                assert_eq!(same_event(n, m, f, 1, 2), 7);
                if refused % 16 == 0 {
                    for lent in [0, 1, 3] {
                        assert_eq!((same_setting(n, m, f, lent).0, same_event(n, m, f, 0, lent)), (7, 7));
                    }
                }
            }
        }
    }
    assert!(refused > 100_000, "{refused}");
}

/// How many events the setting's run has, each of them with these numbers of words lent.
fn every_event(setting: Setting, lent: std::ops::RangeInclusive<usize>) -> usize {
    let Setting { n, m, f } = setting;
    let run = setting.unsafe_run();
    for i in 1..=run.len() as u32 {
        let what = || format!("event {i} of {n} {m} {f}");
        for lent in lent.clone() {
            let by_library = |words: &mut [u32]| library::run_event(n, m, f, i, words);
            let (number, _) = same(&what, lent, by_library, |words| event_of(&run, i, words));
            assert_eq!(number, if lent < 2 { 6 } else { 0 });
        }
    }
    run.len()
}

#[test]
fn every_event_of_every_unsafe_run() {
    let events: usize = Setting::all(60).into_iter().map(|setting| every_event(setting, 0..=3)).sum();
    assert!(events > 4_000_000, "{events}");
}

/// The run depends on n and m alone: every one of them, with the least f that is unsafe and with the most.
#[test]
fn every_run_of_up_to_255_servers() {
    let (mut events, mut longest) = (0, 0);
    for (n, m) in (61..=255u32).flat_map(|n| (1..=n).map(move |m| (n, m))) {
        for f in [(2 * m).saturating_sub(n), n] {
            let count = every_event(Setting { n, m, f }, 2..=2);
            assert_eq!(count as u32, 4 * m + 2 + 2 * (2 * m).saturating_sub(n), "{n} {m} {f}");
            events += count;
            longest = longest.max(count);
        }
    }
    assert!(events > 27_000_000 && longest == 1532, "{events}, {longest}");
}

/// Number 0, numbers past the run, and any number of a setting that is not refused 8: 17, however many words are lent.
#[test]
fn events_that_no_run_has() {
    let many = [(61, 41, 20), (128, 128, 128), (254, 1, 0), (255, 170, 84), (255, 170, 85), (255, 255, 254), (255, 255, 255)];
    let many = many.map(|(n, m, f)| Setting { n, m, f });
    for setting in Setting::all(40).into_iter().chain(many) {
        let Setting { n, m, f } = setting;
        let past = setting.unsafe_run().len() as u32 + 1;
        for i in [0, past, past + 1, 256 + past, 65_535 + past, 1 << 31, u32::MAX - 1, u32::MAX] {
            for lent in 0..=3 {
                assert_eq!(same_event(n, m, f, i, lent), 17, "event {i} of {n} {m} {f}");
            }
        }
    }
}

#[test]
fn every_default_threshold() {
    let mut met = BTreeMap::new();
    for n in (0..=300).chain([4, 31, 255].into_iter().flat_map(around)) {
        for lent in 0..=3 {
            let what = || format!("default threshold of {n}");
            let by_library = |words: &mut [u32]| library::default_threshold(n, words);
            let (number, words) = same(&what, lent, by_library, |words| model::default_threshold(n, words));
            // Two thirds of n rounded up is n less a third, cut.
            assert!(number != 0 || words[1] == n - n / 3, "default threshold of {n}");
            assert_eq!(number == 7, !(1..=255).contains(&n), "default threshold of {n}");
            *met.entry((lent, number)).or_insert(0) += 1;
        }
    }
    assert_eq!(met.keys().copied().collect::<Vec<_>>(), [(0, 6), (0, 7), (1, 0), (1, 7), (2, 0), (2, 7), (3, 0), (3, 7)]);
}
