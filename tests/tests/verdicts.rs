//! The model's settings on their own: document 01's worked ones, and every unsafe run up to 31 keepers made event by event, and
//! many of up to 255.

use sigma_tests::gallery::{Event, Gallery, Kind, Limits, GALLERY, RUN};
use sigma_tests::script;
use sigma_tests::setting::{self, usual_threshold, Setting, Verdict};

fn verdict(n: u32, m: u32, f: u32) -> (Verdict, i32) {
    let setting = Setting::new(n, m, f).expect("in range");
    (setting.verdict(), setting.margin())
}

#[test]
fn the_worked_settings() {
    assert_eq!(verdict(4, 3, 1), (Verdict::Accepted, 1));
    assert_eq!(verdict(3, 2, 1), (Verdict::Unsafe(12), 0));
    assert_eq!(verdict(4, 4, 1), (Verdict::Stalls, 3));
    assert_eq!(verdict(1, 1, 0), (Verdict::Accepted, 1));
    assert_eq!(verdict(7, 5, 2), (Verdict::Accepted, 1));
    assert_eq!(verdict(7, 5, 3), (Verdict::Unsafe(28), 0));
    assert_eq!(verdict(31, 21, 10), (Verdict::Accepted, 1));
}

/// The ends of the range, worked by hand: 2m - n - f, and 4m + 2 events with 2 more for each restarted keeper.
#[test]
fn the_outermost_settings() {
    assert_eq!(verdict(31, 1, 31), (Verdict::Unsafe(6), -60));
    assert_eq!(verdict(31, 31, 31), (Verdict::Unsafe(188), 0));
    assert_eq!(verdict(31, 31, 30), (Verdict::Stalls, 1));
    assert_eq!(verdict(31, 31, 0), (Verdict::Accepted, 31));
    assert_eq!(verdict(1, 1, 1), (Verdict::Unsafe(8), 0));
    assert_eq!(verdict(255, 1, 255), (Verdict::Unsafe(6), -508));
    assert_eq!(verdict(255, 255, 255), (Verdict::Unsafe(1532), 0));
    assert_eq!(verdict(255, 255, 254), (Verdict::Stalls, 1));
    assert_eq!(verdict(255, 255, 0), (Verdict::Accepted, 255));
    assert_eq!(verdict(255, 170, 84), (Verdict::Accepted, 1));
    let outside = [(0, 0, 0), (0, 1, 0), (256, 171, 0), (4, 0, 1), (4, 5, 1), (4, 3, 5), (4, 3, u32::MAX), (u32::MAX, 1, 0)];
    for (n, m, f) in outside.into_iter().chain([(255, 256, 0), (255, 170, 256), (255, 0, 0)]) {
        assert_eq!(Setting::new(n, m, f), Err(7), "{n} {m} {f}");
    }
}

/// f < n/3 is what the report asks of the usual threshold: then the setting is accepted, and else it is not.
#[test]
fn the_usual_threshold_is_two_thirds_rounded_up() {
    let first: Vec<u32> = (1..=9).map(|n| usual_threshold(n).expect("in range")).collect();
    assert_eq!(first, [1, 2, 2, 3, 4, 4, 5, 6, 6]);
    assert_eq!((usual_threshold(0), usual_threshold(256), usual_threshold(u32::MAX)), (Err(7), Err(7), Err(7)));
    for n in 1..=255 {
        let m = usual_threshold(n).expect("in range");
        assert!(3 * m >= 2 * n && 3 * (m - 1) < 2 * n, "{n}: {m}");
        for f in 0..=n {
            assert_eq!(verdict(n, m, f).0 == Verdict::Accepted, 3 * f < n, "{n} {m} {f}");
        }
    }
}

/// The run that document 01 says has 12 events, written out: with three keepers, answers are messages 4, 5, 9 and 10.
#[test]
fn the_run_of_three_keepers() {
    let setting = Setting::new(3, 2, 1).expect("in range");
    let lines: Vec<String> = setting.unsafe_run().into_iter().map(script::line_of).collect();
    let expected = "try 1,take 1,take 2,take 4,take 5,down 1,up 1,try 2,take 6,take 8,take 9,take 10";
    assert_eq!(lines.join(","), expected);
}

/// Every event is accepted, at most f keepers go down in an epoch, and the last event alone brings the second holder.
fn ends_with_two_holders(setting: Setting, limits: Limits) {
    let run = setting.unsafe_run();
    assert_eq!(setting.verdict(), Verdict::Unsafe(run.len() as u32));
    assert_eq!(run.len() as u32, 4 * setting.m + 2 + 2 * setting.restarted());
    let mut gallery = Gallery::new(setting, 2, limits).expect("in range");
    for (&event, number) in run.iter().zip(1..) {
        assert!(gallery.most_holders < 2, "{setting:?} has two before event {number}");
        let sent = gallery.event(event);
        assert!(sent.is_ok(), "{setting:?} event {number}, {event:?}: {sent:?}");
    }
    assert_eq!((gallery.holders(), gallery.most_holders), (2, 2), "{setting:?}");
    assert_eq!(gallery.most_down as u32, setting.restarted(), "{setting:?}");
    assert!(gallery.most_down as u32 <= setting.f, "{setting:?}");
}

#[test]
fn every_unsafe_run_ends_with_two_holders() {
    let mut runs = 0;
    for setting in Setting::all(31).into_iter().filter(|s| s.margin() <= 0) {
        ends_with_two_holders(setting, GALLERY);
        ends_with_two_holders(setting, RUN);
        runs += 1;
    }
    assert_eq!(runs, unsafe_settings(31));
}

/// They are runs, but fit no gallery.
#[test]
fn unsafe_runs_with_more_keepers_than_a_gallery_has() {
    for n in [32u32, 33, 60, 64, 127, 128, 200, 254, 255] {
        for m in [1, n / 3, n / 2, n / 2 + 1, 2 * n / 3, n - 1, n] {
            for f in [(2 * m).saturating_sub(n), n] {
                let setting = Setting::new(n, m, f).expect("in range");
                assert_eq!(Gallery::new(setting, 2, GALLERY), Err(7), "{setting:?}");
                ends_with_two_holders(setting, RUN);
            }
        }
    }
}

/// Where the margin is 1, the same plan with all the restarts that f allows leaves kiosk 2 one answer short, and only one holds.
#[test]
fn the_same_plan_where_the_margin_is_1() {
    for n in [4u32, 7, 31, 32, 33, 128, 254, 255] {
        for m in [n / 2 + 1, (2 * n).div_ceil(3), n - 1, n] {
            let setting = Setting::new(n, m, 2 * m - n - 1).expect("in range");
            assert!(setting.margin() == 1 && setting.unsafe_run().is_empty(), "{setting:?}");
            let mut gallery = Gallery::new(setting, 2, RUN).expect("in range");
            let mut all = |kind, numbers: &mut dyn Iterator<Item = u32>| {
                for number in numbers.map(u64::from) {
                    assert!(gallery.event(Event { kind, number }).is_ok(), "{setting:?} {kind:?} {number}");
                }
            };
            all(Kind::Try, &mut (1..=1));
            all(Kind::Take, &mut (1..=m));
            all(Kind::Take, &mut (n + 1..=n + m));
            all(Kind::Down, &mut (1..=setting.f));
            all(Kind::Up, &mut (1..=setting.f));
            all(Kind::Try, &mut (2..=2));
            all(Kind::Take, &mut (1..=setting.f).chain(m + 1..=n).map(|j| n + m + j));
            all(Kind::Take, &mut (2 * n + m + 1..2 * n + 2 * m));
            assert_eq!((gallery.holders(), gallery.most_down as u32), (1, setting.f), "{setting:?}");
            assert_eq!(gallery.clients[1].record.filled(), m - 1, "{setting:?}");
        }
    }
}

/// 2m - n ≤ f ≤ n, counted from that inequality alone: for each m, all f where m ≤ n/2, else n - (2m - n) + 1 of them.
fn unsafe_settings(most: u32) -> u32 {
    (1..=most).flat_map(|n| (1..=n).map(move |m| if 2 * m <= n { n + 1 } else { 2 * (n - m) + 1 })).sum()
}

#[test]
fn no_other_setting_has_a_run() {
    for setting in Setting::all(60).into_iter().filter(|s| s.margin() > 0) {
        let Setting { n, m, f } = setting;
        assert!(setting.unsafe_run().is_empty(), "{setting:?}");
        assert_eq!(setting::run_event(n, m, f, 1, &mut [0, 0]), 17, "{setting:?}");
        assert_eq!(setting.verdict() == Verdict::Stalls, m > n - f, "{setting:?}");
    }
}

/// Only kiosks try, keepers restart and messages are taken: nothing falls, is lost, missed or checked.
#[test]
fn the_runs_use_four_kinds_of_events() {
    let kinds = [Kind::Try, Kind::Down, Kind::Up, Kind::Take];
    for setting in Setting::all(60) {
        assert!(setting.unsafe_run().iter().all(|e| kinds.contains(&e.kind)), "{setting:?}");
    }
}
