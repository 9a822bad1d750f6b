//! The scripts of the benchmark, by the model: every event is accepted, and they are what they are said to be.

use sigma_tests::author::{long_script, restarts_script, MIXED, OFTEN, RESTARTS, RESTARTS_KEEP};
use sigma_tests::gallery::{Event, Gallery, Kind, GALLERY};
use sigma_tests::index::Receiver;
use sigma_tests::script::{event, first, lines};
use sigma_tests::setting::Setting;
use std::collections::BTreeMap;

/// The gallery at the start, and the script's events.
fn read(script: &[u8]) -> (Gallery, Vec<Event>) {
    let mut lines = lines(script);
    let [n, m, f, kiosks] = lines.next().map(first).expect("a line").expect("a setting");
    let gallery = Gallery::new(Setting::new(n, m, f).expect("in range"), kiosks, GALLERY).expect("in range");
    (gallery, lines.map(|line| event(line).expect("an event")).collect())
}

#[test]
fn turns_without_a_refusal() {
    let (mut gallery, events) = read(&long_script(20_000));
    assert_eq!((events.len(), gallery.setting.n, gallery.clients.len()), (20_000, 31, 16));
    for event in events {
        assert!(gallery.event(event).is_ok(), "{event:?}");
        assert!(gallery.kept.len() <= 93, "a turn's messages");
    }
    assert!(gallery.clients.iter().all(|client| client.record.ticket > 10));
}

fn taken(gallery: &Gallery) -> usize {
    gallery.kept.iter().filter(|kept| kept.taken).count()
}

#[test]
fn restarts_beside_a_table_that_is_nearly_full() {
    const LINES: usize = 40_000;
    for setting in RESTARTS {
        let (mut gallery, events) = read(&restarts_script(setting, MIXED, LINES));
        assert_eq!((events.len(), gallery.setting, gallery.clients.len()), (LINES, setting, 16));
        let begin = events.iter().position(|event| event.kind == Kind::Down).expect("a restart");
        assert!(begin < 1000, "{begin}");
        for &event in &events[..begin] {
            assert!(gallery.event(event).is_ok(), "{event:?}");
        }
        // How often each kind comes in the last half, and takes by kiosks; the downs by which messages wait again, and these.
        let (mut kinds, mut by_kiosks, mut downs, mut again) = (BTreeMap::new(), 0, 0, 0);
        for (&event, place) in events[begin..].iter().zip(begin..) {
            assert_eq!((place - begin) % 3 == 0, [Kind::Down, Kind::Up].contains(&event.kind), "{place}: {event:?}");
            assert!((RESTARTS_KEEP..=GALLERY.places).contains(&gallery.kept.len()), "{place}: {}", gallery.kept.len());
            let to = gallery.kept.iter().find(|kept| kept.number == event.number).and_then(|kept| Receiver::of(&kept.message));
            let before = taken(&gallery);
            assert!(gallery.event(event).is_ok(), "{event:?}");
            if place >= LINES / 2 {
                *kinds.entry(event.kind).or_insert(0) += 1;
                by_kiosks += usize::from(event.kind == Kind::Take && matches!(to, Some(Receiver::Kiosk(_))));
                let restored = if event.kind == Kind::Down { before - taken(&gallery) } else { 0 };
                downs += usize::from(restored > 0);
                again += restored;
            }
        }
        println!("{setting:?}: begin {begin}, {kinds:?}, takes by kiosks {by_kiosks}, {downs} downs, {again} messages");
        let least = [(Kind::Down, 3300), (Kind::Up, 3300), (Kind::Take, 9000), (Kind::Drop, 500), (Kind::Check, 300)];
        for (kind, least) in least.into_iter().chain([(Kind::Try, 10), (Kind::Exit, 10)]) {
            assert!(kinds[&kind] >= least, "{kind:?}: {kinds:?}");
        }
        assert!(by_kiosks >= 2000 && downs >= 2000 && again >= 5000, "{by_kiosks} {downs} {again}");
    }
}

/// Down, up and one other event, over and over, beside as full a table.
#[test]
fn restarts_that_are_most_events() {
    const LINES: usize = 40_000;
    for setting in RESTARTS {
        let (mut gallery, events) = read(&restarts_script(setting, OFTEN, LINES));
        let begin = events.iter().position(|event| event.kind == Kind::Down).expect("a restart");
        let mut again = 0;
        for (&event, place) in events.iter().zip(0..) {
            let before = taken(&gallery);
            assert!(gallery.event(event).is_ok(), "{event:?}");
            if place >= begin {
                let third = [Some(Kind::Down), Some(Kind::Up), None][(place - begin) % 3];
                let restart = [Kind::Down, Kind::Up].contains(&event.kind).then_some(event.kind);
                assert_eq!(restart, third, "{place}: {event:?}");
                assert!(gallery.kept.len() >= RESTARTS_KEEP, "{place}: {}", gallery.kept.len());
                again += if event.kind == Kind::Down { before - taken(&gallery) } else { 0 };
            }
        }
        assert!(begin < 1000 && again >= 5000, "{begin} {again}");
    }
}
