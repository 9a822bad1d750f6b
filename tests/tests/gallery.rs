//! The model's gallery on its own: every refusal of its row with what makes it, that a refused event changes nothing, and
//! that the limits of refusal 19 are all that a run lacks.

use sigma_tests::gallery::{Event, Gallery, Kind, Limits, GALLERY, RUN};
use sigma_tests::kiosk::{HOLDING, REMAINDER};
use sigma_tests::random::Random;
use sigma_tests::setting::Setting;
use std::collections::{BTreeMap, BTreeSet};

const KINDS: [Kind; 9] =
    [Kind::Try, Kind::Exit, Kind::Fall, Kind::Down, Kind::Up, Kind::Take, Kind::Drop, Kind::Miss, Kind::Check];

fn gallery(n: u32, m: u32, kiosks: u32, limits: Limits) -> Gallery {
    Gallery::new(Setting::new(n, m, 0).expect("in range"), kiosks, limits).expect("in range")
}

fn give(gallery: &mut Gallery, kind: Kind, number: u64) -> Result<usize, u32> {
    gallery.event(Event { kind, number })
}

/// The events, all accepted.
fn after(mut gallery: Gallery, events: &[(Kind, u64)]) -> Gallery {
    for &(kind, number) in events {
        assert!(give(&mut gallery, kind, number).is_ok(), "{kind:?} {number}");
    }
    gallery
}

#[test]
fn parties_and_messages_that_are_not_there() {
    let start = gallery(2, 1, 3, GALLERY);
    for kind in KINDS {
        let count = match kind {
            Kind::Try | Kind::Exit | Kind::Fall => 3,
            Kind::Take | Kind::Drop => 0,
            _ => 2,
        };
        for number in [0, count + 1, 256, 65_536, 65_537, 4_294_967_295] {
            assert_eq!(give(&mut start.clone(), kind, number), Err(17), "{kind:?} {number}");
        }
    }
}

/// A down keeper has no owner and a fallen kiosk may be in the wrong section: 18 comes before 15 and 10.
#[test]
fn parties_that_are_down_or_fallen() {
    let mut gone = after(gallery(2, 1, 2, GALLERY), &[(Kind::Try, 1), (Kind::Take, 1), (Kind::Fall, 1), (Kind::Down, 2)]);
    for (kind, number) in [(Kind::Try, 1), (Kind::Exit, 1), (Kind::Fall, 1)] {
        assert_eq!(give(&mut gone, kind, number), Err(18), "{kind:?}");
    }
    for (kind, number) in [(Kind::Down, 2), (Kind::Miss, 2), (Kind::Check, 2), (Kind::Up, 1)] {
        assert_eq!(give(&mut gone, kind, number), Err(18), "{kind:?}");
    }
    // The REQUEST to keeper 2, and the answer to kiosk 1.
    assert_eq!((give(&mut gone, Kind::Take, 2), give(&mut gone, Kind::Take, 3)), (Err(18), Err(18)));
    assert_eq!((give(&mut gone, Kind::Drop, 2), give(&mut gone, Kind::Drop, 3)), (Ok(0), Ok(0)));
}

#[test]
fn owners_that_are_missing() {
    let mut one = after(gallery(2, 1, 2, GALLERY), &[(Kind::Try, 1), (Kind::Take, 1)]);
    assert_eq!(give(&mut one, Kind::Miss, 2), Err(15));
    assert_eq!(give(&mut one, Kind::Miss, 1), Err(20));
    let mut one = after(one, &[(Kind::Try, 2), (Kind::Take, 4), (Kind::Fall, 1)]);
    assert_eq!(give(&mut one, Kind::Miss, 1), Ok(1));
    assert_eq!(one.servers[0].record.owner.map(|p| p.kiosk), Some(2));
    assert_eq!(give(&mut one, Kind::Miss, 1), Err(20));
}

#[test]
fn sections_and_tickets() {
    let mut one = gallery(1, 1, 1, GALLERY);
    assert_eq!(give(&mut one, Kind::Exit, 1), Err(10));
    for (ticket, answer) in [(4_294_967_292, Ok(1)), (4_294_967_293, Ok(1)), (4_294_967_294, Err(11)), (u32::MAX, Err(11))] {
        let mut late = one.clone();
        late.clients[0].record.ticket = ticket;
        assert_eq!(give(&mut late, Kind::Try, 1), answer, "{ticket}");
    }
    let mut trying = after(one, &[(Kind::Try, 1)]);
    assert_eq!((give(&mut trying, Kind::Try, 1), give(&mut trying, Kind::Exit, 1)), (Err(10), Err(10)));
    let mut holding = after(trying, &[(Kind::Take, 1), (Kind::Take, 2)]);
    assert_eq!(holding.clients[0].record.section, HOLDING);
    assert_eq!(give(&mut holding, Kind::Try, 1), Err(10));
    holding.clients[0].record.ticket = 4_294_967_294;
    assert_eq!(give(&mut holding, Kind::Exit, 1), Ok(1));
    assert_eq!((holding.clients[0].record.section, holding.clients[0].record.ticket), (REMAINDER, u32::MAX));
    assert_eq!(give(&mut holding, Kind::Try, 1), Err(11));
}

/// Of two messages one has a place: neither is kept. What sends nothing needs none.
#[test]
fn places_for_what_is_sent() {
    let limits = Limits { places: 3, numbers: 100, ..GALLERY };
    let mut full = after(gallery(2, 2, 2, limits), &[(Kind::Try, 1)]);
    assert_eq!(give(&mut full, Kind::Try, 2), Err(19));
    let mut full = after(full, &[(Kind::Take, 1)]);
    assert_eq!(give(&mut full, Kind::Take, 2), Err(19));
    assert_eq!(give(&mut full, Kind::Check, 1), Err(19));
    assert_eq!(give(&mut full, Kind::Check, 2), Ok(0));
    assert_eq!((full.kept.len(), full.last), (3, 3));
    // The kiosk takes its answer and sends nothing; then the REQUEST's answer has a place.
    let full = after(full, &[(Kind::Take, 3), (Kind::Take, 2), (Kind::Take, 4)]);
    assert_eq!((full.holders(), full.kept.len()), (1, 2));
}

/// Two kiosks divide two keepers. Of 8 messages kept, kiosk 1 takes the second answer (7) and sends two: 9 places do.
#[test]
fn a_kiosks_take_frees_its_place_first() {
    for (places, answer) in [(8, Err(19)), (9, Ok(2))] {
        let start = gallery(2, 2, 2, Limits { places, numbers: 100, ..GALLERY });
        let events = [(Kind::Try, 1), (Kind::Try, 2), (Kind::Take, 1), (Kind::Take, 4), (Kind::Take, 2), (Kind::Take, 3)];
        let mut divided = after(after(start, &events), &[(Kind::Take, 5), (Kind::Check, 1)]);
        assert_eq!((divided.kept.len(), give(&mut divided, Kind::Take, 7)), (8, answer), "{places} places");
        assert_eq!(divided.kept.len(), if answer.is_ok() { 9 } else { 8 });
    }
}

#[test]
fn numbers_for_what_is_sent() {
    for (numbers, answer) in [(9, Err(19)), (10, Ok(3)), (4_294_967_295, Ok(3))] {
        let start = gallery(3, 2, 3, Limits { numbers, ..GALLERY });
        let mut late = after(start, &[(Kind::Try, 1), (Kind::Take, 2), (Kind::Try, 2)]);
        assert_eq!((late.last, give(&mut late, Kind::Try, 3)), (7, answer), "{numbers}");
        assert_eq!(late.last, if answer.is_ok() { 10 } else { 7 });
    }
    let mut last = gallery(3, 2, 3, GALLERY);
    last.last = 4_294_967_293;
    assert_eq!(give(&mut last, Kind::Try, 1), Err(19));
    last.last -= 1;
    assert_eq!(give(&mut last, Kind::Try, 1), Ok(3));
    assert_eq!(last.kept.last().map(|kept| kept.number), Some(4_294_967_295));
}

/// An epoch opens with the keepers down at its start, takes in each that goes down, and closes with exit or fall.
#[test]
fn epochs_and_the_keepers_down_in_them() {
    let set = |ids: &[u32]| Some(ids.iter().copied().collect::<BTreeSet<u32>>());
    let one = after(gallery(4, 1, 2, GALLERY), &[(Kind::Down, 1), (Kind::Up, 1), (Kind::Down, 2)]);
    assert_eq!(one.most_down, 0);
    let one = after(one, &[(Kind::Try, 1), (Kind::Down, 3), (Kind::Up, 3), (Kind::Down, 3)]);
    assert_eq!((&one.clients[0].epoch, one.most_down), (&set(&[2, 3]), 2));
    let one = after(one, &[(Kind::Up, 2), (Kind::Try, 2), (Kind::Take, 1), (Kind::Take, 9), (Kind::Exit, 1)]);
    assert_eq!((&one.clients[0].epoch, &one.clients[1].epoch), (&None, &set(&[3])));
    let one = after(one, &[(Kind::Down, 4), (Kind::Fall, 2), (Kind::Down, 1), (Kind::Down, 2)]);
    assert_eq!((&one.clients[1].epoch, one.most_down), (&None, 2));
    assert_eq!(after(one, &[(Kind::Try, 1)]).most_down, 4);
}

/// Messages of the keeper that goes down wait again, those of another do not; a dropped one is gone.
#[test]
fn what_a_keeper_took_waits_again() {
    let events = [(Kind::Try, 1), (Kind::Take, 1), (Kind::Take, 2), (Kind::Try, 2), (Kind::Take, 5), (Kind::Drop, 1)];
    let mut one = after(gallery(2, 2, 2, GALLERY), &events);
    assert_eq!((give(&mut one, Kind::Take, 2), give(&mut one, Kind::Take, 5)), (Err(17), Err(17)));
    let mut one = after(one, &[(Kind::Down, 1)]);
    assert_eq!((give(&mut one, Kind::Take, 1), give(&mut one, Kind::Take, 2)), (Err(17), Err(17)));
    assert_eq!(give(&mut one, Kind::Take, 5), Err(18));
    let mut one = after(one, &[(Kind::Up, 1)]);
    assert_eq!(give(&mut one, Kind::Take, 5), Ok(1));
    assert_eq!(one.servers[0].record.owner.map(|p| p.kiosk), Some(2));
}

fn any_event(gallery: &Gallery, r: &mut Random) -> Event {
    let kind = r.one_of(&[&KINDS[..], &[Kind::Take; 24], &[Kind::Try, Kind::Exit, Kind::Up]].concat());
    let number = match kind {
        Kind::Take | Kind::Drop => gallery.last.saturating_sub(12) + r.below(14),
        _ => r.below(6),
    };
    Event { kind, number }
}

/// Random events with few places: what the gallery accepts the run accepts too, with the same outcome, and what it refuses
/// but for 19 the run refuses too. From a 19 on the two part.
#[test]
fn a_refused_event_changes_nothing_and_only_19_parts_gallery_and_run() {
    let mut r = Random::new(19);
    let mut met = BTreeMap::new();
    for _ in 0..3000 {
        let mut bounded = gallery(3, 2, 4, Limits { places: 20, numbers: 60, ..GALLERY });
        let mut free = Some(gallery(3, 2, 4, RUN));
        for _ in 0..120 {
            let event = any_event(&bounded, &mut r);
            let before = bounded.clone();
            let answer = bounded.event(event);
            *met.entry(answer.err().unwrap_or(0)).or_insert(0) += 1;
            assert!(answer.is_ok() || bounded == before, "{event:?} was refused {answer:?} and changed something");
            assert_eq!(bounded.accepted, before.accepted + u64::from(answer.is_ok()));
            if answer == Err(19) {
                free = None;
            }
            if let Some(free) = free.as_mut() {
                assert_eq!((free.event(event), &free.kept, &free.clients), (answer, &bounded.kept, &bounded.clients));
            }
        }
    }
    let refusals: Vec<u32> = met.keys().copied().collect();
    assert_eq!(refusals, [0, 10, 15, 17, 18, 19, 20], "{met:?}");
    assert!(met.values().all(|&times| times > 100), "{met:?}");
}

/// With 16 kiosks at most 15 wait, so that the line of 16 places is never too short (14), and no message goes astray.
#[test]
fn sixteen_kiosks_never_fill_a_line() {
    let mut r = Random::new(14);
    let mut longest = 0;
    for _ in 0..200 {
        let mut crowd = gallery(2, 2, 16, RUN);
        for _ in 0..1500 {
            let kind = r.one_of(&[Kind::Try, Kind::Exit, Kind::Take, Kind::Take, Kind::Take, Kind::Take, Kind::Check]);
            let number = if kind == Kind::Take { 1 + r.below(crowd.last + 1) } else { 1 + r.below(16) };
            let answer = crowd.event(Event { kind, number });
            assert!(answer.is_ok() || answer == Err(10) || answer == Err(17), "{kind:?} {number}: {answer:?}");
            longest = crowd.servers.iter().map(|s| s.record.line.len()).max().unwrap_or(0).max(longest);
        }
    }
    assert_eq!(longest, 15);
}
