//! The course's lesson on newcomers, document 02, L4: the script `newcomer`, by kiosks without a clock and by those that have one, and
//! by the library. "A kiosk switched on after lunch has low tickets and passes everyone, try after try."

use sigma_tests::files::contents;
use sigma_tests::gallery::{Event, Gallery, Kind, GALLERY};
use sigma_tests::kiosk::{HOLDING, TRYING};
use sigma_tests::players::{Players, NEW, WIDE};
use sigma_tests::script::{event, first, lines};
use sigma_tests::setting::Setting;
use sigma_tests::simulation::{by_call, client_at, new_by_call, WORDS};

fn script() -> ([u32; 4], Vec<Event>) {
    let script = contents("newcomer.script");
    let mut lines = lines(&script);
    let setting = lines.next().map(first).expect("a line").expect("a setting");
    (setting, lines.map(|line| event(line).expect("an event")).collect())
}

/// The kiosk that comes late.
const LATE: usize = 3;

/// What the gallery is after each event, and whether it was accepted.
fn play(players: Players) -> Vec<(Gallery, Result<usize, u32>)> {
    let ([n, m, f, kiosks], events) = script();
    let mut gallery = Gallery::of(players, Setting::new(n, m, f).expect("in range"), kiosks, GALLERY).expect("in range");
    let mut give = |event: &Event| {
        let answer = gallery.event(*event);
        (gallery.clone(), answer)
    };
    events.iter().map(&mut give).collect()
}

/// Kiosk `k` and its ticket where it stands in this section.
fn ticket_in(gallery: &Gallery, k: usize, section: u32) -> Option<u32> {
    let record = &gallery.clients[k - 1].record;
    (record.section == section).then_some(record.ticket)
}

/// A try of the late kiosk: its ticket, the kiosks that were trying already, with their tickets, and those of them that it passed: they
/// still tried when it came to hold.
#[derive(Debug, PartialEq, Eq)]
struct Try {
    ticket: u32,
    waiting: Vec<(usize, u32)>,
    passed: Vec<(usize, u32)>,
}

fn waiting(gallery: &Gallery) -> Vec<(usize, u32)> {
    (1..LATE).filter_map(|k| Some((k, ticket_in(gallery, k, TRYING)?))).collect()
}

fn tries(run: &[(Gallery, Result<usize, u32>)]) -> Vec<Try> {
    let (_, events) = script();
    let tries = (0..events.len()).filter(|&row| events[row] == Event { kind: Kind::Try, number: LATE as u64 });
    let tried = |row: usize| {
        let now = &run[row].0;
        // At the end it may still be trying: then it has passed nobody.
        let holds = run[row..].iter().find(|(gallery, _)| ticket_in(gallery, LATE, HOLDING).is_some());
        let then = holds.map_or(vec![], |(gallery, _)| waiting(gallery));
        let passed = waiting(now).into_iter().filter(|pair| then.contains(pair)).collect();
        Try { ticket: now.clients[LATE - 1].record.ticket, waiting: waiting(now), passed }
    };
    tries.map(tried).collect()
}

/// Last plus one: tickets 1, 3 and 5, and kiosk 2 is passed each time.
#[test]
fn passes_everyone_try_after_try() {
    let passes = |ticket, other| Try { ticket, waiting: vec![other], passed: vec![other] };
    assert_eq!(tries(&play(WIDE)), [passes(1, (2, 3)), passes(3, (2, 5)), passes(5, (2, 7))]);
}

/// Above all that it has seen: tickets 1, 6 and 8, and kiosk 2 is passed at the first try only.
#[test]
fn passes_at_its_first_try_only() {
    let behind = |ticket, other| Try { ticket, waiting: vec![other], passed: vec![] };
    assert_eq!(tries(&play(NEW))[0], Try { ticket: 1, waiting: vec![(2, 3)], passed: vec![(2, 3)] });
    assert_eq!(tries(&play(NEW))[1..], [behind(6, (2, 5)), behind(8, (2, 7))]);
    let (end, _) = play(NEW).pop().expect("an event");
    assert_eq!((ticket_in(&end, 2, HOLDING), ticket_in(&end, LATE, TRYING)), (Some(7), Some(8)));
}

/// One script under both rules, whose messages have the same numbers; but who is asked to leave and is not in is refused: kiosk 3 where
/// it has not passed kiosk 2, and the other way round.
#[test]
fn one_script_under_both_rules() {
    let (old, new) = (play(WIDE), play(NEW));
    let differs: Vec<_> =
        (1..).zip(old.iter().zip(&new)).filter(|(_, (a, b))| a.1 != b.1).map(|(row, (a, b))| (row, a.1, b.1)).collect();
    let other_way_round = [(42, Ok(1), Err(10)), (43, Err(10), Ok(1)), (46, Err(10), Ok(1)), (47, Ok(1), Err(10))];
    assert_eq!(differs, other_way_round);
    let ([.., kiosks], events) = script();
    assert_eq!((events.len(), old.len(), kiosks), (58, 58, 3));
    assert!(old.iter().zip(&new).all(|((a, _), (b, _))| a.holders() <= 1 && b.holders() <= 1));
    // Behind the pairs of exits as many messages were sent.
    assert!((1..).zip(old.iter().zip(&new)).all(|(row, (a, b))| a.0.last == b.0.last || [42, 46].contains(&row)));
}

/// Who stands in the keeper's line where the lesson says so: kiosk and ticket.
#[test]
fn the_line_behind_each_try_of_the_late_kiosk() {
    let line = |players, row: usize| -> Vec<(u32, u32)> {
        let run = play(players);
        run[row - 1].0.servers[0].record.line.iter().map(|pair| (pair.kiosk, pair.ticket)).collect()
    };
    assert_eq!([22, 38, 55].map(|row| line(NEW, row)), [[(3, 1), (2, 3)], [(2, 5), (3, 6)], [(2, 7), (3, 8)]]);
    assert_eq!([22, 38, 55].map(|row| line(WIDE, row)), [[(3, 1), (2, 3)], [(3, 3), (2, 5)], [(3, 5), (2, 7)]]);
}

/// The library's kiosks, event by event: what the lesson says of their tickets, and of what the late one has seen.
#[test]
fn the_library_plays_it() {
    let ([n, m, f, kiosks], events) = script();
    let mut words = new_by_call(n, m, f, kiosks, WORDS).expect("in range");
    let slip = |words: &[u32], k: usize| -> [u32; 3] { std::array::from_fn(|i| words[client_at(k - 1) + 4 + i]) };
    // Behind the event of this number: a kiosk's section, ticket and largest ticket seen.
    let said = [
        (18, 1, [HOLDING, 5, 5]),
        (19, 2, [TRYING, 3, 1]),
        (21, 3, [TRYING, 1, 0]),
        (25, 3, [HOLDING, 1, 1]),
        (26, 3, [HOLDING, 1, 5]),
        (27, 3, [0, 2, 5]),
        (35, 2, [TRYING, 5, 3]),
        (37, 3, [TRYING, 6, 5]),
        (41, 2, [HOLDING, 5, 5]),
        (46, 3, [0, 7, 6]),
        (54, 3, [TRYING, 8, 6]),
        (58, 2, [HOLDING, 7, 7]),
        (58, 1, [0, 10, 9]),
    ];
    let mut met = 0;
    for (row, event) in (1..).zip(&events) {
        let answer = by_call(&mut words, event.kind as u32, event.number as u32, 2);
        assert_eq!(answer.is_err(), [42, 47].contains(&row), "{row}: {answer:?}");
        for &(_, k, slip_then) in said.iter().filter(|(at, ..)| *at == row) {
            assert_eq!(slip(&words, k), slip_then, "kiosk {k} behind event {row}");
            met += 1;
        }
    }
    assert_eq!(met, said.len());
}
