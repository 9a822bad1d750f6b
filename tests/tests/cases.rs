//! The cases of document 01 about kiosk and keeper, at document 02's limits. Records and messages are written out from their
//! text; library and model must both give them. The tickets that a kiosk has seen have cases of their own, in clock.rs.

use sigma_tests::both::{compare, Event, Outcome, ROOM};
use sigma_tests::model::{CHECK, INQUIRY, RELEASE, REQUEST, RESPONSE, YIELD};
use sigma_tests::players::NEW;
use sigma_tests::{keeper, kiosk, library};

const REMAINDER: u32 = 0;
const TRYING: u32 = 1;
const HOLDING: u32 = 2;
const LAST: u32 = 4_294_967_295;

/// The words of the two records: five, then two for each of 32 places of a line; six, then two for each of 255 answers.
const KEEPER: usize = 69;
const KIOSK: usize = 516;
/// Where a kiosk's record has the largest ticket seen.
const SEEN: usize = 5;

/// Keeper 1 of 4.
fn keeper(owner: [u32; 2], line: &[[u32; 2]]) -> [u32; KEEPER] {
    let mut words = [0; KEEPER];
    words[..5].copy_from_slice(&[4, 1, owner[0], owner[1], line.len() as u32]);
    words[5..5 + 2 * line.len()].copy_from_slice(line.as_flattened());
    words
}

/// Kiosk 5 with n 4 and m 3, and the answers of its four keepers. It has seen nothing.
fn kiosk(section: u32, ticket: u32, answers: [[u32; 2]; 4]) -> [u32; KIOSK] {
    let mut words = [0; KIOSK];
    words[..5].copy_from_slice(&[4, 3, 5, section, ticket]);
    words[6..14].copy_from_slice(answers.as_flattened());
    words
}

const NONE: [u32; 2] = [0, 0];
const NO_ANSWERS: [[u32; 2]; 4] = [NONE; 4];

/// From a kiosk to keeper 1.
fn from(kind: u32, kiosk: u32, ticket: u32) -> [u32; 5] {
    [kind, kiosk, 1, ticket, 0]
}

/// Keeper 1 tells a kiosk its owner.
fn told(kiosk: u32, owner: [u32; 2]) -> [u32; 5] {
    [RESPONSE, kiosk, 1, owner[1], owner[0]]
}

/// A keeper's answer to kiosk 5.
fn answer(keeper: u32, owner: [u32; 2]) -> [u32; 5] {
    [RESPONSE, 5, keeper, owner[1], owner[0]]
}

/// What kiosk 5 sends.
fn to(kind: u32, keeper: u32, ticket: u32) -> [u32; 5] {
    [kind, 5, keeper, ticket, 0]
}

/// The record behind an event: what a kiosk takes it has seen.
fn seen<const W: usize>(before: &[u32; W], event: Event, after: [u32; W]) -> [u32; W] {
    match event {
        Event::KioskTakes(message) => with(after, &[(SEEN, before[SEEN].max(message[3]))]),
        _ => after,
    }
}

fn accepted<const W: usize>(before: [u32; W], event: Event, after: [u32; W], messages: &[[u32; 5]]) {
    let after = seen(&before, event, after);
    let outcome = compare(event, &before, ROOM, 2, 0x77);
    assert_eq!(outcome.number, 0, "{event:?} on {before:?}");
    assert_eq!(outcome.record(), after, "{event:?}");
    assert_eq!(outcome.messages(), messages, "{event:?}");
    let bytes: u32 = messages.iter().map(|m| if m[0] == RESPONSE { 14 } else { 12 }).sum();
    assert_eq!(outcome.sent(), [messages.len() as u32, bytes]);
    for room in 0..bytes {
        refused(&before, event, room as usize, 2, 6);
    }
    for words in 0..2 {
        refused(&before, event, ROOM, words, 6);
    }
    compare(event, &before, bytes as usize, 3, 0xAA);
}

/// `both` sees to it that a refusal changes nothing.
fn refused(record: &[u32], event: Event, room: usize, words: usize, number: u32) {
    assert_eq!(compare(event, record, room, words, 0x77).number, number, "{event:?} on {record:?}");
}

#[test]
fn starred() {
    let row = |before, message: [u32; 5], after, messages: &[[u32; 5]]| {
        accepted(before, Event::KeeperTakes(&message), after, messages);
    };
    let last = keeper([5, 3], &[[2, 3]]);
    row(keeper(NONE, &[]), from(REQUEST, 5, 1), keeper([5, 1], &[]), &[told(5, [5, 1])]);
    row(keeper([5, 3], &[]), from(REQUEST, 5, 3), keeper([5, 3], &[]), &[]);
    row(keeper([5, 3], &[]), from(REQUEST, 2, 3), last, &[told(2, [5, 3])]);
    row(last, from(YIELD, 5, 3), keeper([2, 3], &[[5, 3]]), &[told(2, [2, 3]), told(5, [2, 3])]);
    row(keeper([5, 3], &[[9, 4]]), from(YIELD, 5, 3), keeper([5, 3], &[[9, 4]]), &[told(5, [5, 3])]);
    row(keeper(NONE, &[]), from(YIELD, 5, 3), keeper(NONE, &[]), &[told(5, NONE)]);
    row(last, from(REQUEST, 5, 6), keeper([2, 3], &[[5, 6]]), &[told(2, [2, 3]), told(5, [2, 3])]);
    row(keeper([5, 6], &[]), from(RELEASE, 5, 3), keeper([5, 6], &[]), &[]);

    let before = kiosk(TRYING, 3, [[5, 3], [5, 3], NONE, NONE]);
    let after = kiosk(TRYING, 3, NO_ANSWERS);
    let yields = [to(YIELD, 1, 3), to(YIELD, 2, 3)];
    let event = answer(3, [2, 3]);
    accepted(before, Event::KioskTakes(&event), after, &[yields[0], yields[1], to(INQUIRY, 3, 3)]);
    let event = answer(3, [9, 3]);
    accepted(before, Event::KioskTakes(&event), after, &[yields[0], yields[1], to(REQUEST, 3, 3)]);
}

#[test]
fn the_two_messages_in_bytes() {
    let mut trying = [0; KIOSK];
    trying[..5].copy_from_slice(&[1, 1, 5, REMAINDER, 2]);
    let request = compare(Event::Try, &trying, 12, 2, 0x77);
    assert_eq!(request.bytes(), [0x0C, 0, 0x01, 0, 0x05, 0, 0x01, 0, 0x03, 0, 0, 0]);
    let response = compare(Event::KeeperTakes(&from(INQUIRY, 5, 1)), &keeper([2, 3], &[]), 14, 2, 0x77);
    assert_eq!(response.bytes(), [0x0E, 0, 0x05, 0, 0x05, 0, 0x01, 0, 0x03, 0, 0, 0, 0x02, 0]);
}

#[test]
fn new_records() {
    let mut words = [7; 520];
    for (n, id) in [(1, 1), (4, 1), (31, 31), (32, 1), (32, 32), (254, 254), (255, 1), (255, 255)] {
        assert_eq!(library::server_new(n, id, &mut words[..KEEPER]), 0);
        let mut expected = [0; KEEPER];
        expected[..2].copy_from_slice(&[n, id]);
        assert_eq!(words[..KEEPER], expected);
        assert_eq!(Ok(expected.to_vec()), keeper::Keeper::new(NEW, n, id).map(|k| k.words(NEW)));
    }
    let threes =
        [(1, 1, 1), (4, 3, 5), (31, 31, 65_535), (31, 1, 1), (32, 32, 5), (254, 170, 5), (255, 255, 65_535), (255, 1, 1)];
    for (n, m, id) in threes {
        assert_eq!(library::client_new(n, m, id, &mut words[..KIOSK]), 0);
        let mut expected = [0; KIOSK];
        expected[..3].copy_from_slice(&[n, m, id]);
        assert_eq!(words[..KIOSK], expected);
        assert_eq!(Ok(expected.to_vec()), kiosk::Kiosk::new(NEW, n, m, id).map(|k| k.words(NEW)));
    }
    let mut words = [7; 520];
    let twos = [(0, 0), (0, 1), (4, 0), (4, 5), (256, 1), (257, 1), (LAST, 1), (260, 1), (4, 257), (255, 256), (255, LAST)];
    for (n, id) in twos {
        assert_eq!(library::server_new(n, id, &mut words), 7, "n {n}, keeper {id}");
        assert_eq!(keeper::new(n, id, &mut words), 7);
    }
    let ranges = [(0, 0, 5), (4, 0, 5), (4, 5, 5), (256, 3, 5), (260, 3, 5), (4, 259, 5), (255, 256, 5), (65_536, 3, 5)];
    for (n, m, id) in ranges.into_iter().chain([(4, 3, 0), (4, 3, 65_536), (4, 3, LAST)]) {
        assert_eq!(library::client_new(n, m, id, &mut words), 7, "n {n}, m {m}, kiosk {id}");
        assert_eq!(kiosk::new(n, m, id, &mut words), 7);
    }
    for length in [0, 37, KEEPER - 1] {
        assert_eq!(library::server_new(4, 1, &mut words[..length]), 7);
        assert_eq!(keeper::new(4, 1, &mut words[..length]), 7);
    }
    for length in [0, 67, 514, KIOSK - 1] {
        assert_eq!(library::client_new(4, 3, 5, &mut words[..length]), 7);
        assert_eq!(kiosk::new(4, 3, 5, &mut words[..length]), 7);
    }
    assert_eq!(words, [7; 520]);
}

/// The head moves up and is told, whether the owner is removed by RELEASE, by a newer ticket or because it is missing.
#[test]
fn removing_the_owner() {
    let line = keeper([5, 3], &[[9, 4], [2, 7]]);
    let moved = keeper([9, 4], &[[2, 7]]);
    accepted(line, Event::KeeperTakes(&from(RELEASE, 5, 3)), moved, &[told(9, [9, 4])]);
    accepted(line, Event::Missing, moved, &[told(9, [9, 4])]);
    accepted(line, Event::KeeperTakes(&from(RELEASE, 5, 4)), moved, &[told(9, [9, 4])]);
    accepted(line, Event::KeeperTakes(&from(INQUIRY, 5, 4)), moved, &[told(9, [9, 4]), told(5, [9, 4])]);
    accepted(line, Event::KeeperTakes(&from(YIELD, 5, 4)), moved, &[told(9, [9, 4]), told(5, [9, 4])]);
    let alone = keeper([5, 3], &[]);
    let nobody = keeper(NONE, &[]);
    accepted(alone, Event::KeeperTakes(&from(RELEASE, 5, 3)), nobody, &[]);
    accepted(alone, Event::Missing, nobody, &[]);
    accepted(alone, Event::KeeperTakes(&from(RELEASE, 5, 4)), nobody, &[]);
    accepted(alone, Event::KeeperTakes(&from(INQUIRY, 5, 4)), nobody, &[]);
    accepted(alone, Event::KeeperTakes(&from(YIELD, 5, 4)), nobody, &[told(5, NONE)]);
    accepted(alone, Event::KeeperTakes(&from(REQUEST, 5, 4)), keeper([5, 4], &[]), &[told(5, [5, 4])]);
    refused(&nobody, Event::Missing, ROOM, 2, 15);
    refused(&nobody, Event::Missing, 0, 0, 15);
}

#[test]
fn waiting_in_line() {
    let line = keeper([5, 3], &[[9, 4], [2, 7]]);
    for kind in [REQUEST, YIELD, RELEASE, INQUIRY] {
        accepted(line, Event::KeeperTakes(&from(kind, 9, 3)), line, &[]);
        accepted(line, Event::KeeperTakes(&from(kind, 5, 2)), line, &[]);
    }
    for kind in [REQUEST, YIELD, INQUIRY] {
        accepted(line, Event::KeeperTakes(&from(kind, 9, 4)), line, &[told(9, [5, 3])]);
    }
    accepted(line, Event::KeeperTakes(&from(RELEASE, 9, 4)), keeper([5, 3], &[[2, 7]]), &[]);
    accepted(line, Event::KeeperTakes(&from(RELEASE, 9, 5)), keeper([5, 3], &[[2, 7]]), &[]);
    accepted(line, Event::KeeperTakes(&from(INQUIRY, 9, 5)), keeper([5, 3], &[[2, 7]]), &[told(9, [5, 3])]);
    accepted(line, Event::KeeperTakes(&from(YIELD, 9, 5)), keeper([5, 3], &[[2, 7]]), &[told(9, [5, 3])]);
    accepted(line, Event::KeeperTakes(&from(REQUEST, 9, 8)), keeper([5, 3], &[[2, 7], [9, 8]]), &[told(9, [5, 3])]);
    let tie = keeper([5, 3], &[[9, 4], [2, 7], [7, 7]]);
    accepted(line, Event::KeeperTakes(&from(REQUEST, 7, 7)), tie, &[told(7, [5, 3])]);
    let first = keeper([5, 3], &[[7, 1], [9, 4], [2, 7]]);
    accepted(line, Event::KeeperTakes(&from(REQUEST, 7, 1)), first, &[told(7, [5, 3])]);
}

#[test]
fn inquiry_and_check() {
    let owned = keeper([5, 3], &[[9, 4]]);
    accepted(owned, Event::KeeperTakes(&from(INQUIRY, 7, 1)), owned, &[told(7, [5, 3])]);
    accepted(owned, Event::KeeperTakes(&from(INQUIRY, 5, 3)), owned, &[]);
    accepted(owned, Event::KeeperTakes(&from(YIELD, 7, 1)), owned, &[told(7, [5, 3])]);
    accepted(owned, Event::KeeperTakes(&from(RELEASE, 7, 1)), owned, &[]);
    accepted(owned, Event::Check, owned, &[from(CHECK, 5, 3)]);
    let nobody = keeper(NONE, &[]);
    accepted(nobody, Event::KeeperTakes(&from(INQUIRY, 5, 3)), nobody, &[]);
    accepted(nobody, Event::KeeperTakes(&from(RELEASE, 5, 3)), nobody, &[]);
    accepted(nobody, Event::Check, nobody, &[]);
}

#[test]
fn a_full_line() {
    // Kiosks 101 to 132 wait with tickets 11 to 42.
    let line: [[u32; 2]; 32] = std::array::from_fn(|i| [101 + i as u32, 11 + i as u32]);
    let full = |owner| keeper(owner, &line);
    let all_but_the_first = |last: [u32; 2]| {
        let mut behind = line[1..].to_vec();
        behind.push(last);
        behind
    };

    // The first of the 33 is owner and 32 wait, wherever the old owner's place among them is.
    let after = keeper(line[0], &all_but_the_first([5, 99]));
    accepted(full([5, 99]), Event::KeeperTakes(&from(YIELD, 5, 99)), after, &[told(101, line[0]), told(5, line[0])]);
    let mut second = line;
    second[0] = [200, 11];
    let after = keeper(line[0], &second);
    accepted(full([200, 11]), Event::KeeperTakes(&from(YIELD, 200, 11)), after, &[told(101, line[0]), told(200, line[0])]);
    accepted(full([5, 11]), Event::KeeperTakes(&from(YIELD, 5, 11)), full([5, 11]), &[told(5, [5, 11])]);

    // 14 only where the kiosk must join once its older pair is gone.
    refused(&full([5, 3]), Event::KeeperTakes(&from(REQUEST, 7, 1)), ROOM, 2, 14);
    refused(&full([5, 3]), Event::KeeperTakes(&from(REQUEST, 7, LAST)), 0, 0, 14);
    accepted(full([5, 3]), Event::KeeperTakes(&from(REQUEST, 101, 11)), full([5, 3]), &[told(101, [5, 3])]);
    accepted(full([5, 3]), Event::KeeperTakes(&from(REQUEST, 5, 3)), full([5, 3]), &[]);
    let rejoined = keeper([5, 3], &all_but_the_first([101, 50]));
    accepted(full([5, 3]), Event::KeeperTakes(&from(REQUEST, 101, 50)), rejoined, &[told(101, [5, 3])]);
    let moved = keeper(line[0], &all_but_the_first([5, 50]));
    accepted(full([5, 3]), Event::KeeperTakes(&from(REQUEST, 5, 50)), moved, &[told(101, line[0]), told(5, line[0])]);
    for kind in [YIELD, INQUIRY] {
        accepted(full([5, 3]), Event::KeeperTakes(&from(kind, 7, 1)), full([5, 3]), &[told(7, [5, 3])]);
    }
    accepted(full([5, 3]), Event::KeeperTakes(&from(RELEASE, 7, 1)), full([5, 3]), &[]);
}

/// Kiosks ask one after the other, later ones with earlier tickets, until the line is full: 1 owns, 2 to 33 wait, and 34 finds no
/// place.
#[test]
fn a_line_fills() {
    let waiting = |count: u32| (0..count).map(|i| [count + 1 - i, 1000 - (count + 1 - i)]).collect::<Vec<_>>();
    let mut record = keeper([1, 999], &[]);
    for kiosk in 2..=33 {
        let after = keeper([1, 999], &waiting(kiosk - 1));
        accepted(record, Event::KeeperTakes(&from(REQUEST, kiosk, 1000 - kiosk)), after, &[told(kiosk, [1, 999])]);
        record = after;
    }
    refused(&record, Event::KeeperTakes(&from(REQUEST, 34, 966)), ROOM, 2, 14);
    // Where the owner goes, one place is free again.
    let mut fewer = waiting(32);
    let head = fewer.remove(0);
    accepted(record, Event::Missing, keeper(head, &fewer), &[told(33, head)]);
    accepted(
        keeper(head, &fewer),
        Event::KeeperTakes(&from(REQUEST, 34, 966)),
        keeper(head, &[&[[34, 966]], &fewer[..]].concat()),
        &[told(34, head)],
    );
}

#[test]
fn try_and_exit() {
    let requests = |ticket| [1, 2, 3, 4].map(|keeper| to(REQUEST, keeper, ticket));
    let releases = |ticket| [1, 2, 3, 4].map(|keeper| to(RELEASE, keeper, ticket));
    for last in [0, 1, 65_535, 4_294_967_293] {
        let trying = kiosk(TRYING, last + 1, NO_ANSWERS);
        accepted(kiosk(REMAINDER, last, NO_ANSWERS), Event::Try, trying, &requests(last + 1));
    }
    for last in [4_294_967_294, LAST] {
        let spent = kiosk(REMAINDER, last, NO_ANSWERS);
        refused(&spent, Event::Try, ROOM, 2, 11);
        refused(&spent, Event::Try, 0, 0, 11);
        refused(&spent, Event::Exit, ROOM, 2, 10);
    }
    for ticket in [1, 3, 4_294_967_294] {
        let own = [5, ticket];
        let holding = kiosk(HOLDING, ticket, [own, NONE, own, own]);
        accepted(holding, Event::Exit, kiosk(REMAINDER, ticket + 1, NO_ANSWERS), &releases(ticket));
        refused(&holding, Event::Try, 0, 0, 10);
        let trying = kiosk(TRYING, ticket, [own, NONE, own, NONE]);
        refused(&trying, Event::Try, ROOM, 2, 10);
        refused(&trying, Event::Exit, 0, 0, 10);
    }
}

#[test]
fn answers_while_trying() {
    let own = [5, 3];
    let two = kiosk(TRYING, 3, [own, own, NONE, NONE]);
    let takes = |before, keeper, owner, after| accepted(before, Event::KioskTakes(&answer(keeper, owner)), after, &[]);
    takes(two, 4, own, kiosk(HOLDING, 3, [own, own, NONE, own]));
    takes(kiosk(TRYING, 3, NO_ANSWERS), 2, [9, 1], kiosk(TRYING, 3, [NONE, [9, 1], NONE, NONE]));
    takes(kiosk(TRYING, 3, [[9, 1], own, NONE, NONE]), 1, own, two);
    takes(kiosk(TRYING, 3, [[9, 1], own, NONE, NONE]), 1, [2, 8], kiosk(TRYING, 3, [[2, 8], own, NONE, NONE]));

    // The place already shows this kiosk with its ticket, whatever comes.
    for owner in [own, [5, 2], [5, 4], [2, 3], [9, 3], NONE] {
        takes(two, 1, owner, two);
    }
    // The owner is this kiosk with another ticket: an old answer is not counted.
    for ticket in [1, 2, 4, LAST] {
        takes(two, 3, [5, ticket], two);
        takes(kiosk(TRYING, 3, [[9, 1], NONE, NONE, NONE]), 1, [5, ticket], kiosk(TRYING, 3, [[9, 1], NONE, NONE, NONE]));
    }
    // An answer without an owner empties the place.
    takes(kiosk(TRYING, 3, [[9, 1], own, NONE, NONE]), 1, NONE, kiosk(TRYING, 3, [NONE, own, NONE, NONE]));
    takes(two, 3, NONE, two);

    // Nobody's support in a round: a pair before its own is asked about, one behind it is asked again.
    let others = kiosk(TRYING, 3, [[4, 3], NONE, [6, 3], NONE]);
    let round = [to(INQUIRY, 1, 3), to(REQUEST, 3, 3), to(REQUEST, 4, 3)];
    accepted(others, Event::KioskTakes(&answer(4, [1, 4])), kiosk(TRYING, 3, NO_ANSWERS), &round);
    let round = [to(INQUIRY, 1, 3), to(REQUEST, 3, 3), to(YIELD, 4, 3)];
    accepted(others, Event::KioskTakes(&answer(4, own)), kiosk(TRYING, 3, NO_ANSWERS), &round);
    let round = [to(INQUIRY, 1, 3), to(INQUIRY, 2, 3), to(REQUEST, 3, 3)];
    accepted(others, Event::KioskTakes(&answer(2, [9, 2])), kiosk(TRYING, 3, NO_ANSWERS), &round);
}

/// The support yielded in a round is not counted again unless it is given again.
#[test]
fn after_a_round() {
    let own = [5, 3];
    let mut record = kiosk(TRYING, 3, [own, own, NONE, NONE]);
    for message in [answer(3, [2, 3]), answer(3, own), answer(4, own)] {
        let outcome = compare(Event::KioskTakes(&message), &record, ROOM, 2, 0);
        record.copy_from_slice(outcome.record());
    }
    assert_eq!(record, with(kiosk(TRYING, 3, [NONE, NONE, own, own]), &[(SEEN, 3)]));
    accepted(record, Event::KioskTakes(&answer(1, own)), kiosk(HOLDING, 3, [own, NONE, own, own]), &[]);
}

/// Kiosk 5 needs all of 255 keepers: it tries, holds with their answers and leaves; with the last one's for another it writes to
/// all.
#[test]
fn every_keeper_there_is() {
    let largest = |section, ticket, answers: &[[u32; 2]]| {
        let mut words = with([0; KIOSK], &[(0, 255), (1, 255), (2, 5), (3, section), (4, ticket)]);
        words[6..6 + 2 * answers.len()].copy_from_slice(answers.as_flattened());
        words
    };
    let all = |kind| (1..=255).map(|keeper| to(kind, keeper, 3)).collect::<Vec<_>>();
    let (own, message) = ([[5, 3]; 255], answer(255, [5, 3]));
    accepted(largest(REMAINDER, 2, &[]), Event::Try, largest(TRYING, 3, &[]), &all(REQUEST));
    accepted(largest(TRYING, 3, &own[..254]), Event::KioskTakes(&message), largest(HOLDING, 3, &own), &[]);
    accepted(largest(HOLDING, 3, &own), Event::Exit, largest(REMAINDER, 4, &[]), &all(RELEASE));
    let mut round = all(YIELD);
    round[254] = to(INQUIRY, 255, 3);
    accepted(largest(TRYING, 3, &own[..254]), Event::KioskTakes(&answer(255, [2, 3])), largest(TRYING, 3, &[]), &round);
    refused(&largest(TRYING, 3, &own), Event::Exit, ROOM, 2, 21);
    refused(&largest(HOLDING, 3, &own[..254]), Event::Exit, ROOM, 2, 21);
    refused(&largest(TRYING, 3, &[]), Event::KioskTakes(&answer(256, [5, 3])), ROOM, 2, 5);
}

#[test]
fn answers_elsewhere_and_checks() {
    let own = [5, 3];
    let records =
        [kiosk(REMAINDER, 3, NO_ANSWERS), kiosk(TRYING, 3, [own, [9, 1], NONE, NONE]), kiosk(HOLDING, 3, [own, own, NONE, own])];
    for record in records {
        for owner in [own, [5, 2], [9, 3], NONE] {
            if record[3] != TRYING {
                accepted(record, Event::KioskTakes(&answer(3, owner)), record, &[]);
            }
        }
        accepted(record, Event::KioskTakes(&to(CHECK, 4, 3)), record, &[]);
        for ticket in [1, 2, 4, LAST] {
            accepted(record, Event::KioskTakes(&to(CHECK, 4, ticket)), record, &[to(RELEASE, 4, ticket)]);
        }
    }
    let never_tried = kiosk(REMAINDER, 0, NO_ANSWERS);
    accepted(never_tried, Event::KioskTakes(&to(CHECK, 1, 1)), never_tried, &[to(RELEASE, 1, 1)]);
    let last = kiosk(REMAINDER, LAST, NO_ANSWERS);
    accepted(last, Event::KioskTakes(&to(CHECK, 1, LAST)), last, &[]);
}

#[test]
fn messages_refused() {
    let record = keeper([5, 3], &[[2, 3]]);
    // In the message's own keeper field 1 to 255 is in range, whatever n is.
    for keeper in [2, 4, 5, 31, 32, 33, 254, 255] {
        refused(&record, Event::KeeperTakes(&[REQUEST, 7, keeper, 3, 0]), 0, 0, 13);
    }
    for message in [told(7, [5, 3]), from(CHECK, 5, 3)] {
        refused(&record, Event::KeeperTakes(&message), 0, 0, 13);
    }
    let mine = kiosk(TRYING, 3, [[5, 3], NONE, NONE, NONE]);
    for message in [answer(5, [5, 3]), answer(31, NONE), [RESPONSE, 6, 1, 3, 5], [CHECK, 6, 1, 3, 0], to(CHECK, 5, 3)] {
        refused(&mine, Event::KioskTakes(&message), 0, 0, 12);
    }
    for keeper in [32, 33, 254, 255] {
        refused(&mine, Event::KioskTakes(&answer(keeper, [5, 3])), 0, 0, 12);
        refused(&mine, Event::KioskTakes(&to(CHECK, keeper, 3)), 0, 0, 12);
    }
    for kind in [REQUEST, YIELD, RELEASE, INQUIRY] {
        refused(&mine, Event::KioskTakes(&to(kind, 1, 3)), 0, 0, 12);
    }
    // 5 comes before 12 and 13, for the owner's numbers too.
    let ranges = [
        [0, 5, 1, 3, 0],
        [7, 5, 1, 3, 0],
        [REQUEST, 0, 1, 3, 0],
        [REQUEST, 65_536, 1, 3, 0],
        [REQUEST, 5, 0, 3, 0],
        [REQUEST, 5, 256, 3, 0],
        [REQUEST, 5, 257, 3, 0],
        [REQUEST, 5, 1, 0, 0],
        [REQUEST, 5, 1, 3, 5],
        [CHECK, 5, 1, 0, 0],
        [RESPONSE, 5, 1, 3, 0],
        [RESPONSE, 5, 1, 0, 5],
        [RESPONSE, 5, 1, 3, 65_536],
        [RESPONSE, 6, 256, 3, 5],
        [RESPONSE, 5, 65_537, 3, 5],
    ];
    for message in ranges {
        refused(&record, Event::KeeperTakes(&message), 0, 0, 5);
        refused(&mine, Event::KioskTakes(&message), 0, 0, 5);
    }
    for count in [0, 1, 4, 6] {
        refused(&record, Event::KeeperTakes(&[1; 6][..count]), 0, 0, 5);
        refused(&mine, Event::KioskTakes(&[1; 6][..count]), 0, 0, 5);
    }
}

/// `record` with some words replaced.
fn with<const W: usize>(record: [u32; W], changes: &[(usize, u32)]) -> [u32; W] {
    let mut record = record;
    for &(at, word) in changes {
        record[at] = word;
    }
    record
}

#[test]
fn broken_keepers() {
    let record = keeper([5, 3], &[[9, 4], [2, 7]]);
    let broken = [
        with(record, &[(0, 0)]),
        with(record, &[(0, 256)]),
        with(record, &[(0, 256 + 4)]),
        with(record, &[(0, 65_536 + 4)]),
        with(record, &[(1, 0)]),
        with(record, &[(1, 5)]),
        with(record, &[(2, 0)]),
        with(record, &[(3, 0)]),
        with(record, &[(2, 65_536)]),
        with(record, &[(2, 65_536 + 5)]),
        with(record, &[(4, 1)]),
        with(record, &[(4, 3)]),
        with(record, &[(4, 33)]),
        with(record, &[(4, LAST)]),
        with(record, &[(5, 0)]),
        with(record, &[(6, 0)]),
        with(record, &[(5, 65_536)]),
        with(record, &[(5, 0), (6, 0)]),
        with(record, &[(9, 7)]),
        with(record, &[(10, 9)]),
        with(record, &[(35, 7), (36, 9)]),
        with(record, &[(37, 7), (38, 9)]),
        with(record, &[(67, 7), (68, 9)]),
        // a line without an owner
        with(record, &[(2, 0), (3, 0)]),
        // a line not strictly in order
        with(record, &[(6, 8)]),
        with(record, &[(6, 7)]),
        with(record, &[(5, 2), (6, 7)]),
        // a kiosk present twice
        with(record, &[(2, 9)]),
        with(record, &[(2, 2), (3, 7)]),
        with(record, &[(7, 9)]),
    ];
    for record in broken {
        for event in [Event::Missing, Event::Check, Event::KeeperTakes(&from(REQUEST, 5, 3)), Event::KeeperTakes(&[])] {
            refused(&record, event, 0, 0, 21);
        }
    }
    for n in [31, 32, 255] {
        assert_eq!(compare(Event::Check, &with(record, &[(0, n), (1, n)]), ROOM, 2, 0x77).number, 0, "keeper {n} of {n}");
    }
    for event in [Event::Missing, Event::Check, Event::KeeperTakes(&from(REQUEST, 5, 3))] {
        refused(&record[..KEEPER - 1], event, ROOM, 2, 21);
        refused(&record[..37], event, ROOM, 2, 21);
        refused(&[record.as_slice(), &[0]].concat(), event, ROOM, 2, 21);
        refused(&[], event, ROOM, 2, 21);
    }
}

#[test]
fn broken_kiosks() {
    let own = [5, 3];
    let trying = kiosk(TRYING, 3, [own, [9, 1], NONE, NONE]);
    let holding = kiosk(HOLDING, 3, [own, own, own, NONE]);
    let remainder = kiosk(REMAINDER, 3, NO_ANSWERS);
    let broken = [
        with(remainder, &[(0, 0)]),
        with(remainder, &[(0, 2)]),
        with(remainder, &[(0, 256)]),
        with(remainder, &[(0, 256 + 4)]),
        with(remainder, &[(1, 0)]),
        with(remainder, &[(1, 5)]),
        with(remainder, &[(2, 0)]),
        with(remainder, &[(2, 65_536 + 5)]),
        with(remainder, &[(3, 3)]),
        with(remainder, &[(3, LAST)]),
        with(trying, &[(8, 65_536)]),
        with(trying, &[(8, 0)]),
        with(trying, &[(9, 0)]),
        // a place past keeper n
        with(trying, &[(8, 0), (9, 0), (14, 9), (15, 1)]),
        with(trying, &[(8, 0), (9, 0), (66, 9), (67, 1)]),
        with(trying, &[(8, 0), (9, 0), (68, 9), (69, 1)]),
        with(trying, &[(8, 0), (9, 0), (514, 9), (515, 1)]),
        // trying with m places filled, or more
        with(trying, &[(10, 9), (11, 1)]),
        with(trying, &[(10, 9), (11, 1), (12, 9), (13, 1)]),
        with(holding, &[(3, TRYING)]),
        // holding with other than m places filled, or one not its own
        with(holding, &[(10, 0), (11, 0)]),
        with(holding, &[(12, 5), (13, 3)]),
        with(holding, &[(10, 9)]),
        // a place filled in remainder
        with(remainder, &[(6, 9), (7, 1)]),
        with(holding, &[(3, REMAINDER)]),
        // an own answer with another ticket
        with(trying, &[(7, 2)]),
        with(holding, &[(7, 4)]),
        with(holding, &[(4, 4)]),
        // trying or holding with ticket 0 or the last
        kiosk(TRYING, 0, NO_ANSWERS),
        kiosk(TRYING, LAST, NO_ANSWERS),
        kiosk(HOLDING, LAST, [[5, LAST], [5, LAST], [5, LAST], NONE]),
    ];
    let check = to(CHECK, 1, 3);
    // Whatever the kiosk has seen.
    for record in [0, 3, LAST].into_iter().flat_map(|seen| broken.map(|record| with(record, &[(SEEN, seen)]))) {
        for event in [Event::Try, Event::Exit, Event::KioskTakes(&check), Event::KioskTakes(&[])] {
            refused(&record, event, 0, 0, 21);
        }
    }
    for n in [31, 32, 255] {
        assert_eq!(compare(Event::Try, &with(remainder, &[(0, n), (1, n)]), ROOM, 2, 0x77).sent()[0], n, "{n} keepers");
    }
    for event in [Event::Try, Event::Exit, Event::KioskTakes(&check)] {
        refused(&remainder[..KIOSK - 1], event, ROOM, 2, 21);
        refused(&remainder[..67], event, ROOM, 2, 21);
        refused(&remainder[..515], event, ROOM, 2, 21);
        refused(&[remainder.as_slice(), &[0]].concat(), event, ROOM, 2, 21);
        refused(&[], event, ROOM, 2, 21);
    }
}

/// Kiosks and keepers of one setting, and messages numbered from 1 as sent: the papers' two runs, event by event.
struct Wall {
    kiosks: Vec<Vec<u32>>,
    keepers: Vec<Vec<u32>>,
    messages: Vec<[u32; 5]>,
}

impl Wall {
    fn new(n: u32, m: u32, kiosks: u32) -> Wall {
        let kiosk = |id| with([0; KIOSK], &[(0, n), (1, m), (2, id)]).to_vec();
        let keeper = |id| with([0; KEEPER], &[(0, n), (1, id)]).to_vec();
        Wall { kiosks: (1..=kiosks).map(kiosk).collect(), keepers: (1..=n).map(keeper).collect(), messages: vec![] }
    }

    fn keep(&mut self, outcome: &Outcome) {
        assert_eq!(outcome.number, 0);
        self.messages.extend(outcome.messages());
    }

    fn attempt(&mut self, kiosk: usize) {
        let outcome = compare(Event::Try, &self.kiosks[kiosk - 1], ROOM, 2, 0);
        self.kiosks[kiosk - 1] = outcome.record().to_vec();
        self.keep(&outcome);
    }

    fn take(&mut self, number: usize) {
        let message = self.messages[number - 1];
        let outcome = if message[0] < RESPONSE {
            let keeper = &mut self.keepers[message[2] as usize - 1];
            let outcome = compare(Event::KeeperTakes(&message), keeper, ROOM, 2, 0);
            *keeper = outcome.record().to_vec();
            outcome
        } else {
            let kiosk = &mut self.kiosks[message[1] as usize - 1];
            let outcome = compare(Event::KioskTakes(&message), kiosk, ROOM, 2, 0);
            *kiosk = outcome.record().to_vec();
            outcome
        };
        self.keep(&outcome);
    }

    fn restart(&mut self, keeper: usize) {
        let n = self.keepers[keeper - 1][0];
        assert_eq!(library::server_new(n, keeper as u32, &mut self.keepers[keeper - 1]), 0);
    }

    /// Messages sent so far, and holders.
    fn seen(&self) -> (usize, usize) {
        (self.messages.len(), self.kiosks.iter().filter(|k| k[3] == HOLDING).count())
    }
}

#[test]
fn the_gallery_example_step_by_step() {
    let mut wall = Wall::new(2, 1, 2);
    wall.attempt(1);
    assert_eq!(wall.seen(), (2, 0));
    wall.take(1);
    assert_eq!(wall.seen(), (3, 0));
    wall.take(3);
    assert_eq!(wall.seen(), (3, 1));
    wall.attempt(2);
    assert_eq!(wall.seen(), (5, 1));
    wall.take(5);
    assert_eq!(wall.seen(), (6, 1));
    wall.take(6);
    assert_eq!(wall.seen(), (6, 2));
}

/// More than half for m: 3 keepers, m 2, one restart, two holders.
#[test]
fn the_unsafe_run_of_3_2_1() {
    let mut wall = Wall::new(3, 2, 2);
    wall.attempt(1);
    for number in [1, 2, 4, 5] {
        wall.take(number);
    }
    assert_eq!(wall.seen(), (5, 1));
    wall.restart(1);
    wall.attempt(2);
    for number in [6, 8, 9, 10] {
        wall.take(number);
    }
    assert_eq!(wall.seen(), (10, 2));
    assert_eq!(wall.messages[8..], [[RESPONSE, 2, 1, 1, 2], [RESPONSE, 2, 3, 1, 2]]);
}

/// The unsafe run of this setting, asked for event by event and made by the library's own steps.
fn unsafe_run(n: u32, m: u32, f: u32) {
    let mut check = [0; 2];
    assert_eq!(library::setting(n, m, f, &mut check), 8, "{n} {m} {f}");
    let mut wall = Wall::new(n, m, 2);
    for i in 1..=check[1] {
        assert!(wall.seen().1 < 2, "two hold before event {i} of {n} {m} {f}");
        let mut event = [0; 2];
        assert_eq!(library::run_event(n, m, f, i, &mut event), 0);
        let number = event[1] as usize;
        match event[0] {
            1 => wall.attempt(number),
            4 => wall.restart(number),
            5 => (),
            6 => wall.take(number),
            kind => panic!("kind {kind} in the run of {n} {m} {f}"),
        }
    }
    assert_eq!(wall.seen().1, 2, "{n} {m} {f}");
}

#[test]
fn unsafe_runs_with_many_keepers() {
    for (n, m, f) in [(31, 31, 31), (32, 32, 32), (32, 16, 0), (60, 40, 20), (254, 169, 84), (255, 170, 85), (255, 255, 255)] {
        unsafe_run(n, m, f);
    }
}
