//! Document 02, L4: the tickets that a kiosk takes at its tries, and what it has seen. Every figure is worked out by hand from the
//! document; library and model must both give it.

use sigma_tests::both::{compare, Event, Outcome, ROOM};
use sigma_tests::gallery::{Event as Line, Gallery, Kind, GALLERY};
use sigma_tests::model::{CHECK, INQUIRY, RELEASE, REQUEST, RESPONSE, YIELD};
use sigma_tests::setting::Setting;
use sigma_tests::simulation::{by_call, by_script, client_at, new_by_call, slot_at, words_of, WORDS};

const REMAINDER: u32 = 0;
const TRYING: u32 = 1;
const HOLDING: u32 = 2;
const LAST: u32 = 4_294_967_295;

/// The words of a kiosk's record, of which number 5 is the largest ticket seen and the answers begin at number 6.
const KIOSK: usize = 516;
const NONE: [u32; 2] = [0, 0];

/// Kiosk 5 of three keepers with threshold 2, and their answers.
fn kiosk(section: u32, ticket: u32, seen: u32, answers: [[u32; 2]; 3]) -> Vec<u32> {
    let mut words = vec![3, 2, 5, section, ticket, seen];
    words.extend(answers.as_flattened());
    words.resize(KIOSK, 0);
    words
}

fn idle(ticket: u32, seen: u32) -> Vec<u32> {
    kiosk(REMAINDER, ticket, seen, [NONE; 3])
}

fn trying(ticket: u32, seen: u32) -> Vec<u32> {
    kiosk(TRYING, ticket, seen, [NONE; 3])
}

/// It holds with the answers of keepers 1 and 2.
fn holding(ticket: u32, seen: u32) -> Vec<u32> {
    kiosk(HOLDING, ticket, seen, [[5, ticket], [5, ticket], NONE])
}

/// A keeper's answer to kiosk 5.
fn answer(keeper: u32, owner: [u32; 2]) -> [u32; 5] {
    [RESPONSE, 5, keeper, owner[1], owner[0]]
}

fn check(ticket: u32) -> [u32; 5] {
    [CHECK, 5, 1, ticket, 0]
}

/// What kiosk 5 sends to all its keepers.
fn to_all(kind: u32, ticket: u32) -> Vec<[u32; 5]> {
    [1, 2, 3].map(|keeper| [kind, 5, keeper, ticket, 0]).to_vec()
}

fn step(event: Event, record: &[u32]) -> Outcome {
    compare(event, record, ROOM, 2, 0x77)
}

/// Accepted, with this record and these messages behind it.
fn gives(event: Event, before: &[u32], after: &[u32], messages: &[[u32; 5]]) {
    let outcome = step(event, before);
    assert_eq!((outcome.number, outcome.record()), (0, after), "{event:?} on {:?}", &before[..12]);
    assert_eq!(outcome.messages(), messages, "{event:?} on {:?}", &before[..12]);
}

// By hand ---------------------------------------------------------------------------------------------------------------------

/// "Worked case: last 3, seen 40, try gives 41, exit 42."
#[test]
fn the_worked_case() {
    gives(Event::Try, &idle(3, 40), &trying(41, 40), &to_all(REQUEST, 41));
    let own = [5, 41];
    gives(Event::KioskTakes(&answer(1, own)), &trying(41, 40), &kiosk(TRYING, 41, 41, [own, NONE, NONE]), &[]);
    gives(Event::KioskTakes(&answer(2, own)), &kiosk(TRYING, 41, 41, [own, NONE, NONE]), &holding(41, 41), &[]);
    gives(Event::Exit, &holding(41, 41), &idle(42, 41), &to_all(RELEASE, 41));
}

/// The exit takes last plus one although something larger was seen; the next try is above that.
#[test]
fn the_exit_takes_the_next() {
    gives(Event::Exit, &holding(41, 50), &idle(42, 50), &to_all(RELEASE, 41));
    gives(Event::Try, &idle(42, 50), &trying(51, 50), &to_all(REQUEST, 51));
    for seen in [0, 1, 40, 41, 42, 4_294_967_294, LAST] {
        gives(Event::Exit, &holding(41, seen), &idle(42, seen), &to_all(RELEASE, 41));
    }
    gives(Event::Exit, &holding(4_294_967_294, 7), &idle(LAST, 7), &to_all(RELEASE, 4_294_967_294));
}

/// From the start: an answer of another's ticket 40 while it tries with 1, and one that comes when it is back in remainder.
#[test]
fn from_a_fresh_start() {
    let mut record = vec![0; KIOSK];
    assert_eq!(sigma_tests::library::client_new(3, 2, 5, &mut record), 0);
    assert_eq!(record, idle(0, 0), "it has seen nothing");
    let events = [
        (Event::Try, trying(1, 0)),
        (Event::KioskTakes(&[RESPONSE, 5, 3, 40, 9]), kiosk(TRYING, 1, 40, [NONE, NONE, [9, 40]])),
        (Event::KioskTakes(&[RESPONSE, 5, 3, 0, 0]), trying(1, 40)),
        (Event::KioskTakes(&[RESPONSE, 5, 1, 1, 5]), kiosk(TRYING, 1, 40, [[5, 1], NONE, NONE])),
        (Event::KioskTakes(&[RESPONSE, 5, 2, 1, 5]), holding(1, 40)),
        (Event::Exit, idle(2, 40)),
        (Event::KioskTakes(&[RESPONSE, 5, 3, 60, 9]), idle(2, 60)),
        (Event::Try, trying(61, 60)),
    ];
    for (event, after) in events {
        let outcome = step(event, &record);
        assert_eq!((outcome.number, outcome.record()), (0, &after[..]), "{event:?}");
        record = after;
    }
}

/// "11 at a try whenever the larger of the two is above 4,294,967,293." Otherwise the next above both.
#[test]
fn tickets_spent() {
    let most = 4_294_967_293;
    for (last, seen) in [(most, 0), (0, most), (most, most), (1, most), (most, 7), (most - 1, most), (most, most - 1)] {
        gives(Event::Try, &idle(last, seen), &trying(4_294_967_294, seen), &to_all(REQUEST, 4_294_967_294));
    }
    gives(Event::Try, &idle(most - 1, most - 1), &trying(most, most - 1), &to_all(REQUEST, most));
    for above in [4_294_967_294, LAST] {
        for other in [0, 1, most, 4_294_967_294, LAST] {
            for (last, seen) in [(above, other), (other, above)] {
                assert_eq!(step(Event::Try, &idle(last, seen)).number, 11, "last {last}, seen {seen}");
                assert_eq!(compare(Event::Try, &idle(last, seen), 0, 0, 0x77).number, 11, "11 before 6");
                assert_eq!(step(Event::Exit, &idle(last, seen)).number, 10, "10 of another section");
            }
        }
    }
    // 10 comes before 11, and who tries or holds is not stopped by what it has seen.
    assert_eq!([trying(3, LAST), holding(3, LAST)].map(|record| step(Event::Try, &record).number), [10, 10]);
}

/// A CHECK with the last ticket ends all tries of the kiosk, however low its own ticket is; it holds and leaves all the same.
#[test]
fn a_check_that_ends_all_tries() {
    for section in [idle(3, 3), trying(3, 3), holding(3, 3)] {
        let outcome = step(Event::KioskTakes(&check(LAST)), &section);
        assert_eq!((outcome.number, outcome.record()[5]), (0, LAST));
        assert_eq!(outcome.messages(), [[RELEASE, 5, 1, LAST, 0]]);
    }
    assert_eq!(step(Event::Try, &idle(3, LAST)).number, 11);
    gives(Event::Exit, &holding(3, LAST), &idle(4, LAST), &to_all(RELEASE, 3));
    assert_eq!(step(Event::Try, &idle(4, LAST)).number, 11);
}

/// In each section, with 10 seen before: what is said of ticket 40 is seen, whatever becomes of it, and what is said of ticket 9 is not
/// forgotten for it.
#[test]
fn what_is_seen() {
    let own = [5, 20];
    for ticket in [40, 9] {
        let seen = ticket.max(10);
        let other = [9, ticket];
        // Kept in an empty place, and in one that another has.
        gives(Event::KioskTakes(&answer(3, other)), &trying(20, 10), &kiosk(TRYING, 20, seen, [NONE, NONE, other]), &[]);
        let one = |place| kiosk(TRYING, 20, 10, [place, NONE, NONE]);
        gives(Event::KioskTakes(&answer(1, other)), &one([2, 8]), &kiosk(TRYING, 20, seen, [other, NONE, NONE]), &[]);
        // Not kept: the place shows this kiosk with its ticket; the answer names this kiosk with another.
        gives(Event::KioskTakes(&answer(1, other)), &one(own), &kiosk(TRYING, 20, seen, [own, NONE, NONE]), &[]);
        gives(Event::KioskTakes(&answer(1, [5, ticket])), &one(own), &kiosk(TRYING, 20, seen, [own, NONE, NONE]), &[]);
        gives(Event::KioskTakes(&answer(3, [5, ticket])), &trying(20, 10), &trying(20, seen), &[]);
        // Elsewhere nothing is kept.
        for (before, after) in [(idle(20, 10), idle(20, seen)), (holding(20, 10), holding(20, seen))] {
            for owner in [other, [5, ticket]] {
                gives(Event::KioskTakes(&answer(3, owner)), &before, &after, &[]);
            }
        }
        // A check of another ticket than its own.
        for (before, after) in
            [(idle(20, 10), idle(20, seen)), (trying(20, 10), trying(20, seen)), (holding(20, 10), holding(20, seen))]
        {
            gives(Event::KioskTakes(&check(ticket)), &before, &after, &[[RELEASE, 5, 1, ticket, 0]]);
        }
    }
    // A round: its own ticket, 20, is above the 10.
    let round = [[YIELD, 5, 1, 20, 0], [INQUIRY, 5, 2, 20, 0]];
    let before = kiosk(TRYING, 20, 10, [NONE, [9, 7], NONE]);
    gives(Event::KioskTakes(&answer(1, own)), &before, &trying(20, 20), &round);
}

/// What names the kiosk itself with its ticket is seen too: an answer, and a check of the current ticket. So it never counts for more
/// than the last ticket does, unless that is older.
#[test]
fn its_own_ticket_is_seen() {
    let own = [5, 20];
    gives(Event::KioskTakes(&answer(1, own)), &trying(20, 10), &kiosk(TRYING, 20, 20, [own, NONE, NONE]), &[]);
    gives(Event::KioskTakes(&answer(3, own)), &holding(20, 10), &holding(20, 20), &[]);
    gives(Event::KioskTakes(&answer(3, own)), &idle(20, 10), &idle(20, 20), &[]);
    for (before, after) in [(idle(20, 10), idle(20, 20)), (trying(20, 10), trying(20, 20)), (holding(20, 10), holding(20, 20))] {
        gives(Event::KioskTakes(&check(20)), &before, &after, &[]);
    }
}

/// An answer without an owner has ticket 0: nothing is seen by it.
#[test]
fn an_ownerless_answer() {
    for seen in [0, 1, 40, LAST] {
        for record in [idle(20, seen), trying(20, seen), holding(20, seen)] {
            gives(Event::KioskTakes(&answer(3, NONE)), &record, &record, &[]);
        }
        gives(Event::KioskTakes(&answer(1, NONE)), &kiosk(TRYING, 20, seen, [[9, 7], NONE, NONE]), &trying(20, seen), &[]);
    }
}

/// A refused message is not seen: the record stays, and the next try takes last plus one.
#[test]
fn what_is_refused_is_not_seen() {
    let refused = |record: &[u32], message: &[u32], room: usize, words: usize, number: u32| {
        let outcome = compare(Event::KioskTakes(message), record, room, words, 0x77);
        assert_eq!((outcome.number, outcome.record()), (number, record), "{message:?} with {room} bytes and {words} words");
    };
    for record in [idle(3, 2), trying(3, 2), holding(3, 2)] {
        // 5: a number out of range, or not five words.
        for message in [[RESPONSE, 5, 1, 40, 0], [RESPONSE, 5, 1, 40, 65_536], [CHECK, 5, 1, 40, 1], [CHECK, 5, 256, 40, 0]] {
            refused(&record, &message, ROOM, 2, 5);
        }
        for message in [[RESPONSE, 0, 1, 40, 9], [RESPONSE, 65_536, 1, 40, 9], [CHECK, 5, 0, 40, 0], [7, 5, 1, 40, 0]] {
            refused(&record, &message, ROOM, 2, 5);
        }
        refused(&record, &[CHECK, 5, 1, 40], ROOM, 2, 5);
        refused(&record, &[CHECK, 5, 1, 40, 0, 0], ROOM, 2, 5);
        // 12: of the wrong kind, to another kiosk, from a keeper past n.
        for kind in [REQUEST, YIELD, RELEASE, INQUIRY] {
            refused(&record, &[kind, 5, 1, 40, 0], ROOM, 2, 12);
        }
        for message in [[RESPONSE, 6, 1, 40, 9], [CHECK, 6, 1, 40, 0], [RESPONSE, 5, 4, 40, 9], [CHECK, 5, 255, 40, 0]] {
            refused(&record, &message, ROOM, 2, 12);
        }
        // 6: the RELEASE has no room, or the counts have none; also where nothing is sent.
        for (room, words) in [(0, 2), (11, 2), (ROOM, 0), (ROOM, 1), (11, 1)] {
            refused(&record, &check(40), room, words, 6);
        }
        refused(&record, &answer(3, [9, 40]), ROOM, 1, 6);
    }
    // 6: a round of two messages, and an answer by which it would hold.
    let one = kiosk(TRYING, 3, 2, [[5, 3], NONE, NONE]);
    for (room, words) in [(0, 2), (12, 2), (23, 2), (24, 1)] {
        refused(&one, &answer(3, [9, 40]), room, words, 6);
    }
    refused(&one, &answer(3, [5, 3]), 0, 1, 6);
    // 21: a record that is broken otherwise.
    for (at, word) in [(0, 0), (1, 4), (3, 3), (6, 5), (12, 9), (515, 1)] {
        let mut broken = idle(3, 2);
        broken[at] = word;
        refused(&broken, &check(40), ROOM, 2, 21);
        refused(&broken, &answer(3, [9, 40]), ROOM, 2, 21);
    }
    refused(&idle(3, 2)[..515], &check(40), ROOM, 2, 21);
    gives(Event::Try, &idle(3, 2), &trying(4, 2), &to_all(REQUEST, 4));
}

/// Seen is any 32-bit number beside any ticket and any answers.
#[test]
fn nothing_seen_breaks_a_record() {
    for seen in [0, 1, 19, 20, 21, 65_535, 65_536, 1 << 31, 4_294_967_293, 4_294_967_294, LAST] {
        for ticket in [1, 20, 4_294_967_294] {
            let own = [5, ticket];
            let records =
                [idle(ticket, seen), trying(ticket, seen), kiosk(TRYING, ticket, seen, [own, NONE, NONE]), holding(ticket, seen)];
            for record in records {
                gives(Event::KioskTakes(&answer(1, NONE)), &record, &record, &[]);
            }
        }
        for ticket in [0, LAST] {
            gives(Event::KioskTakes(&answer(1, NONE)), &idle(ticket, seen), &idle(ticket, seen), &[]);
        }
    }
}

/// The numbers about the limits in every place: the ticket, what was seen, and a message's ticket; in each section, with each event.
/// What comes of it is said once more: the larger of two, and one more.
#[test]
fn every_edge() {
    let edges = [0, 1, 2, 40, 4_294_967_292, 4_294_967_293, 4_294_967_294, LAST];
    let mut met = [0; 3];
    for (ticket, seen) in edges.into_iter().flat_map(|ticket| edges.map(|seen| (ticket, seen))) {
        let records = [idle(ticket, seen), trying(ticket, seen), holding(ticket, seen)];
        let sound = if [0, LAST].contains(&ticket) { 1 } else { 3 };
        assert!(records[sound..].iter().all(|record| step(Event::Try, record).number == 21), "ticket {ticket}");
        for record in &records[..sound] {
            for said in edges.into_iter().filter(|&said| said > 0) {
                for message in
                    [answer(3, [9, said]), answer(1, [9, said]), answer(3, [5, said]), answer(1, [5, said]), check(said)]
                {
                    let outcome = step(Event::KioskTakes(&message), record);
                    assert_eq!(
                        (outcome.number, outcome.record()[4..6].to_vec()),
                        (0, vec![ticket, seen.max(said)]),
                        "{message:?}"
                    );
                    met[0] += 1;
                }
            }
        }
        let outcome = step(Event::Try, &idle(ticket, seen));
        let larger = ticket.max(seen);
        if larger > 4_294_967_293 {
            assert_eq!(outcome.number, 11, "last {ticket}, seen {seen}");
            met[1] += 1;
        } else {
            assert_eq!(outcome.record(), trying(larger + 1, seen), "last {ticket}, seen {seen}");
            met[2] += 1;
        }
    }
    // 8 times 8 with the ticket in 2 cases idle alone, in 6 in three sections; 7 tickets said, each in 5 messages.
    assert_eq!(met, [8 * (2 + 6 * 3) * 7 * 5, 8 * 8 - 6 * 6, 6 * 6]);
}

// In a simulation --------------------------------------------------------------------------------------------------------------

/// The library's words of a simulation, both ways to it, and beside them the model's gallery.
struct Both {
    gallery: Gallery,
    words: Vec<u32>,
}

impl Both {
    fn new(n: u32, m: u32, kiosks: u32) -> Both {
        let setting = Setting::new(n, m, 0).expect("in range");
        let gallery = Gallery::new(setting, kiosks, GALLERY).expect("in range");
        Both { gallery, words: new_by_call(n, m, 0, kiosks, WORDS).expect("in range") }
    }

    fn give(&mut self, kind: Kind, number: u32) -> Result<usize, u32> {
        let event = Line { kind, number: number.into() };
        let (mut by_line, before) = (self.words.clone(), self.words.clone());
        let answer = by_call(&mut self.words, kind as u32, number, 2);
        assert_eq!(by_script(&mut by_line, event), answer, "{event:?}");
        let model = self.gallery.event(event);
        assert_eq!(model, answer.map(|[sent, _]| sent as usize), "{event:?}");
        assert!(self.words == by_line && self.words == words_of(&self.gallery), "{event:?} left other words");
        assert!(answer.is_ok() || self.words == before, "{event:?} was refused and changed something");
        model
    }

    fn after(mut self, events: &[(Kind, u32)]) -> Both {
        for &(kind, number) in events {
            assert!(self.give(kind, number).is_ok(), "{kind:?} {number}");
        }
        self
    }

    /// The section, ticket and largest ticket seen of a kiosk, by the library's words.
    fn slip(&self, kiosk: usize) -> [u32; 3] {
        let record = client_at(kiosk - 1) + 1;
        std::array::from_fn(|i| self.words[record + 3 + i])
    }
}

/// One keeper. Kiosk 1 has had a turn and holds again with ticket 3; kiosk 2 asks and is told so: answer 7.
fn told_of_ticket_3() -> Both {
    let turn = [(Kind::Try, 1), (Kind::Take, 1), (Kind::Take, 2), (Kind::Exit, 1), (Kind::Take, 3)];
    let again = [(Kind::Try, 1), (Kind::Take, 4), (Kind::Take, 5), (Kind::Try, 2), (Kind::Take, 6)];
    Both::new(1, 1, 2).after(&turn).after(&again)
}

/// Kiosk 2 takes the answer that names 1,3 once it holds with ticket 1: its next try takes 4.
#[test]
fn a_try_in_a_simulation() {
    let both = told_of_ticket_3().after(&[(Kind::Exit, 1), (Kind::Take, 8), (Kind::Take, 9)]);
    assert_eq!((both.slip(1), both.slip(2)), ([REMAINDER, 4, 3], [HOLDING, 1, 1]));
    let both = both.after(&[(Kind::Take, 7)]);
    assert_eq!(both.slip(2), [HOLDING, 1, 3]);
    let both = both.after(&[(Kind::Exit, 2), (Kind::Try, 2)]);
    assert_eq!(both.slip(2), [TRYING, 4, 3]);
    let request = both.gallery.kept.last().expect("a request").message;
    assert_eq!((request.kind, request.kiosk, request.ticket), (REQUEST, 2, 4));
}

/// 18: kiosk 2 has fallen before it takes the answer, and has seen nothing.
#[test]
fn what_a_fallen_kiosk_does_not_take() {
    let mut both = told_of_ticket_3().after(&[(Kind::Fall, 2)]);
    assert_eq!(both.give(Kind::Take, 7), Err(18));
    assert_eq!(both.slip(2), [TRYING, 1, 0]);
}

/// 17: the answer is gone once it was dropped, and a dropped one is not seen.
#[test]
fn what_is_dropped_is_not_seen() {
    let mut both = told_of_ticket_3().after(&[(Kind::Drop, 7)]);
    assert_eq!((both.give(Kind::Take, 7), both.slip(2)), (Err(17), [TRYING, 1, 0]));
}

/// 19: two kiosks divide two keepers, and all 512 places are taken. Kiosk 2's take of the answer that starts its round of two messages
/// frees one place only: it is refused, and the ticket in it is not seen. With one message dropped it is.
#[test]
fn what_finds_no_place_is_not_seen() {
    // Kiosk 1 has had a turn, messages 1 to 6, and has ticket 3 now; keeper 1 hears it first, keeper 2 kiosk 2.
    let turn = [(Kind::Try, 1), (Kind::Take, 1), (Kind::Take, 2), (Kind::Take, 3), (Kind::Take, 4), (Kind::Exit, 1)];
    let tries = [(Kind::Take, 5), (Kind::Take, 6), (Kind::Try, 1), (Kind::Try, 2)];
    let takes = [(Kind::Take, 7), (Kind::Take, 10), (Kind::Take, 9)];
    // Answers: 11 to kiosk 1 of itself, 12 to kiosk 2 of itself, 13 to kiosk 2 of 1,3. It has taken 12.
    let mut both = Both::new(2, 2, 2).after(&turn).after(&tries).after(&takes).after(&[(Kind::Take, 12)]);
    assert_eq!(both.slip(2), [TRYING, 1, 1]);
    while both.gallery.kept.len() < 512 {
        assert_eq!(both.give(Kind::Check, 2), Ok(1));
    }
    assert_eq!((both.give(Kind::Take, 13), both.slip(2)), (Err(19), [TRYING, 1, 1]));
    let both = both.after(&[(Kind::Drop, 1), (Kind::Take, 13)]);
    assert_eq!((both.slip(2), both.gallery.kept.len()), ([TRYING, 1, 3], 512));
}

/// 19 by the numbers: none is left for the RELEASE that a CHECK of ticket 9 asks for. One of the kiosk's own ticket sends nothing, needs
/// none, and is seen.
#[test]
fn what_finds_no_number_is_not_seen() {
    // Kiosk 1 exits, and has ticket 2, with a check on its way, message 3.
    let events = [(Kind::Try, 1), (Kind::Take, 1), (Kind::Take, 2), (Kind::Check, 1), (Kind::Exit, 1)];
    let mut both = Both::new(1, 1, 1).after(&events);
    both.words[5] = LAST;
    both.gallery.last = LAST.into();
    let checked = both.gallery.kept.iter().position(|kept| kept.message.kind == CHECK).expect("a check");
    both.gallery.kept[checked].message.ticket = 9;
    both.words[slot_at(checked) + 5] = 9;
    assert_eq!((both.give(Kind::Take, 3), both.slip(1)), (Err(19), [REMAINDER, 2, 1]));
    both.gallery.kept[checked].message.ticket = 2;
    both.words[slot_at(checked) + 5] = 2;
    assert_eq!((both.give(Kind::Take, 3), both.slip(1)), (Ok(0), [REMAINDER, 2, 2]));
}

/// 11 in a simulation, at each edge of the kiosk's ticket and of what it has seen.
#[test]
fn tickets_spent_in_a_simulation() {
    for (last, seen, answer) in [
        (4_294_967_293, 0, Ok(1)),
        (0, 4_294_967_293, Ok(1)),
        (4_294_967_293, 4_294_967_293, Ok(1)),
        (4_294_967_294, 0, Err(11)),
        (0, 4_294_967_294, Err(11)),
        (LAST, 3, Err(11)),
        (3, LAST, Err(11)),
    ] {
        let mut both = Both::new(1, 1, 1);
        let record = client_at(0) + 1;
        both.words[record + 4..record + 6].copy_from_slice(&[last, seen]);
        both.gallery.clients[0].record.ticket = last;
        both.gallery.clients[0].record.seen = Some(seen);
        assert_eq!(both.give(Kind::Try, 1), answer, "last {last}, seen {seen}");
        assert_eq!(both.slip(1), if answer.is_ok() { [TRYING, 4_294_967_294, seen] } else { [REMAINDER, last, seen] });
    }
}
