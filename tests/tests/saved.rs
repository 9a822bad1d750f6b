//! Saved records, document 02, L3 and L4: `sigma_server_upgrade` and `sigma_client_upgrade` beside the model, every word lent or not;
//! and what was taken over goes on as it would have, a kiosk until it has seen a ticket above its own.

use sigma_tests::both::{compare, played, Event, ROOM};
use sigma_tests::broken::{keeper_unmet, kiosk_unmet, Rule};
use sigma_tests::histories::{damage_record, first_seen, first_ticket, kiosk_event, to_keeper, to_kiosk, Crowd, Drawn};
use sigma_tests::keeper::Keeper;
use sigma_tests::kiosk::{Kiosk, HOLDING, REMAINDER, TRYING};
use sigma_tests::model::{CHECK, REQUEST, RESPONSE, YIELD};
use sigma_tests::players::{Players, NEW, OLD, WIDE};
use sigma_tests::random::Random;
use sigma_tests::{keeper, kiosk, library};
use std::collections::BTreeMap;

/// One of the two calls, by the library and by the model, and what its records are.
#[derive(Clone, Copy)]
struct Call {
    name: &'static str,
    by_library: fn(&[u32], &mut [u32]) -> u32,
    by_model: fn(&[u32], &mut [u32]) -> u32,
    /// The words of each form, the present one last, and the players whose records they are.
    forms: &'static [(usize, Players)],
    unmet: fn(Players, &[u32]) -> Vec<Rule>,
    /// What saved words are taken over as.
    over: fn(&[u32]) -> Vec<u32>,
}

const SERVER: Call = Call {
    name: "server",
    by_library: library::server_upgrade,
    by_model: keeper::upgrade,
    forms: &[(37, OLD), (69, NEW)],
    unmet: keeper_unmet,
    over: |saved| padded(saved, 69),
};

const CLIENT: Call = Call {
    name: "client",
    by_library: library::client_upgrade,
    by_model: kiosk::upgrade,
    forms: &[(67, OLD), (515, WIDE), (516, NEW)],
    unmet: kiosk_unmet,
    over: |saved| if saved.len() == 516 { saved.to_vec() } else { with_seen(saved, 0) },
};

/// An earlier kiosk's words as they stand in the present form, in which the kiosk has seen this.
fn with_seen(earlier: &[u32], seen: u32) -> Vec<u32> {
    let (head, answers) = earlier.split_at(5);
    padded(&[head, &[seen], answers].concat(), 516)
}

/// Words, and 0 behind them up to this number.
fn padded(words: &[u32], length: usize) -> Vec<u32> {
    let mut padded = words.to_vec();
    padded.resize(length, 0);
    padded
}

/// What is lent begins `EDGE` words from the start, and as many stand behind it.
const EDGE: usize = 4;

impl Call {
    /// Lends both the saved words and room for so many: the refusal, or 0 and the record. What is saved stays; what is lent changes
    /// only where the record stands, and by a refused call nowhere.
    fn compare(&self, saved: &[u32], room: usize, filler: u32) -> (u32, Vec<u32>) {
        let edge = [filler; EDGE];
        let call = |by: fn(&[u32], &mut [u32]) -> u32| {
            let lent = [&edge, saved, &edge].concat();
            let mut record = vec![filler; room + 2 * EDGE];
            let number = by(&lent[EDGE..EDGE + saved.len()], &mut record[EDGE..EDGE + room]);
            assert!(lent == [&edge, saved, &edge].concat(), "{}: what is saved was changed: {saved:?}", self.name);
            (number, record)
        };
        let (ours, theirs) = (call(self.by_library), call(self.by_model));
        assert!(ours == theirs, "{}: {saved:?} into {room} words\nlibrary {ours:?}\nmodel {theirs:?}", self.name);
        let (number, record) = ours;
        let end = EDGE + if number == 0 { self.present() } else { 0 };
        let kept = record[..EDGE].iter().chain(&record[end..]).all(|&word| word == filler);
        assert!(kept, "{}: {number} wrote too much: {saved:?} into {room} words", self.name);
        (number, record[EDGE..end].to_vec())
    }

    /// The words of the present form.
    fn present(&self) -> usize {
        self.forms[self.forms.len() - 1].0
    }

    /// The refusal by the rules of the record's own time, said once more: 21 by its length or by one of the rules, then 6.
    fn expected(&self, saved: &[u32], room: usize) -> u32 {
        match self.forms.iter().find(|(length, _)| *length == saved.len()) {
            None => 21,
            Some((_, players)) if !(self.unmet)(*players, saved).is_empty() => 21,
            _ if room < self.present() => 6,
            _ => 0,
        }
    }

    /// Judged as expected; what is taken over are the saved words, nothing seen where they do not say it, and 0 in all behind them.
    fn judged(&self, saved: &[u32], room: usize, filler: u32) -> u32 {
        let (number, record) = self.compare(saved, room, filler);
        assert_eq!(number, self.expected(saved, room), "{}: {saved:?} into {room} words", self.name);
        if number == 0 {
            assert!(record == (self.over)(saved), "{}: {saved:?} became {record:?}", self.name);
        }
        number
    }

    /// The record that a saved one is taken over as.
    fn taken(&self, saved: &[u32]) -> Vec<u32> {
        let (number, record) = self.compare(saved, self.present(), 0x7777_7777);
        assert_eq!(number, 0, "{}: {saved:?}", self.name);
        record
    }
}

// By hand ---------------------------------------------------------------------------------------------------------------------

/// Keeper 2 of 31: without an owner, with one, with two and with sixteen in line.
fn keepers() -> [Vec<u32>; 4] {
    let line = |count: u32| (0..count).flat_map(|i| [100 + i, 7]).collect::<Vec<_>>();
    let keeper = |head: [u32; 5]| padded(&[&head[..], &line(head[4])].concat(), 37);
    [keeper([31, 2, 0, 0, 0]), keeper([31, 2, 5, 3, 0]), keeper([31, 2, 5, 3, 2]), keeper([31, 2, 5, 3, 16])]
}

/// Kiosk 5 with 31 keepers and threshold 30: never tried; trying with the answers of keepers 2 and 31; holding with those of 1 to
/// 30.
fn kiosks() -> [Vec<u32>; 3] {
    let mut trying = padded(&[31, 30, 5, TRYING, 9], 67);
    trying[7..9].copy_from_slice(&[2, 4]);
    trying[65..67].copy_from_slice(&[5, 9]);
    let holding = padded(&[&[31, 30, 5, HOLDING, 9][..], &[5, 9].repeat(30)].concat(), 67);
    [padded(&[31, 30, 5, REMAINDER], 67), trying, holding]
}

#[test]
fn records_by_hand() {
    for saved in keepers() {
        let taken = padded(&saved, 69);
        assert_eq!(SERVER.compare(&saved, 69, 0xA5A5_5A5A), (0, taken.clone()));
        assert_eq!(SERVER.compare(&taken, 69, 0xA5A5_5A5A), (0, taken), "the present form is copied");
    }
    for saved in kiosks() {
        let taken = [&saved[..5], &[0], &saved[5..], &[0; 448 + 1]].concat()[..516].to_vec();
        assert_eq!(CLIENT.compare(&saved, 516, 0xA5A5_5A5A), (0, taken.clone()));
        assert_eq!(CLIENT.compare(&padded(&saved, 515), 516, 0xA5A5_5A5A), (0, taken.clone()), "as many places, nothing seen");
        assert_eq!(CLIENT.compare(&taken, 516, 0xA5A5_5A5A), (0, taken.clone()), "the present form is copied");
        for seen in [1, 9, 40, u32::MAX] {
            let saw = [&taken[..5], &[seen], &taken[6..]].concat();
            assert_eq!(CLIENT.compare(&saw, 516, 0xA5A5_5A5A), (0, saw), "with what it has seen");
        }
    }
    let [free, .., full] = keepers();
    assert_eq!((full[4], &full[35..]), (16, &[115, 7][..]));
    let taken = SERVER.taken(&full);
    assert_eq!((taken[4], &taken[35..37], &taken[37..]), (16, &[115, 7][..], &[0; 32][..]));
    assert_eq!(SERVER.taken(&free)[..3], [31, 2, 0]);
    let taken = CLIENT.taken(&kiosks()[1]);
    assert_eq!((taken[5], &taken[66..68], &taken[68..]), (0, &[5, 9][..], &[0; 448][..]));
}

/// Each record is judged by the rules of its own time: n up to 31 in the first form, up to 255 in the later ones, whatever is
/// lent for it.
#[test]
fn every_n() {
    let others = [300, 65_535, 65_536, 65_537, 65_567, 65_568, 1 << 31, u32::MAX];
    for n in (0..=260).chain(others) {
        let (server, client) = (|length| padded(&[n, 1], length), |length| padded(&[n, 1, 5], length));
        let servers = [(37, 31), (69, 255)].map(|(length, most)| (SERVER, server(length), most));
        let clients = [(67, 31), (515, 255), (516, 255)].map(|(length, most)| (CLIENT, client(length), most));
        for (call, saved, most) in servers.into_iter().chain(clients) {
            let right = if (1..=most).contains(&n) { 0 } else { 21 };
            assert_eq!(call.judged(&saved, 516, 0x3C3C_3C3C), right, "{}: n {n} in {} words", call.name, saved.len());
            assert_eq!(call.judged(&saved, 0, 0x3C3C_3C3C), if right == 0 { 6 } else { 21 }, "21 before 6");
        }
    }
}

/// A line's length, and a keeper's own number, around the limits of both times.
#[test]
fn every_line_and_number() {
    for length in [37, 69] {
        let places = (length as u32 - 5) / 2;
        for waiting in (0..=34).chain([255, 256, 65_552, u32::MAX]) {
            let line: Vec<u32> = (0..waiting.min(places)).flat_map(|i| [100 + i, 7]).collect();
            let saved = padded(&[&[31, 2, 5, 3, waiting][..], &line].concat(), length);
            let right = if waiting <= places { 0 } else { 21 };
            assert_eq!(SERVER.judged(&saved, 69, 1), right, "{waiting} wait in {length} words");
        }
        for id in [0, 1, 30, 31, 32, 255, 256, 257, 65_537] {
            let right = if (1..=31).contains(&id) { 0 } else { 21 };
            assert_eq!(SERVER.judged(&padded(&[31, id], length), 69, 1), right, "keeper {id} of 31 in {length} words");
        }
    }
}

#[test]
fn every_length_of_what_is_saved() {
    let servers = [padded(&keepers()[3], 520), padded(&[255, 255], 520), vec![0; 520], vec![1; 520]];
    let clients = [padded(&kiosks()[1], 520), padded(&[255, 255, 5], 520), vec![0; 520], vec![1; 520]];
    // The first sample has both forms of a server, the second the later one; of a client the first has the two forms in which the
    // places begin at once, the second the two with so many places.
    for (call, samples, lengths) in [(SERVER, servers, vec![37, 69, 69]), (CLIENT, clients, vec![67, 515, 515, 516])] {
        let mut accepted = vec![];
        for saved in &samples {
            for length in 0..=520 {
                for room in [0, call.present() - 1, call.present(), call.present() + 1] {
                    if call.judged(&saved[..length], room, 0xFFFF_FFFF) == 0 {
                        accepted.push(length);
                    }
                }
            }
        }
        // Each with two rooms that do.
        assert_eq!(accepted, lengths.iter().flat_map(|&length| [length; 2]).collect::<Vec<_>>(), "{}", call.name);
    }
}

#[test]
fn every_room() {
    for (call, earlier) in [(SERVER, keepers()[3].clone()), (CLIENT, kiosks()[2].clone())] {
        let present = call.taken(&earlier);
        let mut broken = earlier.clone();
        broken[0] = 32;
        for room in 0..=540 {
            let right = if room < call.present() { 6 } else { 0 };
            assert_eq!(call.judged(&earlier, room, 0), right, "{} into {room}", call.name);
            assert_eq!(call.judged(&present, room, 0xAAAA_AAAA), right, "{} into {room}", call.name);
            for &(length, _) in &call.forms[1..call.forms.len() - 1] {
                assert_eq!(call.judged(&padded(&earlier, length), room, 0xAAAA_AAAA), right, "{length} words into {room}");
            }
            assert_eq!(call.judged(&broken, room, 0xAAAA_AAAA), 21, "{} into {room}", call.name);
            assert_eq!(call.judged(&earlier[1..], room, 0), 21, "{} into {room}", call.name);
        }
    }
}

/// The steps take the present form alone: 37, 67 and 515 words are 21 until they are taken over.
#[test]
fn no_step_takes_the_earlier_form() {
    let requests = [[REQUEST, 5, 2, 3, 0], [REQUEST, 9, 2, 3, 0], [YIELD, 5, 2, 3, 0]];
    for saved in keepers() {
        for event in requests.iter().map(|m| Event::KeeperTakes(m)).chain([Event::Missing, Event::Check, Event::KeeperTakes(&[])])
        {
            assert_eq!(compare(event, &saved, 0, 0, 0x77).number, 21);
            assert_ne!(compare(event, &SERVER.taken(&saved), 0, 0, 0x77).number, 21);
        }
    }
    let answer = [RESPONSE, 5, 1, 9, 5];
    for saved in kiosks().into_iter().flat_map(|saved| [padded(&saved, 515), saved]) {
        for event in [Event::KioskTakes(&answer), Event::Try, Event::Exit, Event::KioskTakes(&[])] {
            assert_eq!(compare(event, &saved, 0, 0, 0x77).number, 21);
            assert_ne!(compare(event, &CLIENT.taken(&saved), 0, 0, 0x77).number, 21);
        }
    }
}

// Histories --------------------------------------------------------------------------------------------------------------------

/// A record as players of one generation have it, and where its next events come from.
enum History {
    Keeper { players: Players, record: Vec<u32>, crowd: Crowd },
    Kiosk { players: Players, record: Vec<u32>, favour: u64 },
}

impl History {
    fn keeper(players: Players, r: &mut Random) -> History {
        let any = 1 + r.below(players.keepers.into()) as u32;
        let n = r.one_of(&[1, 4, players.keepers, any, any]);
        let mut record = vec![0; players.keeper_words()];
        assert_eq!(players.keeper_new(n, 1 + r.below(n.into()) as u32, &mut record), 0);
        History::Keeper { players, record, crowd: Crowd::draw(r, players.line as u32) }
    }

    fn kiosk(players: Players, r: &mut Random) -> History {
        let any = 1 + r.below(players.keepers.into()) as u32;
        let n = r.one_of(&[1, 4, players.keepers, any, any]);
        let any = 1 + r.below(n.into()) as u32;
        let mut record = vec![0; players.kiosk_words()];
        assert_eq!(players.kiosk_new(n, r.one_of(&[n, n - n / 3, any]), r.one_of(&[1, 5, 65_535]), &mut record), 0);
        record[4] = first_ticket(r);
        if players.clock {
            record[5] = first_seen(r, record[4]);
        }
        History::Kiosk { players, record, favour: r.one_of(&[0, 5, 9, 10]) }
    }

    fn record(&self) -> &[u32] {
        match self {
            History::Keeper { record, .. } | History::Kiosk { record, .. } => record,
        }
    }

    fn call(&self) -> Call {
        match self {
            History::Keeper { .. } => SERVER,
            History::Kiosk { .. } => CLIENT,
        }
    }

    fn draw(&self, r: &mut Random) -> Drawn {
        match self {
            History::Keeper { players, record, crowd } => crowd.event(r, &Keeper::read(*players, record).expect("valid")),
            History::Kiosk { players, record, favour } => kiosk_event(r, &Kiosk::read(*players, record).expect("valid"), *favour),
        }
    }

    fn event<'a>(&self, call: usize, message: &'a [u32]) -> Event<'a> {
        match self {
            History::Keeper { .. } => to_keeper(call, message),
            History::Kiosk { .. } => to_kiosk(call, message),
        }
    }

    /// The event by the model at the history's limits; the record is the one after it.
    fn play(&mut self, call: usize, message: &[u32]) -> Result<Vec<[u32; 5]>, u32> {
        let event = self.event(call, message);
        match self {
            History::Keeper { players, record, .. } | History::Kiosk { players, record, .. } => played(*players, event, record),
        }
    }

    /// Goes on from a record of the present form, a kiosk's, but for what it has seen.
    fn follow(&mut self, present: &[u32]) {
        if let History::Kiosk { record, .. } = self {
            let length = record.len();
            *record = [&present[..5], &present[6..length + 1]].concat();
        }
    }

    fn wander(&mut self, events: u64, r: &mut Random) {
        for _ in 0..events {
            let (message, call) = self.draw(r);
            // A refused event leaves the record.
            let _ = self.play(call, &message);
        }
    }
}

/// How often each outcome was met.
type Met = BTreeMap<(&'static str, usize, u32), usize>;

fn many(met: &Met, kinds: usize, times: usize) {
    assert!(met.len() == kinds && met.values().all(|&met| met >= times), "{met:#?}");
}

/// Records that histories of players of each time lead to, and the same damaged. What is taken over is its own present form; and what
/// L3 has taken over, by the model, is taken over as what was saved before.
#[test]
fn reached_and_damaged_records() {
    let (mut r, mut met) = (Random::new(37), Met::new());
    for turn in 0..42_000 {
        let players = [OLD, WIDE, NEW][turn % 3];
        let mut history = if turn % 6 < 3 { History::keeper(players, &mut r) } else { History::kiosk(players, &mut r) };
        let events = r.one_of(&[0, 5, 40, 120]);
        history.wander(r.below(events + 1), &mut r);
        let call = history.call();
        let saved = history.record();
        assert_eq!(call.judged(saved, call.present(), r.next() as u32), 0, "a history leads to a valid record");
        let taken = call.taken(saved);
        assert!(call.taken(&taken) == taken, "{}: {saved:?} taken over twice", call.name);
        if call.name == "client" && players == OLD {
            let mut between = vec![0; WIDE.kiosk_words()];
            assert_eq!(WIDE.kiosk_upgrade(saved, &mut between), 0);
            assert!(call.taken(&between) == taken, "{saved:?} taken over step by step");
        }
        for _ in 0..6 {
            let mut damaged = saved.to_vec();
            damage_record(&mut r, &mut damaged);
            let short = r.below(call.present() as u64) as usize;
            let room = r.one_of(&[call.present(), call.present(), call.present() + 3, short]);
            let number = call.judged(&damaged, room, r.next() as u32);
            *met.entry((call.name, saved.len(), number)).or_insert(0) += 1;
        }
    }
    println!("{met:?}");
    // Two forms of a server and three of a client, and taken over, without room, or broken.
    many(&met, (2 + 3) * 3, 1000);
}

/// Words that no history has: small numbers of any sense, in any number.
#[test]
fn random_words() {
    let (mut r, mut met) = (Random::new(67), Met::new());
    for turn in 0..200_000 {
        let call = [SERVER, CLIENT][turn % 2];
        let any = r.below(530) as usize;
        let (form, _) = call.forms[r.below(call.forms.len() as u64) as usize];
        let length = r.one_of(&[call.forms[0].0, call.forms[0].0, form, any]);
        let mut saved = vec![0; length];
        let filled = r.one_of(&[3, 6, 9, length as u64]);
        for word in saved.iter_mut().take(r.below(filled + 1) as usize) {
            let any = r.next() as u32;
            *word = r.one_of(&[0, 1, 1, 2, 3, 5, 31, 32, 255, 256, any]);
        }
        let number = call.judged(&saved, r.one_of(&[call.present(), call.present() - 1]), r.next() as u32);
        *met.entry((call.name, 0, number)).or_insert(0) += 1;
    }
    many(&met, 2 * 3, 500);
}

/// The library goes on with a keeper that was taken over as the old players do with what was saved: the same answers, messages and
/// records, but where a line of 16 is full, and there only the REQUEST of a kiosk that must join.
#[test]
fn a_keeper_taken_over_goes_on() {
    let (mut r, mut met, mut joined, mut stepped) = (Random::new(16), Met::new(), 0, 0);
    for _ in 0..2_000 {
        let mut history = History::keeper(OLD, &mut r);
        let events = r.one_of(&[0, 20, 200]);
        history.wander(r.below(events + 1), &mut r);
        let mut record = SERVER.taken(history.record());
        for _ in 0..100 {
            let (message, number) = history.draw(&mut r);
            let event = history.event(number, &message);
            let outcome = compare(event, &record, 30, 2, r.next() as u8);
            let before = history.record().to_vec();
            let answer = history.play(number, &message);
            *met.entry(("server", number, answer.as_ref().err().copied().unwrap_or(0))).or_insert(0) += 1;
            if answer == Err(14) {
                assert_eq!((outcome.number, before[4]), (0, 16), "{event:?} on {before:?}");
                joined += 1;
                // Here they part; the old keeper's record is still the same as what was taken over.
                continue;
            }
            assert_eq!(outcome.number, answer.as_ref().err().copied().unwrap_or(0), "{event:?} on {before:?}");
            if let Ok(messages) = answer {
                assert_eq!(outcome.messages(), messages, "{event:?} on {before:?}");
                stepped += 1;
            }
            record = outcome.record().to_vec();
            assert!(record == SERVER.taken(history.record()), "{event:?} on {before:?}");
        }
    }
    println!("{met:?}, {joined} joined, {stepped} stepped");
    assert!(stepped > 150_000 && joined > 1_000, "{stepped} stepped, {joined} joined");
    // A message: 0, 14; its owner is missed: 0, 15; a check: 0.
    many(&met, 2 + 2 + 1, 100);
}

/// The library goes on with a kiosk that was taken over as players without a clock do with what was saved, and notes what it sees.
/// They part only at a try, where it has seen more than its last ticket since: then it takes the one above that, or has none left.
/// From there on the old kiosk is given what the new one has.
#[test]
fn a_kiosk_taken_over_goes_on() {
    let (mut r, mut met, mut parted, mut spent) = (Random::new(17), Met::new(), 0, 0);
    for turn in 0..2_000 {
        let mut history = History::kiosk([OLD, WIDE][turn % 2], &mut r);
        let events = r.one_of(&[0, 20, 200]);
        history.wander(r.below(events + 1), &mut r);
        let (mut record, mut seen) = (CLIENT.taken(history.record()), 0);
        for _ in 0..100 {
            let (message, number) = history.draw(&mut r);
            let event = history.event(number, &message);
            let outcome = compare(event, &record, ROOM, 2, r.next() as u8);
            let before = history.record().to_vec();
            let answer = history.play(number, &message);
            record = outcome.record().to_vec();
            if number == 1 && before[3] == REMAINDER && seen > before[4] {
                let none_left = seen > 4_294_967_293;
                assert_eq!(outcome.number, if none_left { 11 } else { 0 }, "{event:?} on {before:?}, seen {seen}");
                assert!(none_left || record[3..6] == [TRYING, seen + 1, seen], "{event:?} on {before:?}, seen {seen}");
                history.follow(&record);
                (parted, spent) = (parted + 1, spent + u32::from(none_left));
            } else {
                assert_eq!(outcome.number, answer.as_ref().err().copied().unwrap_or(0), "{event:?} on {before:?}");
                assert!(answer.is_err() || answer == Ok(outcome.messages()), "{event:?} on {before:?}");
                *met.entry(("client", number, outcome.number)).or_insert(0) += 1;
                seen = seen.max(if number == 0 { message[3] } else { 0 });
            }
            assert!(record == with_seen(history.record(), seen), "{event:?} on {before:?}, seen {seen}");
        }
    }
    println!("{met:?}, {parted} parted, {spent} of them for good");
    assert!(parted > 5_000 && spent > 500, "{parted} parted, {spent} of them for good");
    // A message: 0; try: 0, 10, 11; exit: 0, 10.
    many(&met, 1 + 3 + 2, 100);
}

/// Kiosk 5 was saved with ticket 3, in remainder: taken over, it has seen nothing, and its try takes 4 in both times. With a CHECK of
/// ticket 40 in between the old one still takes 4, and what was taken over 41.
#[test]
fn the_first_ticket_behind_an_upgrade() {
    for (players, length) in [(OLD, 67), (WIDE, 515)] {
        let mut old = padded(&[4, 3, 5, REMAINDER, 3], length);
        let record = CLIENT.taken(&old);
        assert_eq!(record, padded(&[4, 3, 5, REMAINDER, 3, 0], 516));
        assert_eq!(compare(Event::Try, &record, 48, 2, 0x77).record(), padded(&[4, 3, 5, TRYING, 4, 0], 516));
        let check = [CHECK, 5, 2, 40, 0];
        let outcome = compare(Event::KioskTakes(&check), &record, 12, 2, 0x77);
        assert_eq!(outcome.record(), padded(&[4, 3, 5, REMAINDER, 3, 40], 516));
        assert_eq!(Ok(outcome.messages()), played(players, Event::KioskTakes(&check), &mut old));
        assert_eq!(CLIENT.taken(outcome.record()), outcome.record(), "taken over again, it has still seen 40");
        assert_eq!(compare(Event::Try, outcome.record(), 48, 2, 0x77).record(), padded(&[4, 3, 5, TRYING, 41, 40], 516));
        assert!(played(players, Event::Try, &mut old).is_ok() && old == padded(&[4, 3, 5, TRYING, 4], length));
    }
}

/// Sixteen wait, as many as an old keeper could have: the 17th is refused 14 by an old keeper, and joins behind the upgrade, as do
/// all up to the 32nd.
#[test]
fn the_seventeenth_joins() {
    let [.., mut old] = keepers();
    let mut record = SERVER.taken(&old);
    for waiting in 17..=32 {
        let request = [REQUEST, 200 + waiting, 2, 7, 0];
        let event = Event::KeeperTakes(&request);
        assert_eq!(played(OLD, event, &mut old), Err(14));
        let outcome = compare(event, &record, 14, 2, 0x77);
        assert_eq!((outcome.number, outcome.messages()), (0, vec![[RESPONSE, 200 + waiting, 2, 3, 5]]));
        let (line, place) = (outcome.record()[4], 5 + 2 * (waiting as usize - 1));
        assert_eq!((line, &outcome.record()[place..place + 2]), (waiting, &[200 + waiting, 7][..]));
        record = outcome.record().to_vec();
    }
    let request = [REQUEST, 300, 2, 7, 0];
    assert_eq!(compare(Event::KeeperTakes(&request), &record, 14, 2, 0x77).number, 14, "no 33rd");
    // A full line gives way to the yielding owner all the same, in both times.
    let yields = [YIELD, 5, 2, 3, 0];
    let before = old.clone();
    assert_eq!(played(OLD, Event::KeeperTakes(&yields), &mut old), Ok(vec![[RESPONSE, 5, 2, 3, 5]]), "5,3 is still the first");
    assert_eq!(old, before);
}
