//! The steps of kiosk and keeper beside the model, from records that random histories reach and from damaged ones:
//! the refusal, every word of the record, every byte of `out`, both words of `sent`. Each test counts what it met.

use sigma_tests::both::{compare, Event, Outcome};
use sigma_tests::broken::{keeper_unmet, kiosk_unmet};
use sigma_tests::histories::{damage, damage_record, first_seen, first_ticket, kiosk_event, to_keeper, to_kiosk, Crowd};
use sigma_tests::keeper::{self, Keeper};
use sigma_tests::kiosk::{self, Kiosk, HOLDING, REMAINDER, TRYING};
use sigma_tests::library;
use sigma_tests::model::{CHECK, INQUIRY, REQUEST, RESPONSE, YIELD};
use sigma_tests::players::NEW;
use sigma_tests::random::Random;
use sigma_tests::records::{pair, place, Pair};
use std::collections::BTreeMap;
use std::fmt::Debug;

/// How often each thing was met.
struct Seen<T>(BTreeMap<T, usize>);

impl<T: Ord + Debug> Seen<T> {
    fn new() -> Seen<T> {
        Seen(BTreeMap::new())
    }

    fn met(&mut self, what: T) {
        *self.0.entry(what).or_insert(0) += 1;
    }

    fn assert_many(&self, kinds: usize, times: usize) {
        assert_eq!(self.0.len(), kinds, "{:#?}", self.0);
        assert!(self.0.values().all(|&n| n >= times), "{:#?}", self.0);
    }
}

fn damage_message(r: &mut Random, message: &mut Vec<u32>) {
    if r.below(4) == 0 {
        message.resize(r.below(9) as usize, 0);
        return;
    }
    for _ in 0..=r.below(2) {
        let at = r.below(5) as usize;
        message[at] = if at == 0 { r.below(8) as u32 } else { damage(r, message[at]) };
    }
}

/// What a step is lent, with some of it spoilt.
struct Spoilt {
    record: Vec<u32>,
    message: Vec<u32>,
    room: usize,
    words: usize,
}

/// Each part is spoilt on its own, so that refusals meet and their order is seen.
fn spoil(r: &mut Random, record: &[u32], message: &[u32], longest: usize) -> Spoilt {
    let mut spoilt = Spoilt { record: record.to_vec(), message: message.to_vec(), room: longest + 2, words: 2 };
    let what = 1 + r.below(15);
    if what & 1 != 0 {
        damage_record(r, &mut spoilt.record);
    }
    if what & 2 != 0 {
        damage_message(r, &mut spoilt.message);
    }
    if what & 4 != 0 {
        spoilt.room = r.below(longest as u64 + 2) as usize;
    }
    if what & 8 != 0 {
        spoilt.words = r.below(4) as usize;
    }
    spoilt
}

/// Every room from none to more than enough, of a long answer those about its ends, and every number of words for the two counts.
fn every_room(event: Event, record: &[u32], outcome: &Outcome) {
    if outcome.number != 0 {
        return;
    }
    let bytes = outcome.sent()[1] as usize;
    for room in (0..=bytes + 2).filter(|&room| bytes <= 12 * 31 || room < 14 || room + 14 > bytes) {
        for words in 0..=3 {
            let number = compare(event, record, room, words, 0x5A).number;
            assert_eq!(number, if room < bytes || words < 2 { 6 } else { 0 });
        }
    }
}

/// Where a message's kiosk stands at the keeper, and whether the message is older or newer than what it has there.
#[derive(Clone, Copy, Debug, PartialEq, Eq, PartialOrd, Ord)]
enum Standing {
    Nobody,
    Absent,
    Owner(std::cmp::Ordering),
    Waiting(std::cmp::Ordering),
}

#[derive(Clone, Copy, Debug, PartialEq, Eq, PartialOrd, Ord)]
enum Line {
    Empty,
    Some,
    Full,
}

fn standing(keeper: &Keeper, kiosk: u32, ticket: u32) -> Standing {
    if let Some(p) = keeper.owner.filter(|p| p.kiosk == kiosk) {
        return Standing::Owner(ticket.cmp(&p.ticket));
    }
    if let Some(p) = keeper.line.iter().find(|p| p.kiosk == kiosk) {
        return Standing::Waiting(ticket.cmp(&p.ticket));
    }
    if keeper.owner.is_none() {
        Standing::Nobody
    } else {
        Standing::Absent
    }
}

fn line(keeper: &Keeper) -> Line {
    match keeper.line.len() {
        0 => Line::Empty,
        32 => Line::Full,
        _ => Line::Some,
    }
}

#[test]
fn a_million_keeper_steps() {
    let mut r = Random::new(26);
    let mut numbers = Seen::new();
    let mut taken = Seen::new();
    let mut calls = Seen::new();
    let mut yields = Seen::new();
    let mut damaged = Seen::new();
    let mut accepted = 0;
    let mut steps = 0;
    while accepted < 1_000_000 {
        let any = 1 + r.below(255);
        let n = r.one_of(&[4, 31, 32, 254, 255, any, any]);
        let mut record = vec![0; 69];
        assert_eq!(library::server_new(n as u32, 1 + r.below(n) as u32, &mut record), 0);
        let crowd = Crowd::draw(&mut r, 32);
        for _ in 0..500 {
            let before = Keeper::read(NEW, &record).expect("histories lead to valid records");
            let (message, call) = crowd.event(&mut r, &before);
            let filler = r.next() as u8;
            steps += 1;
            if r.below(3) == 0 {
                let spoilt = spoil(&mut r, &record, &message, 28);
                let number = compare(to_keeper(call, &spoilt.message), &spoilt.record, spoilt.room, spoilt.words, filler).number;
                numbers.met(number);
                let sound = spoilt.record.len() == 69 && keeper_unmet(NEW, &spoilt.record).is_empty();
                assert_eq!(number == 21, !sound, "{:?}", spoilt.record);
                damaged.met((spoilt.record != record, sound, number == 0));
            }
            let outcome = compare(to_keeper(call, &message), &record, 30, 2, filler);
            if steps % 100 == 0 {
                every_room(to_keeper(call, &message), &record, &outcome);
            }
            numbers.met(outcome.number);
            accepted += usize::from(outcome.number == 0);
            if call > 0 {
                calls.met((call, before.owner.is_some(), line(&before), outcome.number));
            } else {
                let standing = standing(&before, message[1], message[3]);
                taken.met((message[0], standing, line(&before), outcome.number));
                if message[0] == YIELD && standing == Standing::Owner(std::cmp::Ordering::Equal) {
                    let stays = outcome.record() == record;
                    yields.met((line(&before), stays, outcome.sent()[0]));
                }
            }
            record.copy_from_slice(outcome.record());
        }
    }
    // 4 kinds from nobody, by 3 lines where the kiosk is absent or owner (older, same, newer), by 2 where it waits.
    taken.assert_many(4 * (1 + 3 + 9 + 6), 100);
    // Missing and check with an owner and each line, and without.
    calls.assert_many(2 * 4, 100);
    // With no line it stays; else it stays and is told, or gives way and two are told.
    yields.assert_many(1 + 2 + 2, 100);
    // Whole or damaged records; among the damaged broken ones and valid ones; accepted or not.
    damaged.assert_many(2 + 1 + 2, 1000);
    // 0, 5, 6, 13, 14, 15, 21.
    numbers.assert_many(7, 1000);
    assert!([0, 5, 6, 13, 14, 15, 21].iter().all(|n| numbers.0.contains_key(n)));
}

/// An answer as its kiosk sees it.
#[derive(Clone, Copy, Debug, PartialEq, Eq, PartialOrd, Ord)]
enum Answer {
    Empty,
    Own,
    OwnOther,
    Before,
    Behind,
}

fn answer(kiosk: &Kiosk, owner: Option<Pair>) -> Answer {
    match owner {
        None => Answer::Empty,
        Some(p) if p == kiosk.pair() => Answer::Own,
        Some(p) if p.kiosk == kiosk.id => Answer::OwnOther,
        Some(p) if p < kiosk.pair() => Answer::Before,
        Some(_) => Answer::Behind,
    }
}

#[derive(Clone, Copy, Debug, PartialEq, Eq, PartialOrd, Ord)]
enum Upshot {
    Quiet,
    Holds,
    Round,
}

#[test]
fn a_million_kiosk_steps() {
    let mut r = Random::new(56);
    let mut numbers = Seen::new();
    let mut answers = Seen::new();
    let mut checks = Seen::new();
    let mut calls = Seen::new();
    let mut kinds = Seen::new();
    let mut rounds = Seen::new();
    let mut all_of_many = Seen::new();
    let mut damaged = Seen::new();
    let mut tries = Seen::new();
    let mut looked_at = Seen::new();
    let mut unseen = Seen::new();
    let mut accepted = 0;
    let mut steps = 0;
    while accepted < 1_000_000 {
        let [few, many] = [31, 255].map(|most| 1 + r.below(most) as u32);
        let many = r.one_of(&[32, 33, 254, 255, 255, many]);
        let n = if r.below(12) == 0 { many } else { r.one_of(&[1, 2, 3, 4, 31, few, few, few]) };
        let any = 1 + r.below(u64::from(n)) as u32;
        let m = r.one_of(&[n, n - n / 3, any, if n > 31 { n } else { any }]);
        let id = r.one_of(&[1, 2, 5, 300, 65_535]);
        let mut record = vec![0; 516];
        assert_eq!(library::client_new(n, m, id, &mut record), 0);
        record[4] = first_ticket(&mut r);
        record[5] = first_seen(&mut r, record[4]);
        let favour = r.one_of(&[0, 5, 9, 10, 10]);
        for _ in 0..250.max(3 * n) {
            let before = Kiosk::read(NEW, &record).expect("histories lead to valid records");
            let (message, call) = kiosk_event(&mut r, &before, favour);
            let filler = r.next() as u8;
            steps += 1;
            if r.below(3) == 0 {
                let spoilt = spoil(&mut r, &record, &message, 12 * n as usize);
                let number = compare(to_kiosk(call, &spoilt.message), &spoilt.record, spoilt.room, spoilt.words, filler).number;
                numbers.met(number);
                let sound = spoilt.record.len() == 516 && kiosk_unmet(NEW, &spoilt.record).is_empty();
                assert_eq!(number == 21, !sound, "{:?}", spoilt.record);
                damaged.met((spoilt.record != record, sound, number == 0));
                let above = spoilt.message.get(3) > spoilt.record.get(5);
                if call == 0 && number != 0 && above {
                    unseen.met(number);
                }
            }
            let outcome = compare(to_kiosk(call, &message), &record, 12 * n as usize + 2, 2, filler);
            if steps % 400 == 0 {
                every_room(to_kiosk(call, &message), &record, &outcome);
            }
            numbers.met(outcome.number);
            accepted += usize::from(outcome.number == 0);
            let seen = before.seen.expect("a clock");
            if call == 1 && before.section == REMAINDER {
                tries.met((seen.cmp(&before.ticket), outcome.number));
            } else if call == 0 {
                looked_at.met((before.section, message[0], message[3].cmp(&seen)));
            }
            if call > 0 {
                calls.met((call, before.section, outcome.number));
            } else if message[0] == CHECK {
                checks.met((before.section, message[3].cmp(&before.ticket), outcome.sent()[0]));
            } else {
                let place = answer(&before, before.answers[message[2] as usize - 1]);
                let owner = answer(&before, self::place(message[4], message[3]).expect("a place"));
                let upshot = match (outcome.sent()[0], outcome.record()[3] != before.section) {
                    (0, false) => Upshot::Quiet,
                    (0, true) => Upshot::Holds,
                    _ => Upshot::Round,
                };
                answers.met((before.section, place, owner, upshot));
                if upshot != Upshot::Quiet {
                    rounds.met((upshot, before.m.min(32)));
                    all_of_many.met((upshot, before.m == 255));
                }
                for sent in outcome.messages() {
                    kinds.met(sent[0]);
                }
            }
            record.copy_from_slice(outcome.record());
            if outcome.number == 11 && r.below(8) == 0 {
                break;
            }
        }
    }
    // While trying, an empty place: nothing comes of no owner or an old pair, 3 things of an own answer, 2 of the others;
    // a place filled by itself, before or behind: nothing comes of any. In remainder all is empty, else empty or own.
    answers.assert_many((1 + 1 + 3 + 2 + 2) + 3 * 5 + 5 + 2 * 5, 100);
    // Older, the current and newer in each section.
    checks.assert_many(3 * 3, 100);
    // Try: accepted, spent, twice another section. Exit: accepted, twice another section.
    calls.assert_many(4 + 3, 100);
    // Accepted or spent with less seen than the last ticket, as much, and more.
    tries.assert_many(3 * 2, 100);
    // A RESPONSE and a CHECK in each section, of a ticket below the largest seen, of that one, and of one above it.
    looked_at.assert_many(3 * 2 * 3, 100);
    // Tickets above all seen in messages refused 5, 6, 12 and 21: `compare` has shown that the record stays.
    unseen.assert_many(4, 1000);
    // With every threshold to 31, and with larger ones, the kiosk comes to hold the wall, and to rounds; also with that of 255.
    rounds.assert_many(2 * 32, 20);
    all_of_many.assert_many(2 * 2, 20);
    // The kinds of a round.
    kinds.assert_many(3, 1000);
    assert!([YIELD, REQUEST, INQUIRY].iter().all(|kind| kinds.0.contains_key(kind)));
    damaged.assert_many(2 + 1 + 2, 1000);
    // 0, 5, 6, 10, 11, 12, 21.
    numbers.assert_many(7, 1000);
    assert!([0, 5, 6, 10, 11, 12, 21].iter().all(|n| numbers.0.contains_key(n)));
}

/// Every keeper of kiosks 1 to 3 with tickets 1 to 3, and every message from them and from a fourth.
#[test]
fn every_small_keeper() {
    let mut keepers = vec![];
    let tickets = |code: u32| [code % 4, code / 4 % 4, code / 16];
    for code in 0..64 {
        let mut present: Vec<Pair> = (1..).zip(tickets(code)).filter(|p| p.1 > 0).map(|p| pair(p.0, p.1)).collect();
        present.sort();
        for i in 0..present.len() {
            let mut line = present.clone();
            let owner = Some(line.remove(i));
            keepers.push(Keeper { n: 3, id: 2, owner, line });
        }
    }
    keepers.push(Keeper { n: 3, id: 2, owner: None, line: vec![] });
    assert_eq!(keepers.len(), 3 * 3 + 3 * 9 * 2 + 27 * 3 + 1);
    for keeper in keepers {
        let record = keeper.words(NEW);
        assert_eq!(Keeper::read(NEW, &record), Ok(keeper));
        let mut events = vec![];
        for kind in REQUEST..=INQUIRY {
            for kiosk in 1..=4 {
                for ticket in 1..=4 {
                    events.push([kind, kiosk, 2, ticket, 0]);
                }
            }
        }
        for event in events.iter().map(|m| Event::KeeperTakes(m)).chain([Event::Missing, Event::Check]) {
            let outcome = compare(event, &record, 30, 2, 0x3C);
            assert!([0, 15].contains(&outcome.number));
            every_room(event, &record, &outcome);
        }
    }
}

/// Every record of kiosk 2 with ticket 2 and at most 3 keepers whose answers name kiosks 1 to 3 with tickets 1 to 3,
/// broken or not, which has seen nothing, its ticket or a later one, and every message that it could take.
#[test]
fn every_small_kiosk() {
    let owners: Vec<[u32; 2]> = (0..10).map(|i| if i == 9 { [0, 0] } else { [1 + i / 3, 1 + i % 3] }).collect();
    let mut events = vec![];
    for keeper in 1..=4 {
        events.extend(owners.iter().map(|o| [RESPONSE, 2, keeper, o[1], o[0]]));
        events.extend((1..=3).map(|ticket| [CHECK, 2, keeper, ticket, 0]));
    }
    let mut numbers = Seen::new();
    for (n, m) in [(1, 1), (2, 1), (2, 2), (3, 1), (3, 2), (3, 3)] {
        for section in REMAINDER..=HOLDING + 1 {
            for (code, seen) in (0..10usize.pow(n)).flat_map(|code| [0, 2, 3].map(|seen| (code, seen))) {
                let mut record = [0; 516];
                record[..6].copy_from_slice(&[n, m, 2, section, 2, seen]);
                for (i, digit) in [code % 10, code / 10 % 10, code / 100].iter().enumerate().take(n as usize) {
                    record[6 + 2 * i..8 + 2 * i].copy_from_slice(&owners[9 - digit]);
                }
                let broken = compare(Event::Try, &record, 40, 2, 0x3C).number == 21;
                assert_eq!(broken, !kiosk_unmet(NEW, &record).is_empty());
                let some = if broken { &events[..1] } else { &events };
                for event in some.iter().map(|m| Event::KioskTakes(m)).chain([Event::Try, Event::Exit]) {
                    numbers.met((section, compare(event, &record, 40, 2, 0x3C).number));
                }
            }
        }
    }
    // 21, 12, 10 and 0 in each of the three sections, and 21 in no section.
    numbers.assert_many(3 * 4 + 1, 6);
    assert!(numbers.0.contains_key(&(TRYING, 0)) && numbers.0.contains_key(&(HOLDING + 1, 21)));
}

/// New records: boundary numbers, and slices of every length about the record's.
#[test]
fn new_records() {
    let mut seen = Seen::new();
    let numbers = [0, 1, 2, 4, 30, 31, 32, 33, 254, 255, 256, 257, 260, 65_535, 65_536, 65_537, u32::MAX];
    for n in numbers {
        for id in numbers {
            for length in [0, 1, 37, 68, 69, 70, 92] {
                let (mut ours, mut theirs) = ([0xA5A5_5A5A; 96], [0xA5A5_5A5A; 96]);
                let a = library::server_new(n, id, &mut ours[2..2 + length]);
                let b = keeper::new(n, id, &mut theirs[2..2 + length]);
                assert_eq!((a, ours), (b, theirs), "n {n}, keeper {id}, {length} words");
                seen.met(('s', a));
            }
            for m in numbers {
                for length in [0, 1, 67, 514, 515, 516, 517, 540] {
                    let (mut ours, mut theirs) = ([0xA5A5_5A5A; 544], [0xA5A5_5A5A; 544]);
                    let a = library::client_new(n, m, id, &mut ours[2..2 + length]);
                    let b = kiosk::new(n, m, id, &mut theirs[2..2 + length]);
                    assert_eq!((a, ours), (b, theirs), "n {n}, m {m}, kiosk {id}, {length} words");
                    seen.met(('c', a));
                }
            }
        }
    }
    seen.assert_many(4, 50);
}
