//! Old players beside new ones, document 02, L3 and L4: a message with keeper 32 to 255 is refused 5 by the model at document 01's
//! limits wherever the model at the new ones accepts it, and nothing else tells the two apart but a full line of 16, and the ticket
//! of a try where a kiosk has seen a larger one than its last. The library agrees with the new one.

use sigma_tests::both::{compare, played, Event, ROOM};
use sigma_tests::histories::{damage, first_seen, first_ticket, kiosk_event, to_keeper, to_kiosk, Crowd};
use sigma_tests::keeper::Keeper;
use sigma_tests::kiosk::{Kiosk, REMAINDER, TRYING};
use sigma_tests::model::{CHECK, REQUEST, RESPONSE};
use sigma_tests::players::{Players, NEW, OLD, WIDE};
use sigma_tests::random::Random;
use sigma_tests::samples::{bytes_of, random_message};
use sigma_tests::{keeper, kiosk, library};
use std::collections::BTreeMap;
use std::ops::RangeInclusive;

/// The keepers that only new players know of.
const ADDED: RangeInclusive<u32> = 32..=255;
const POISON: u32 = 0xA5A5_5A5A;

/// How often each pair of answers was met, the old players' and the new ones'.
type Met = BTreeMap<(u32, u32), usize>;

/// What the old players say where the new ones say this and the message's keeper is an added one: 5 stands behind 1 to 4, and before
/// 6 and being accepted.
fn old_answer(new: u32) -> u32 {
    if [0, 6].contains(&new) {
        5
    } else {
        new
    }
}

/// Both read; the library as the new players. The keeper's field is there if eight bytes are.
fn read(bytes: &[u8], room: usize) -> (u32, u32) {
    let (mut old, mut new, mut ours) = ([POISON; 9], [POISON; 9], [POISON; 9]);
    let answers = (OLD.read(bytes, &mut old[..room]), NEW.read(bytes, &mut new[..room]));
    assert_eq!((library::read(bytes, &mut ours[..room]), ours), (answers.1, new), "{bytes:02X?} into {room} words");
    let added = bytes.get(6..8).is_some_and(|two| ADDED.contains(&u16::from_le_bytes([two[0], two[1]]).into()));
    if added {
        assert_eq!((answers.0, old), (old_answer(answers.1), [POISON; 9]), "{bytes:02X?} into {room} words");
    } else {
        assert_eq!((answers.0, old), (answers.1, new), "{bytes:02X?} into {room} words");
    }
    answers
}

/// The same of writing.
fn write(words: &[u32], room: usize) -> (u32, u32) {
    let (mut old, mut new, mut ours) = ([0xC3; 24], [0xC3; 24], [0xC3; 24]);
    let answers = (OLD.write(words, &mut old[..room]), NEW.write(words, &mut new[..room]));
    assert_eq!((library::write(words, &mut ours[..room]), ours), (answers.1, new), "{words:?} into {room} bytes");
    if words.get(2).is_some_and(|keeper| ADDED.contains(keeper)) {
        assert_eq!((answers.0, old), (5, [0xC3; 24]), "{words:?} into {room} bytes");
    } else {
        assert_eq!((answers.0, old), (answers.1, new), "{words:?} into {room} bytes");
    }
    answers
}

/// Messages of all six kinds with this keeper, and numbers at the ends of every other range.
fn messages(keeper: u32) -> Vec<[u32; 5]> {
    let mut all = vec![];
    for kind in 1..=6 {
        for kiosk in [1, 5, 65_535] {
            for ticket in [1, 3, u32::MAX] {
                let owners: &[u32] = if kind == RESPONSE { &[1, 2, 65_535] } else { &[0] };
                all.extend(owners.iter().map(|&owner| [kind, kiosk, keeper, ticket, owner]));
            }
            all.extend((kind == RESPONSE).then_some([kind, kiosk, keeper, 0, 0]));
        }
    }
    all
}

/// Valid otherwise, whatever stands behind it and whatever room there is.
#[test]
fn every_message_to_an_added_keeper() {
    let mut accepted = 0;
    for words in ADDED.flat_map(messages) {
        let bytes = bytes_of(&words);
        for behind in [vec![], vec![0], vec![0xFF; 3], bytes.clone()] {
            let lent = [&bytes[..], &behind].concat();
            assert_eq!(read(&lent, 6), (5, 0), "{words:?}");
            accepted += 1;
        }
        assert_eq!(read(&bytes, 5), (5, 6), "{words:?}");
        assert_eq!((write(&words, bytes.len()), write(&words, 20)), ((5, 0), (5, 0)), "{words:?}");
        assert_eq!(write(&words, bytes.len() - 1), (5, 6), "{words:?}");
    }
    assert_eq!(accepted, 224 * 3 * (5 * 3 + 10) * 4);
}

/// Cut anywhere, or with any other field out of its range: refused by both, with the same number.
#[test]
fn messages_damaged_otherwise() {
    let mut met = Met::new();
    for keeper in [32, 33, 100, 254, 255] {
        for words in messages(keeper) {
            let bytes = bytes_of(&words);
            for length in 0..bytes.len() {
                *met.entry(read(&bytes[..length], 6)).or_default() += 1;
            }
            for at in [0, 1, 2, 3, 4, 5, 8, 9, 10, 11, 12, 13].into_iter().filter(|&at| at < bytes.len()) {
                for value in [0, 1, 5, 7, 12, 14, 31, 255, bytes[at] ^ 1] {
                    let mut wrong = bytes.clone();
                    wrong[at] = value;
                    *met.entry(read(&wrong, 6)).or_default() += 1;
                }
            }
            for (at, value) in [(0, 0), (0, 7), (1, 0), (1, 65_536), (3, 0), (4, 65_536), (4, u32::MAX)] {
                let mut wrong = words;
                wrong[at] = value;
                write(&wrong, 14);
            }
            write(&words[..4], 14);
            write(&[&words[..], &[0]].concat(), 14);
        }
    }
    assert_eq!(met.keys().copied().collect::<Vec<_>>(), [(1, 1), (2, 2), (3, 3), (4, 4), (5, 0), (5, 5)], "{met:?}");
}

/// Random bytes, and messages that something happened to: the two agree unless the keeper is an added one.
#[test]
fn nothing_else_tells_them_apart() {
    let (mut r, mut reads, mut writes) = (Random::new(31), Met::new(), Met::new());
    for turn in 0..1_000_000u32 {
        let mut bytes = [0; 20];
        r.fill(&mut bytes);
        let mut words = random_message(&mut r);
        words[2] = r.one_of(&[words[2], 1 + words[2] % 31]);
        let mut length = r.below(21) as usize;
        if turn % 4 != 0 {
            let whole = bytes_of(&words);
            bytes[..whole.len()].copy_from_slice(&whole);
            length = whole.len() + r.below(5) as usize - r.below(2) as usize;
        }
        for _ in 0..r.below(3) {
            let at = r.below(14) as usize;
            bytes[at] = r.damage(bytes[at]);
        }
        *reads.entry(read(&bytes[..length], r.one_of(&[5, 6, 6, 9]))).or_default() += 1;
        if r.below(2) == 0 {
            let at = r.below(5) as usize;
            words[at] = damage(&mut r, words[at]);
        }
        *writes.entry(write(&words, r.one_of(&[11, 12, 14, 20]))).or_default() += 1;
    }
    println!("{reads:?} {writes:?}");
    let answers = |met: &Met| met.iter().filter(|(_, &times)| times > 500).map(|(&pair, _)| pair).collect::<Vec<_>>();
    assert_eq!(answers(&reads), [(0, 0), (1, 1), (2, 2), (3, 3), (4, 4), (5, 0), (5, 5), (5, 6), (6, 6)], "{reads:?}");
    assert_eq!(answers(&writes), [(0, 0), (5, 0), (5, 5), (5, 6), (6, 6)], "{writes:?}");
}

/// Nothing of a packet is delivered unless all of it is accepted: one message to an added keeper, and old players refuse it whole.
#[test]
fn packets_with_an_added_keeper() {
    let known = bytes_of(&[1, 5, 31, 3, 0]);
    for words in ADDED.flat_map(messages) {
        let added = bytes_of(&words);
        for (order, at) in [([&added, &known], 2 + added.len()), ([&known, &added], 2), ([&known, &known], 14)] {
            let bytes = order.map(Vec::as_slice).concat();
            let packet = [&(2 + bytes.len() as u16).to_le_bytes()[..], &bytes].concat();
            let right = if order == [&known, &known] { 0 } else { 5 };
            let (mut old, mut new, mut ours) = ([POISON; 6], [POISON; 6], [POISON; 6]);
            assert_eq!(OLD.packet_next(&packet, at, &mut old), right, "{packet:02X?}");
            assert_eq!((NEW.packet_next(&packet, at, &mut new), new[2]), (0, 31), "{packet:02X?}");
            assert_eq!((library::packet_next(&packet, at, &mut ours), ours), (0, new), "{packet:02X?}");
            assert_eq!(old, if right == 0 { new } else { [POISON; 6] });
            let mut out = [0xC3; 30];
            assert_eq!((OLD.packet_pack(&bytes, &mut out), out == [0xC3; 30]), (right, right == 5), "{bytes:02X?}");
            assert_eq!(library::packet_pack(&bytes, &mut out), 0, "{bytes:02X?}");
        }
    }
}

/// An old record as new players have it; a kiosk has seen this since.
fn taken(old: &[u32], seen: u32) -> Vec<u32> {
    let keeper = old.len() == OLD.keeper_words();
    let mut record = vec![0; if keeper { NEW.keeper_words() } else { NEW.kiosk_words() }];
    assert_eq!(if keeper { keeper::upgrade } else { kiosk::upgrade }(old, &mut record), 0);
    if !keeper {
        record[5] = seen;
    }
    record
}

/// The event by old players on their record, and by the library and the new ones on the same record, taken over, with this seen since.
/// What the old ones accept the new ones do alike; a message to an added keeper is 5 to the old ones, and 12 or 13 to the new ones, or
/// 5 for its other numbers. Only a full line of 16, and a try below what was seen, tells them apart otherwise. Both answers.
fn step(players: Players, event: Event, old: &mut [u32], seen: u32) -> (u32, u32) {
    let before = old.to_vec();
    let (outcome, answer) = (compare(event, &taken(old, seen), ROOM, 2, 0x3C), played(players, event, old));
    let answers = (answer.as_ref().err().copied().unwrap_or(0), outcome.number);
    let (message, looked_at) = match event {
        Event::KeeperTakes(message) => (message, 0),
        Event::KioskTakes(message) => (message, if outcome.number == 0 { message[3] } else { 0 }),
        _ => (&[][..], 0),
    };
    let added = |keeper: &u32| ADDED.contains(keeper) && players == OLD;
    if message.get(2).is_some_and(added) {
        assert!(answers.0 == 5 && [5, 12, 13].contains(&answers.1), "{event:?} on {before:?}: {answers:?}");
    } else if matches!(event, Event::Try) && before[3] == REMAINDER && seen > before[4] {
        assert_eq!(outcome.number, if seen > 4_294_967_293 { 11 } else { 0 }, "{before:?}, seen {seen}");
        if let (Ok(messages), 0) = (answer, outcome.number) {
            let readdressed = |m: [u32; 5]| [m[0], m[1], m[2], seen + 1, m[4]];
            assert_eq!(outcome.messages(), messages.into_iter().map(readdressed).collect::<Vec<_>>(), "{before:?}, seen {seen}");
            old[4] = seen + 1;
            assert_eq!(outcome.record(), taken(old, seen), "{before:?}, seen {seen}");
        }
    } else if answers.0 != answers.1 {
        assert_eq!((answers, before[4]), ((14, 0), 16), "{event:?} on {before:?}");
    } else if let Ok(messages) = answer {
        assert_eq!(outcome.messages(), messages, "{event:?} on {before:?}");
        assert_eq!(outcome.record(), taken(old, seen.max(looked_at)), "{event:?} on {before:?}");
    }
    answers
}

/// Messages to keepers of both kinds, now and then damaged otherwise too.
fn readdressed(message: &[u32; 5], r: &mut Random) -> Vec<u32> {
    let mut message = message.to_vec();
    if r.below(3) != 0 {
        let any = 32 + r.below(224) as u32;
        message[2] = r.one_of(&[32, 33, 254, 255, any, any, 1 + any % 31, 0, 256, 65_536]);
    }
    if r.below(4) == 0 {
        let at = r.one_of(&[0, 1, 3, 4]);
        message[at] = damage(r, message[at]);
    }
    if r.below(16) == 0 {
        message.resize(r.below(8) as usize, 0);
    }
    message
}

#[test]
fn steps_of_old_keepers() {
    let (mut r, mut met) = (Random::new(32), Met::new());
    for _ in 0..1_500 {
        let n = 1 + r.below(31);
        let mut record = vec![0; OLD.keeper_words()];
        assert_eq!(OLD.keeper_new(n as u32, 1 + r.below(n) as u32, &mut record), 0);
        let crowd = Crowd::draw(&mut r, 16);
        for _ in 0..150 {
            let (message, call) = crowd.event(&mut r, &Keeper::read(OLD, &record).expect("valid"));
            let changed = readdressed(&message, &mut r);
            *met.entry(step(OLD, Event::KeeperTakes(&changed), &mut record.clone(), 0)).or_default() += 1;
            *met.entry(step(OLD, to_keeper(call, &message), &mut record, 0)).or_default() += 1;
        }
    }
    println!("{met:?}");
    let answers = [(0, 0), (5, 5), (5, 13), (13, 13), (14, 0), (15, 15)];
    assert!(met.keys().eq(&answers) && met.values().all(|&times| times > 500), "{met:?}");
}

/// A kiosk without a clock, of either limits: beside each event the new one has seen something else.
fn steps_of_kiosks(players: Players, seed: u64, answers: &[(u32, u32)]) {
    let (mut r, mut met) = (Random::new(seed), Met::new());
    for _ in 0..1_000 {
        let any = 1 + r.below(players.keepers.into()) as u32;
        let n = r.one_of(&[3, 31, any]);
        let mut record = vec![0; players.kiosk_words()];
        assert_eq!(players.kiosk_new(n, n - n / 3, r.one_of(&[1, 5, 65_535]), &mut record), 0);
        record[4] = first_ticket(&mut r);
        let favour = r.one_of(&[0, 5, 10]);
        for _ in 0..150 {
            let (message, call) = kiosk_event(&mut r, &Kiosk::read(players, &record).expect("valid"), favour);
            let (changed, seen) = (readdressed(&message, &mut r), first_seen(&mut r, record[4]));
            *met.entry(step(players, Event::KioskTakes(&changed), &mut record.clone(), seen)).or_default() += 1;
            *met.entry(step(players, to_kiosk(call, &message), &mut record, seen)).or_default() += 1;
        }
    }
    println!("{met:?}");
    assert!(met.keys().eq(answers) && met.values().all(|&times| times > 100), "{met:?}");
}

/// Where the new one has no tickets left above what it has seen, the old one goes on trying: (0, 11).
#[test]
fn steps_of_old_kiosks() {
    steps_of_kiosks(OLD, 33, &[(0, 0), (0, 11), (5, 5), (5, 12), (10, 10), (11, 11), (12, 12)]);
}

/// To those of L3 no keeper up to 255 is out of range, and the clock alone tells them from the new ones.
#[test]
fn steps_of_kiosks_without_a_clock() {
    steps_of_kiosks(WIDE, 34, &[(0, 0), (0, 11), (5, 5), (10, 10), (11, 11), (12, 12)]);
}

/// A kiosk without a clock and the library's, side by side: the same answers to all that comes, and the same records but for what the
/// new one notes; then the old one's next try takes 3, and the new one's 41.
#[test]
fn only_the_try_tells_them_apart() {
    for (players, length) in [(OLD, 67), (WIDE, 515)] {
        let mut old = vec![0; length];
        old[..5].copy_from_slice(&[3, 2, 5, REMAINDER, 0]);
        assert_eq!(step(players, Event::Try, &mut old, 0), (0, 0));
        // Told of another, of itself twice, and checked: with ticket 1 it comes to hold, and leaves with ticket 2.
        let comes = [
            [RESPONSE, 5, 3, 40, 9],
            [RESPONSE, 5, 3, 0, 0],
            [RESPONSE, 5, 1, 1, 5],
            [RESPONSE, 5, 2, 1, 5],
            [CHECK, 5, 1, 7, 0],
        ];
        for (message, seen) in comes.iter().zip([0, 40, 40, 40, 40]) {
            assert_eq!(step(players, Event::KioskTakes(message), &mut old, seen), (0, 0), "{message:?}");
        }
        assert_eq!(step(players, Event::Exit, &mut old, 40), (0, 0));
        assert_eq!(old[3..5], [REMAINDER, 2]);
        let (mut again, new) = (old.clone(), compare(Event::Try, &taken(&old, 40), ROOM, 2, 0));
        let requests = |ticket| [1, 2, 3].map(|keeper| [REQUEST, 5, keeper, ticket, 0]).to_vec();
        assert_eq!((played(players, Event::Try, &mut again), new.messages()), (Ok(requests(3)), requests(41)));
        assert_eq!((&again[3..5], &new.record()[3..6]), (&[TRYING, 3][..], &[TRYING, 41, 40][..]));
    }
}

/// Every added keeper in every kind, to a kiosk and to a keeper with all of 31; the new ones at n 31 too, where it was 5.
#[test]
fn every_added_keeper_at_a_step() {
    let (mut keeper, mut kiosk) = (vec![0; OLD.keeper_words()], vec![0; OLD.kiosk_words()]);
    assert_eq!((OLD.keeper_new(31, 31, &mut keeper), OLD.kiosk_new(31, 21, 5, &mut kiosk)), (0, 0));
    assert!(played(OLD, Event::Try, &mut kiosk).is_ok());
    for message in ADDED.flat_map(messages) {
        assert_eq!(step(OLD, Event::KeeperTakes(&message), &mut keeper, 0), (5, 13), "{message:?}");
        assert_eq!(step(OLD, Event::KioskTakes(&message), &mut kiosk, 0), (5, 12), "{message:?}");
    }
    assert_eq!(step(OLD, Event::KioskTakes(&[CHECK, 5, 31, 9, 0]), &mut kiosk, 0), (0, 0));
    assert_eq!(step(OLD, Event::KioskTakes(&[CHECK, 5, 256, 9, 0]), &mut kiosk, 0), (5, 5));
}
