//! The calls on a simulation, event by event beside the model's gallery: answers, refusals, every word, and what a refused call
//! leaves.

use sigma_tests::author::any_script;
use sigma_tests::files::scripts;
use sigma_tests::gallery::{Event, Gallery, Kind, GALLERY};
use sigma_tests::library::{script_feed, script_new};
use sigma_tests::random::Random;
use sigma_tests::script::{event, first, lines};
use sigma_tests::setting::Setting;
use sigma_tests::simulation::{by_call, by_model, by_script, client_at, new_by_call, server_at, words_of, INDEX, STATE, WORDS};
use std::collections::BTreeMap;

const LAST: u32 = u32::MAX;

fn by_setting(n: u32, m: u32, f: u32, kiosks: u32) -> Result<Gallery, u32> {
    Gallery::new(Setting::new(n, m, f)?, kiosks, GALLERY)
}

/// The simulation that a script's first line begins.
fn begun(n: u32, m: u32, f: u32, kiosks: u32) -> Vec<u32> {
    let mut state = vec![0; STATE + WORDS];
    assert_eq!(script_new(&mut state), 0);
    let line = format!("setting {n} {m} {f} {kiosks}\n");
    assert_eq!(script_feed(&mut state, line.as_bytes(), &mut [0; 52], &mut [0; 2]), 0);
    state.split_off(STATE)
}

#[test]
fn every_setting_begins_as_the_model_does() {
    for (Setting { n, m, f }, kiosks) in Setting::all(31).into_iter().zip((1..=16).cycle()) {
        let words = new_by_call(n, m, f, kiosks, WORDS);
        assert!(words == by_setting(n, m, f, kiosks).map(|gallery| words_of(&gallery)), "{n} {m} {f} {kiosks}");
        assert!(words == Ok(begun(n, m, f, kiosks)), "{n} {m} {f} {kiosks}");
    }
}

#[test]
fn settings_out_of_range() {
    for (n, m, f, kiosks) in [(1, 1, 0, 1), (1, 1, 1, 16), (4, 3, 1, 2), (31, 1, 31, 16), (31, 31, 0, 1)] {
        assert!(new_by_call(n, m, f, kiosks, WORDS).is_ok());
        // Cut to 8 or 16 bits, some of these would be in range.
        let past = |number: u32| [number + 256, number + 65_536, 1 << 31, LAST];
        let wrong_n = [[0, 32, 33, 254, 255].as_slice(), &past(n)].concat().into_iter().map(|n| (n, m.min(n), f.min(n), kiosks));
        let wrong_m = [[0, n + 1].as_slice(), &past(m)].concat().into_iter().map(|m| (n, m, f, kiosks));
        let wrong_f = [[n + 1].as_slice(), &past(f)].concat().into_iter().map(|f| (n, m, f, kiosks));
        let wrong_kiosks = [[0, 17].as_slice(), &past(kiosks)].concat().into_iter().map(|kiosks| (n, m, f, kiosks));
        for (n, m, f, kiosks) in wrong_n.chain(wrong_m).chain(wrong_f).chain(wrong_kiosks) {
            assert_eq!(by_setting(n, m, f, kiosks).err(), Some(7), "{n} {m} {f} {kiosks}");
            assert_eq!(new_by_call(n, m, f, kiosks, WORDS), Err(7), "{n} {m} {f} {kiosks}");
        }
        for room in [0, 1, 7, INDEX, WORDS - 1, WORDS + 1, STATE + WORDS] {
            assert_eq!(new_by_call(n, m, f, kiosks, room), Err(7), "{room} words");
        }
    }
}

/// Settings that kiosks and keepers run with, but that no gallery has: in a call, in a script's first line, and where the words say
/// so, in front or in every record too.
#[test]
fn more_keepers_than_a_gallery_has() {
    let words = begun(31, 21, 10, 2);
    let records = (0..2).map(|i| client_at(i) + 1).chain((0..31).map(|i| server_at(i) + 1)).collect::<Vec<_>>();
    for n in 32..=300 {
        for (m, f) in [(1, 0), (n - n / 3, (n - 1) / 3), (n, n)] {
            assert_eq!(new_by_call(n, m, f, 2, WORDS), Err(7), "{n} {m} {f}");
            let (mut state, mut out, mut counts) = (vec![0; STATE + WORDS], [0; 52], [0; 2]);
            assert_eq!(script_new(&mut state), 0);
            let line = format!("setting {n} {m} {f} 2\n");
            assert_eq!(script_feed(&mut state, line.as_bytes(), &mut out, &mut counts), 0);
            assert_eq!((counts, &out[..5]), ([line.len(), 5], &b"no 7\n"[..]), "{line}");
        }
        let mut wrong = words.clone();
        for places in [&[0], &records[..]] {
            places.iter().for_each(|&at| wrong[at] = n);
            for event in [Event { kind: Kind::Try, number: 1 }, Event { kind: Kind::Check, number: n.into() }] {
                assert_eq!(by_call(&mut wrong.clone(), event.kind as u32, event.number as u32, 2), Err(21), "{n}");
                assert_eq!(by_script(&mut wrong.clone(), event), Err(21), "{n}");
            }
        }
    }
}

/// The sum of all kiosks' tickets: an event takes it further than the next only by a try above what was seen.
fn tickets(gallery: &Gallery) -> u64 {
    gallery.clients.iter().map(|client| u64::from(client.record.ticket)).sum()
}

/// Each event line by the call, with room of 0 to 3 words for its answer; a line that asks for no event is left out. Counts the
/// answers by their number, and the tries above what was seen that are above the next ticket too.
fn play(script: &[u8], met: &mut BTreeMap<u32, usize>, jumps: &mut usize) {
    let mut lines = lines(script);
    let Some(Ok([n, m, f, kiosks])) = lines.next().map(first) else {
        return;
    };
    let begun = by_setting(n, m, f, kiosks);
    let words = new_by_call(n, m, f, kiosks, WORDS);
    assert_eq!(words.as_ref().err(), begun.as_ref().err());
    let (Ok(mut gallery), Ok(mut words)) = (begun, words) else {
        return;
    };
    for event in lines.filter_map(|line| event(line).ok()) {
        let (kind, number) = (event.kind as u32, u32::try_from(event.number).expect("a word"));
        let before = tickets(&gallery);
        let expected = by_model(&mut gallery, event);
        *jumps += usize::from(tickets(&gallery) > before + 1);
        for room in [0, 1] {
            // 6 is the last refusal.
            let refused = by_call(&mut words.clone(), kind, number, room);
            assert_eq!(refused, expected.and(Err(6)), "{event:?} with {room} words");
        }
        let mut other = words.clone();
        assert_eq!(by_call(&mut words, kind, number, 2), expected, "{event:?}");
        assert_eq!(by_call(&mut other, kind, number, 3), expected, "{event:?} with 3 words");
        assert!(words == words_of(&gallery) && other == words, "{event:?} left other words than the model");
        *met.entry(expected.err().unwrap_or(0)).or_insert(0) += 1;
    }
}

#[test]
fn each_script_event_by_event() {
    let (mut met, mut jumps) = (BTreeMap::new(), 0);
    for (_, script, _) in scripts() {
        play(&script, &mut met, &mut jumps);
    }
    println!("{met:?}, {jumps} jumps");
    assert_eq!(met.keys().copied().collect::<Vec<_>>(), [0, 10, 15, 17, 18, 19, 20], "{met:?}");
    assert_eq!(jumps, 1, "the newcomer's, from 2 to 6");
}

#[test]
fn random_scripts_event_by_event() {
    let (mut r, mut met, mut jumps) = (Random::new(2099), BTreeMap::new(), 0);
    for _ in 0..600 {
        play(&any_script(&mut r), &mut met, &mut jumps);
    }
    println!("{met:?}, {jumps} jumps");
    assert_eq!(met.keys().copied().collect::<Vec<_>>(), [0, 10, 15, 17, 18, 19, 20], "{met:?}");
    assert!(met.values().all(|&times| times >= 20) && jumps >= 20, "{met:?}, {jumps} jumps");
}

/// Behind a try, the takes of its requests and a fall, so that an event of every kind is accepted somewhere.
fn some() -> Vec<Vec<u32>> {
    let mut words = begun(3, 2, 1, 4);
    let mut all = vec![words.clone()];
    for (kind, number) in [(1, 1), (6, 1), (6, 2), (6, 4), (6, 5), (4, 3), (1, 2), (3, 2)] {
        assert!(by_call(&mut words, kind, number, 2).is_ok(), "{kind} {number}");
        all.push(words.clone());
    }
    all
}

/// 16 is the first refusal: the words may be broken or too few, and there may be no room.
#[test]
fn kinds_that_are_none() {
    for words in some() {
        let mut broken = words.clone();
        broken[0] = 32;
        for kind in [0, 10, 11, 257, 65_537, 1 << 31, LAST] {
            for number in [0, 1, LAST] {
                for room in 0..=3 {
                    assert_eq!(by_call(&mut words.clone(), kind, number, room), Err(16), "{kind}");
                    assert_eq!(by_call(&mut broken.clone(), kind, number, room), Err(16), "{kind}");
                    assert_eq!(by_call(&mut words[1..].to_vec(), kind, number, room), Err(16), "{kind}");
                }
            }
        }
    }
}

/// 21 is next, whatever the number and the room; then 17, also where the number cut to 8 or 16 bits would be there.
#[test]
fn numbers_that_are_not_there() {
    for words in some() {
        let mut broken = words.clone();
        broken[1] = 0;
        for kind in 1..=9 {
            for number in [0, 5, 16, 17, 31, 32, 256, 257, 65_535, 65_536, 65_537, 65_538, 131_073, 1 << 31, LAST] {
                let there = match kind {
                    1..=3 => 4,
                    6 | 7 => words[5],
                    _ => 3,
                };
                for room in 0..=3 {
                    assert_eq!(by_call(&mut broken.clone(), kind, number, room), Err(21), "{kind} {number}");
                    assert_eq!(by_call(&mut words[1..].to_vec(), kind, number, room), Err(21), "{kind} {number}");
                    if number == 0 || number > there {
                        assert_eq!(by_call(&mut words.clone(), kind, number, room), Err(17), "{kind} {number}");
                    }
                }
            }
        }
    }
}
