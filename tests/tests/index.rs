//! The index beside the table, document 02, L2. After each event every receiver's list in the library's words is the one that the
//! model makes afresh, and only those that the event is about have another list than before; and no word of it can be another.

use sigma_tests::author::{any_script, restarts_script, MIXED, RESTARTS};
use sigma_tests::files::scripts;
use sigma_tests::gallery::{Event, Gallery, Kind, GALLERY};
use sigma_tests::index::{self, List, Receiver, RECEIVERS};
use sigma_tests::random::Random;
use sigma_tests::script::{event, first, lines};
use sigma_tests::setting::Setting;
use sigma_tests::simulation::{by_call, by_model, by_script, index_of, new_by_call, words_of, INDEX, STATE, WORDS};
use std::collections::{BTreeMap, BTreeSet};

const KINDS: [Kind; 9] =
    [Kind::Try, Kind::Exit, Kind::Fall, Kind::Down, Kind::Up, Kind::Take, Kind::Drop, Kind::Miss, Kind::Check];

/// A gallery by the model, and beside it the library's words of it.
struct Both {
    gallery: Gallery,
    words: Vec<u32>,
}

impl Both {
    /// None where the setting is refused.
    fn new([n, m, f, kiosks]: [u32; 4]) -> Option<Both> {
        let gallery = Setting::new(n, m, f).and_then(|setting| Gallery::new(setting, kiosks, GALLERY));
        let words = new_by_call(n, m, f, kiosks, WORDS);
        assert_eq!(words.as_ref().err(), gallery.as_ref().err());
        Some(Both { gallery: gallery.ok()?, words: words.ok()? })
    }

    /// The event by both, which answer the same.
    fn give(&mut self, event: Event) -> Result<[u32; 2], u32> {
        let number = u32::try_from(event.number).expect("a word");
        let answer = by_call(&mut self.words, event.kind as u32, number, 2);
        assert_eq!(answer, by_model(&mut self.gallery, event), "{event:?}");
        answer
    }

    /// The events, all accepted.
    fn after(setting: [u32; 4], events: &[(Kind, u64)]) -> Both {
        let mut both = Both::new(setting).expect("in range");
        for &(kind, number) in events {
            assert!(both.give(Event { kind, number }).is_ok(), "{kind:?} {number}");
        }
        both
    }

    /// The lists in the library's words.
    fn listed(&self) -> Vec<List> {
        index::read(&self.words[INDEX..]).unwrap_or_else(|| panic!("no index: {:?}", &self.words[INDEX..]))
    }
}

// By hand ---------------------------------------------------------------------------------------------------------------------

#[test]
fn how_many_words() {
    assert_eq!((RECEIVERS, index::NUMBERS, index::MARKS, index::WORDS), (47, 47, 559, 1071));
    assert_eq!((INDEX, WORDS, 4 * WORDS, STATE + WORDS), (6369, 7440, 29_760, 7486));
}

#[test]
fn where_receivers_stand() {
    let places: Vec<usize> = Receiver::all().map(Receiver::place).collect();
    assert!(places.into_iter().eq(0..RECEIVERS));
    let ends = [Receiver::Keeper(1), Receiver::Keeper(31), Receiver::Kiosk(1), Receiver::Kiosk(16)];
    assert_eq!(ends.map(Receiver::place), [0, 30, 31, 46]);
}

/// The lists that are not empty, `t` for taken and `w` for waiting.
fn text(lists: &[List]) -> String {
    let entry = |&(number, taken): &(u32, bool)| format!(" {number}{}", if taken { "t" } else { "w" });
    let line = |receiver: Receiver| format!("{receiver}:{}", lists[receiver.place()].iter().map(entry).collect::<String>());
    Receiver::all().filter(|receiver| !lists[receiver.place()].is_empty()).map(line).collect::<Vec<_>>().join(", ")
}

/// Two kiosks ask three keepers: what each event leaves, worked out from document 01.
#[test]
fn a_small_run() {
    let mut both = Both::new([3, 2, 1, 2]).expect("in range");
    assert_eq!(text(&both.listed()), "");
    let steps = [
        (Kind::Try, 1, "keeper 1: 1w, keeper 2: 2w, keeper 3: 3w"),
        (Kind::Take, 1, "keeper 1: 1t, keeper 2: 2w, keeper 3: 3w, kiosk 1: 4w"),
        (Kind::Take, 2, "keeper 1: 1t, keeper 2: 2t, keeper 3: 3w, kiosk 1: 4w 5w"),
        (Kind::Try, 2, "keeper 1: 1t 6w, keeper 2: 2t 7w, keeper 3: 3w 8w, kiosk 1: 4w 5w"),
        (Kind::Take, 6, "keeper 1: 1t 6t, keeper 2: 2t 7w, keeper 3: 3w 8w, kiosk 1: 4w 5w, kiosk 2: 9w"),
        (Kind::Take, 4, "keeper 1: 1t 6t, keeper 2: 2t 7w, keeper 3: 3w 8w, kiosk 1: 5w, kiosk 2: 9w"),
        (Kind::Check, 1, "keeper 1: 1t 6t, keeper 2: 2t 7w, keeper 3: 3w 8w, kiosk 1: 5w 10w, kiosk 2: 9w"),
        (Kind::Down, 1, "keeper 1: 1w 6w, keeper 2: 2t 7w, keeper 3: 3w 8w, kiosk 1: 5w 10w, kiosk 2: 9w"),
        (Kind::Drop, 2, "keeper 1: 1w 6w, keeper 2: 7w, keeper 3: 3w 8w, kiosk 1: 5w 10w, kiosk 2: 9w"),
        (Kind::Up, 1, "keeper 1: 1w 6w, keeper 2: 7w, keeper 3: 3w 8w, kiosk 1: 5w 10w, kiosk 2: 9w"),
        (Kind::Take, 5, "keeper 1: 1w 6w, keeper 2: 7w, keeper 3: 3w 8w, kiosk 1: 10w, kiosk 2: 9w"),
        (Kind::Exit, 1, "keeper 1: 1w 6w 11w, keeper 2: 7w 12w, keeper 3: 3w 8w 13w, kiosk 1: 10w, kiosk 2: 9w"),
        (Kind::Take, 10, "keeper 1: 1w 6w 11w 14w, keeper 2: 7w 12w, keeper 3: 3w 8w 13w, kiosk 2: 9w"),
        (Kind::Fall, 1, "keeper 1: 1w 6w 11w 14w, keeper 2: 7w 12w, keeper 3: 3w 8w 13w, kiosk 2: 9w"),
        (Kind::Take, 7, "keeper 1: 1w 6w 11w 14w, keeper 2: 7t 12w, keeper 3: 3w 8w 13w, kiosk 2: 9w 15w"),
        (Kind::Miss, 2, "keeper 1: 1w 6w 11w 14w, keeper 2: 7t 12w, keeper 3: 3w 8w 13w, kiosk 2: 9w 15w 16w"),
    ];
    for (kind, number, expected) in steps {
        assert!(both.give(Event { kind, number }).is_ok(), "{kind:?} {number}");
        assert_eq!(text(&both.listed()), expected, "{kind:?} {number}");
        assert_eq!(text(&index::lists(&both.gallery.kept)), expected, "the model: {kind:?} {number}");
    }
}

/// Keepers 1 to 3 have two messages each, kiosk 1 two and kiosk 2 one.
#[test]
fn the_words_of_a_small_index() {
    let events = [(Kind::Try, 1), (Kind::Take, 1), (Kind::Take, 2), (Kind::Try, 2), (Kind::Take, 6)];
    let both = Both::after([3, 2, 1, 2], &events);
    let (counts, rest) = both.words[INDEX..].split_at(47);
    let (numbers, marks) = rest.split_at(512);
    assert_eq!(counts[..3], [2; 3]);
    assert_eq!(counts[3..31], [0; 28]);
    assert_eq!(counts[31..33], [2, 1]);
    assert_eq!(counts[33..], [0; 14]);
    assert_eq!(numbers[..9], [1, 6, 2, 7, 3, 8, 4, 5, 9]);
    assert_eq!(numbers[9..], [0; 503]);
    assert_eq!(marks[..9], [1, 1, 1, 0, 0, 0, 0, 0, 0]);
    assert_eq!(marks[9..], [0; 503]);
    assert!(both.words == words_of(&both.gallery));
}

// Event by event --------------------------------------------------------------------------------------------------------------

/// Of one kind of events: the accepted, those that changed a list, and the refused.
#[derive(Clone, Copy, Debug, Default)]
struct Count {
    accepted: usize,
    changing: usize,
    refused: usize,
}

type Counts = BTreeMap<Kind, Count>;

/// "The receivers of messages sent, taken or dropped, and a keeper that goes down". The event is accepted and the gallery is as it
/// left it; `message` is the receiver of the message that it names, and `last` the number sent last before it.
fn touched(gallery: &Gallery, event: Event, message: Option<Receiver>, last: u64) -> BTreeSet<Receiver> {
    let sent = gallery.kept.iter().filter(|kept| kept.number > last).filter_map(|kept| Receiver::of(&kept.message));
    let named = match event.kind {
        Kind::Take | Kind::Drop => message,
        Kind::Down => Some(Receiver::Keeper(event.number as u32)),
        _ => None,
    };
    sent.chain(named).collect()
}

/// Each event of the script, list by list; a line that asks for no event is left out.
fn play(script: &[u8], counts: &mut Counts) {
    let mut lines = lines(script);
    let Some(mut both) = lines.next().and_then(|line| first(line).ok()).and_then(Both::new) else {
        return;
    };
    let mut before = both.listed();
    assert_eq!(text(&before), "", "at the start");
    for event in lines.filter_map(|line| event(line).ok()) {
        let last = both.gallery.last;
        let message = both.gallery.kept.iter().find(|kept| kept.number == event.number);
        let message = message.and_then(|kept| Receiver::of(&kept.message));
        let answer = both.give(event);

        let listed = both.listed();
        let may = if answer.is_ok() { touched(&both.gallery, event, message, last) } else { BTreeSet::new() };
        let other = |receiver: &Receiver| listed[receiver.place()] != before[receiver.place()];
        let changed: Vec<Receiver> = Receiver::all().filter(other).collect();
        assert!(changed.iter().all(|receiver| may.contains(receiver)), "{event:?}, {answer:?}: {changed:?}, only {may:?} may");

        let afresh = index::lists(&both.gallery.kept);
        for receiver in Receiver::all() {
            let place = receiver.place();
            assert_eq!(listed[place], afresh[place], "{receiver} behind {event:?}, {answer:?}: listed, and in the table");
        }
        assert!(both.words[INDEX..] == index_of(&both.words), "the words behind the lists, behind {event:?}");
        before = listed;

        let count = counts.entry(event.kind).or_default();
        count.accepted += usize::from(answer.is_ok());
        count.changing += usize::from(!changed.is_empty());
        count.refused += usize::from(answer.is_err());
    }
}

/// Each kind is met, accepted and refused, and changes lists so often at least, but for those that change none.
fn enough(counts: &Counts, least: usize) {
    println!("{counts:?}");
    assert!(counts.keys().eq(&KINDS), "{counts:?}");
    for (kind, count) in counts {
        let changing = if [Kind::Fall, Kind::Up].contains(kind) { count.changing == 0 } else { count.changing >= least };
        assert!(changing && count.accepted >= least && count.refused >= least, "{kind:?}: {count:?}");
    }
}

#[test]
fn each_script_list_by_list() {
    let mut counts = Counts::new();
    for (_, script, _) in scripts() {
        play(&script, &mut counts);
    }
    enough(&counts, 1);
}

#[test]
fn random_scripts_list_by_list() {
    let (mut r, mut counts) = (Random::new(2007), Counts::new());
    for _ in 0..2500 {
        play(&any_script(&mut r), &mut counts);
    }
    enough(&counts, 100);
}

/// Long lists, and a keeper that goes down or up at each third event.
#[test]
fn restarts_list_by_list() {
    for setting in RESTARTS {
        let mut counts = Counts::new();
        play(&restarts_script(setting, MIXED, 6000), &mut counts);
        println!("{counts:?}");
        let downs = counts[&Kind::Down];
        assert!(downs.accepted >= 800 && 2 * downs.changing >= downs.accepted, "{downs:?}: half of them change a list");
        assert!(counts.values().all(|count| count.refused == 0), "{counts:?}");
    }
}

// Every word damaged ----------------------------------------------------------------------------------------------------------

/// Nothing kept; eight messages for three keepers and two kiosks; messages for all keepers of the largest setting, taken and
/// waiting, and for ten of its kiosks; and 512 messages.
fn states() -> [Both; 4] {
    let tries = |count: u64| (1..=count).map(|kiosk| (Kind::Try, kiosk));
    let takes = |numbers: std::ops::RangeInclusive<u64>| numbers.step_by(3).map(|number| (Kind::Take, number));
    let largest = [31, 21, 10, 16];
    let some = [(Kind::Try, 2), (Kind::Take, 1), (Kind::Take, 3), (Kind::Try, 1), (Kind::Take, 8), (Kind::Drop, 5)];
    let many: Vec<(Kind, u64)> = tries(10).chain(takes(1..=310)).collect();
    let full: Vec<(Kind, u64)> = tries(16).chain((1..=496).step_by(31).map(|number| (Kind::Take, number))).collect();
    [Both::after([3, 2, 1, 2], &[]), Both::after([3, 3, 0, 2], &some), Both::after(largest, &many), Both::after(largest, &full)]
}

#[test]
fn the_states_have_what_can_be_damaged() {
    let [start, some, many, full] = states();
    assert_eq!([&start, &some, &many, &full].map(|both| both.gallery.kept.len()), [0, 8, 414, 512]);
    let lists = many.listed();
    assert!(lists[..31].iter().all(|list| list.len() == 10 && list.windows(2).any(|two| two[0].1 != two[1].1)), "{lists:?}");
    assert_eq!(lists[31..].iter().filter(|list| list.len() > 9).count(), 10, "{lists:?}");
    assert_eq!(full.listed().iter().flatten().filter(|&&(_, taken)| taken).count(), 16);
}

/// Another word in each place of the index, and each two neighbours exchanged: 21 by both ways, and no word is changed.
#[test]
fn no_word_of_the_index_can_be_another() {
    for both in states() {
        let words = &both.words;
        let mut tried = 0;
        let mut try_with = |at: usize, set: &[(usize, u32)]| {
            let mut wrong = words.clone();
            set.iter().for_each(|&(at, word)| wrong[at] = word);
            let event = Event { kind: KINDS[at % KINDS.len()], number: 1 };
            assert_eq!(by_call(&mut wrong, event.kind as u32, 1, 2), Err(21), "{set:?} instead of {}", words[at]);
            assert_eq!(by_script(&mut wrong, event), Err(21), "{set:?} instead of {}", words[at]);
            tried += 1;
        };
        for at in INDEX..WORDS {
            let word = words[at];
            let others: BTreeSet<u32> = [word.wrapping_add(1), word.wrapping_sub(1), 0, u32::MAX].into();
            others.into_iter().filter(|&other| other != word).for_each(|other| try_with(at, &[(at, other)]));
            if at + 1 < WORDS && words[at + 1] != word {
                try_with(at, &[(at, words[at + 1]), (at + 1, word)]);
            }
        }
        println!("{tried} damages, {} messages kept", both.gallery.kept.len());
        assert!(tried >= 2 * index::WORDS, "{tried}");
        for kind in KINDS {
            let event = Event { kind, number: 1 };
            let answer = by_script(&mut words.clone(), event);
            assert_eq!(by_call(&mut words.clone(), kind as u32, 1, 2), answer);
            assert_ne!(answer, Err(21), "undamaged");
        }
    }
}
