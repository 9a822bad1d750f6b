//! Damaged simulations: the library refuses 21 exactly those whose words the model calls broken, and works the others as the
//! model's gallery does; both ways to a simulation, which must agree.

use sigma_tests::author::{any_event, any_setting};
use sigma_tests::broken::{broken, Rule};
use sigma_tests::gallery::{Client, Event, Gallery, Kept, Kind, Server, GALLERY, KEEPERS, KIOSKS};
use sigma_tests::index::{self, List, Receiver, MARKS, NUMBERS, RECEIVERS};
use sigma_tests::kiosk::{HOLDING, REMAINDER, TRYING};
use sigma_tests::model::RESPONSE;
use sigma_tests::random::Random;
use sigma_tests::records::Pair;
use sigma_tests::setting::Setting;
use sigma_tests::simulation::{
    by_call, by_model, by_script, client_at, flags_at, gallery_of, index_of, server_at, slot_at, words_of, Answer, CLIENT, INDEX,
    SERVER, SLOT, STATE, WORDS,
};
use std::collections::{BTreeMap, BTreeSet};

const LAST: u32 = u32::MAX;
const KINDS: [Kind; 9] =
    [Kind::Try, Kind::Exit, Kind::Fall, Kind::Down, Kind::Up, Kind::Take, Kind::Drop, Kind::Miss, Kind::Check];

/// The event by both ways on copies of the words, which must agree.
fn by_library(words: &mut [u32], event: Event) -> Answer {
    let mut other = words.to_vec();
    let answer = by_script(words, event);
    let number = u32::try_from(event.number).expect("a word");
    assert_eq!(by_call(&mut other, event.kind as u32, number, 2), answer, "{event:?}");
    assert!(other == words, "{event:?} left other words");
    answer
}

/// What a gallery that is not broken can answer: 0 for an accepted event, and the refusals.
const EVERY_ANSWER: [u32; 8] = [0, 10, 11, 15, 17, 18, 19, 20];

/// How often each answer was given.
type Met = BTreeMap<u32, usize>;

/// An event of the party or the message whose words have this place.
fn near(gallery: &Gallery, at: usize, r: &mut Random) -> Event {
    let messages = |of: &dyn Fn(&Kept) -> bool| gallery.kept.iter().filter(|kept| of(kept)).map(|kept| kept.number).collect();
    let (kinds, number, messages): (&[Kind], usize, Vec<u64>) = if (client_at(0)..server_at(0)).contains(&at) {
        let k = 1 + (at - client_at(0)) / CLIENT;
        let to_it = messages(&|kept| kept.message.kind >= RESPONSE && kept.message.kiosk as usize == k);
        (&[Kind::Try, Kind::Exit, Kind::Fall, Kind::Take], k, to_it)
    } else if (server_at(0)..slot_at(0)).contains(&at) {
        let j = 1 + (at - server_at(0)) / SERVER;
        let to_it = messages(&|kept| kept.message.kind < RESPONSE && kept.message.keeper as usize == j);
        (&[Kind::Down, Kind::Up, Kind::Miss, Kind::Check, Kind::Take, Kind::Take], j, to_it)
    } else {
        let itself = gallery.kept.get(at.saturating_sub(slot_at(0)) / SLOT);
        (&[Kind::Take, Kind::Drop], 0, itself.map(|kept| kept.number).into_iter().collect())
    };
    match r.one_of(kinds) {
        Kind::Take | Kind::Drop if messages.is_empty() => any_event(gallery, r),
        kind @ (Kind::Take | Kind::Drop) => Event { kind, number: r.one_of(&messages) },
        kind => Event { kind, number: number as u64 },
    }
}

/// So many events on words that are not broken, by the library and by the model's gallery; half of them near these places.
fn play(words: &[u32], places: &[usize], events: usize, met: &mut Met, r: &mut Random) {
    let mut gallery = gallery_of(words).expect("not broken");
    let mut words = words.to_vec();
    assert!(words_of(&gallery) == words, "the words are those of the gallery in them");
    for _ in 0..events {
        let at = r.one_of(places);
        let event = if r.below(2) == 0 { near(&gallery, at, r) } else { any_event(&gallery, r) };
        let before = words.clone();
        let expected = by_model(&mut gallery, event);
        *met.entry(expected.err().unwrap_or(0)).or_insert(0) += 1;
        assert_eq!(by_library(&mut words, event), expected, "{event:?} {:?}", told(&before));
        let after = words_of(&gallery);
        assert!(words == after, "{event:?} {:?} of {:?}", changes(&words, &after), told(&before));
    }
}

/// Where words differ, and what they are.
fn changes(words: &[u32], others: &[u32]) -> Vec<(usize, u32, u32)> {
    (0..WORDS).filter(|&at| words[at] != others[at]).map(|at| (at, words[at], others[at])).collect()
}

/// The words that are not 0, for a report.
fn told(words: &[u32]) -> Vec<(usize, u32)> {
    words.iter().copied().enumerate().filter(|&(_, word)| word != 0).collect()
}

// Where simulations come from ---------------------------------------------------------------------------------------------------

fn give(gallery: &mut Gallery, kind: Kind, number: u64) {
    gallery.event(Event { kind, number }).unwrap_or_else(|refusal| panic!("{kind:?} {number} is refused {refusal}"));
}

/// Random events. Of so many falls, downs and drops only one happens, so that something is left to be seen.
fn wandered(r: &mut Random) -> Gallery {
    let (setting, kiosks) = any_setting(r);
    let mut gallery = Gallery::new(setting, kiosks, GALLERY).expect("in range");
    let (rare, events) = (r.one_of(&[1, 4, 20]), r.below(400));
    for _ in 0..events {
        let event = any_event(&gallery, r);
        let harsh = [Kind::Fall, Kind::Down, Kind::Drop].contains(&event.kind);
        if !harsh || r.below(rare) == 0 {
            let _ = gallery.event(event);
        }
    }
    gallery
}

/// The first waiting message of these, taken.
fn take_first(gallery: &mut Gallery, of: impl Fn(&Kept) -> bool) -> bool {
    let next = gallery.kept.iter().find(|kept| !kept.taken && of(kept)).map(|kept| kept.number);
    next.into_iter().for_each(|number| give(gallery, Kind::Take, number));
    next.is_some()
}

fn drop_taken(gallery: &mut Gallery) {
    let taken: Vec<u64> = gallery.kept.iter().filter(|kept| kept.taken).map(|kept| kept.number).collect();
    taken.into_iter().for_each(|number| give(gallery, Kind::Drop, number));
}

/// Kiosk 1 has had some turns and holds the wall, all others wait in the lines of all keepers, and their answers are under way. Then
/// some are read, some keepers go down, some kiosks fall, and checks fill the last places.
fn crowded(n: u32, m: u32, kiosks: u32, r: &mut Random) -> Gallery {
    let mut gallery = Gallery::new(Setting { n, m, f: 0 }, kiosks, GALLERY).expect("in range");
    for kind in [Kind::Try, Kind::Exit].repeat(r.below(4) as usize) {
        give(&mut gallery, kind, 1);
        while take_first(&mut gallery, |_| true) {}
        drop_taken(&mut gallery);
    }
    for kiosk in 1..=kiosks.into() {
        give(&mut gallery, Kind::Try, kiosk);
        while take_first(&mut gallery, |kept| kept.message.kind < RESPONSE || kiosk == 1) {
            drop_taken(&mut gallery);
        }
    }
    for _ in 0..r.below(60) {
        // A round of requests may find no place left.
        let waiting = gallery.kept.iter().filter(|kept| !kept.taken).map(|kept| kept.number).collect::<Vec<_>>();
        if !waiting.is_empty() {
            let _ = gallery.event(Event { kind: Kind::Take, number: r.one_of(&waiting) });
        }
    }
    for _ in 0..r.below(4) {
        let [down, fall] = [n, kiosks].map(|count| 1 + r.below(count.into()));
        let _ = gallery.event(Event { kind: Kind::Down, number: down });
        let _ = gallery.event(Event { kind: Kind::Fall, number: fall });
    }
    if r.below(2) == 0 {
        for j in (1..=u64::from(n)).cycle().take(600) {
            let _ = gallery.event(Event { kind: Kind::Check, number: j });
        }
    }
    gallery
}

/// A fixed choice of galleries. In some a keeper that is down keeps its record, which no event leaves but which is not broken.
fn galleries(count: usize, seed: u64) -> Vec<Gallery> {
    let mut r = Random::new(seed);
    let mut all = vec![];
    for i in 0..count {
        let mut gallery = match i % 8 {
            0 => crowded(31, 21, 16, &mut r),
            1 => crowded(5, 3, 16, &mut r),
            2 => crowded(4, 2, 6, &mut r),
            _ => wandered(&mut r),
        };
        if i % 3 == 0 {
            let place = r.below(gallery.servers.len() as u64) as usize;
            gallery.servers[place].up = false;
        }
        all.push(gallery);
    }
    all
}

#[test]
fn the_galleries_have_what_can_be_damaged() {
    let all = galleries(96, 1);
    for gallery in &all {
        let words = words_of(gallery);
        assert_eq!(broken(&words), [], "{:?}", told(&words));
        assert!(gallery_of(&words).map(|read| words_of(&read)) == Ok(words));
    }
    let has = |what: fn(&Gallery) -> bool| assert!(all.iter().filter(|gallery| what(gallery)).count() >= 5);
    let kiosk = |what: fn(&Client) -> bool| {
        assert!(all.iter().flat_map(|gallery| &gallery.clients).filter(|client| what(client)).count() >= 5)
    };
    has(|g| g.setting.n == 31 && g.clients.len() == 16 && g.holders() > 0);
    has(|g| g.setting.n == 1);
    has(|g| g.clients.len() == 1);
    has(|g| g.kept.len() == 512);
    has(|g| g.kept.is_empty());
    has(|g| g.kept.iter().any(|kept| kept.taken));
    has(|g| g.kept.iter().any(|kept| !kept.taken));
    has(|g| g.servers.iter().any(|s| s.up && s.record.line.len() == 15));
    has(|g| g.servers.iter().any(|s| !s.up && s.record.line.len() == 15));
    has(|g| g.servers.iter().any(|s| !s.up && s.record.owner.is_none()));
    kiosk(|c| c.record.section == REMAINDER && c.record.ticket == 0);
    kiosk(|c| c.record.section == REMAINDER && c.record.ticket > 1);
    kiosk(|c| c.living && c.record.section == TRYING && c.record.filled() > 1);
    kiosk(|c| c.living && c.record.section == HOLDING && c.record.m > 1);
    kiosk(|c| !c.living && c.record.section == REMAINDER);
    kiosk(|c| !c.living && c.record.section == TRYING);
    kiosk(|c| !c.living && c.record.section == HOLDING);
    kiosk(|c| c.epoch.as_ref().is_some_and(|down| down.len() > 1));
    kiosk(|c| c.record.seen == Some(0) && c.record.ticket > 0);
    kiosk(|c| c.record.seen > Some(1) && c.record.seen < Some(c.record.ticket));
    kiosk(|c| c.record.seen > Some(c.record.ticket));
}

// Each rule broken by itself --------------------------------------------------------------------------------------------------

/// Words to be set: where, and to what.
type Damage = Vec<(usize, u32)>;

/// Where the words of a kiosk's record, a keeper's and a message stand, and their pairs.
fn kiosk_word(place: usize, word: usize) -> usize {
    client_at(place) + 1 + word
}

/// The largest ticket seen, behind the kiosk's own.
fn seen_at(place: usize) -> usize {
    kiosk_word(place, 5)
}

fn answer_at(place: usize, keeper: usize) -> usize {
    kiosk_word(place, 6 + 2 * keeper)
}

fn keeper_word(place: usize, word: usize) -> usize {
    server_at(place) + 1 + word
}

fn waiting_at(place: usize, waiting: usize) -> usize {
    keeper_word(place, 5 + 2 * waiting)
}

/// One word, set to each of these.
fn set(at: usize, values: &[u32]) -> Vec<Damage> {
    values.iter().map(|&value| vec![(at, value)]).collect()
}

/// Kiosk and ticket of one place, set to each of these.
fn set_pair(at: usize, pairs: &[(u32, u32)]) -> Vec<Damage> {
    pairs.iter().map(|&(kiosk, ticket)| vec![(at, kiosk), (at + 1, ticket)]).collect()
}

/// A gallery, and the part of it that is to be damaged: one at random of those that will do.
struct Scene<'a> {
    gallery: &'a Gallery,
    n: u32,
    m: u32,
    kiosks: u32,
    r: &'a mut Random,
}

impl Scene<'_> {
    fn any(&mut self, places: Vec<usize>) -> Option<usize> {
        (!places.is_empty()).then(|| self.r.one_of(&places))
    }

    fn kiosk(&mut self, of: impl Fn(&Client) -> bool) -> Option<usize> {
        let clients = &self.gallery.clients;
        self.any((0..clients.len()).filter(|&i| of(&clients[i])).collect())
    }

    fn keeper(&mut self, of: impl Fn(&Server) -> bool) -> Option<usize> {
        let servers = &self.gallery.servers;
        self.any((0..servers.len()).filter(|&i| of(&servers[i])).collect())
    }

    fn message(&mut self, of: impl Fn(&Kept) -> bool) -> Option<usize> {
        let kept = &self.gallery.kept;
        self.any((0..kept.len()).filter(|&i| of(&kept[i])).collect())
    }

    /// The place of some keeper of 1 to n in a kiosk's answers, filled or empty.
    fn place(&mut self, k: usize, filled: bool) -> Option<usize> {
        let answers = &self.gallery.clients[k].record.answers[..self.n as usize];
        self.any((0..answers.len()).filter(|&j| answers[j].is_some() == filled).collect())
    }

    /// A number of 1 to n that is not `but`.
    fn other(&mut self, but: u32) -> Option<u32> {
        self.any((1..=self.n).filter(|&j| j != but).map(|j| j as usize).collect()).map(|j| j as u32)
    }

    /// The empty place of a trying kiosk that may fill one more, and the kiosk's number and ticket.
    fn spare(&mut self) -> Option<(usize, u32, u32)> {
        let m = self.m;
        let k = self.kiosk(|c| c.record.section == TRYING && c.record.filled() + 1 < m)?;
        let place = self.place(k, false)?;
        let record = &self.gallery.clients[k].record;
        Some((answer_at(k, place), record.id, record.ticket))
    }
}

fn in_section(section: u32) -> impl Fn(&Client) -> bool {
    move |client| client.record.section == section
}

fn unnoted(client: &Client) -> bool {
    client.epoch.iter().flatten().count() == 0
}

/// The damages of a gallery that break these rules and no others; none where it has no such part.
type Break = fn(&mut Scene) -> Option<Vec<Damage>>;

#[rustfmt::skip]
const HEAD_BREAKS: &[(&str, &[Rule], Break)] = &[
    ("n", &[Rule::Setting], |_| Some(set(0, &[0, 32, 33, 254, 255, 256, 65_537, LAST]))),
    ("m", &[Rule::Setting], |s| Some(set(1, &[0, s.n + 1, 65_536 + s.m, LAST]))),
    ("f", &[Rule::Setting], |s| Some(set(2, &[s.n + 1, LAST]))),
    ("m, another than the records'", &[Rule::Differs], |s| { let m = s.other(s.m)?; Some(set(1, &[m])) }),
    ("kiosks", &[Rule::Kiosks], |s| Some(set(3, &[0, 17, 65_536 + s.kiosks, LAST]))),
    ("kept", &[Rule::Kept], |_| Some(set(4, &[513, 65_536, LAST]))),
    ("one kept more than there are", &[Rule::Message, Rule::Ascend],
        |s| (s.gallery.kept.len() < 512).then(|| set(4, &[s.gallery.kept.len() as u32 + 1]))),
    ("one kept fewer", &[Rule::Blank],
        |s| (!s.gallery.kept.is_empty()).then(|| set(4, &[s.gallery.kept.len() as u32 - 1, 0]))),
    ("the last number, too small", &[Rule::AboveLast],
        |s| s.gallery.kept.last().map(|kept| set(5, &[kept.number as u32 - 1, 0]))),
    ("most down, above n", &[Rule::Most], |s| Some(set(6, &[s.n + 1, LAST]))),
    ("most down, too small", &[Rule::Most], |s| {
        let downs = s.gallery.clients.iter().flat_map(|c| &c.epoch).map(|down| down.len()).max().filter(|&downs| downs > 0)?;
        Some(set(6, &[downs as u32 - 1, 0]))
    }),
];

#[rustfmt::skip]
const KIOSK_BREAKS: &[(&str, &[Rule], Break)] = &[
    ("living", &[Rule::Bit], |s| { let k = s.kiosk(|_| true)?; Some(set(client_at(k), &[2, 256, LAST])) }),
    ("n out of range", &[Rule::Number],
        |s| { let k = s.kiosk(|_| true)?; Some(set(kiosk_word(k, 0), &[0, 32, 255, 256, 65_536 + s.n, LAST])) }),
    ("n one more", &[Rule::Differs], |s| { let k = s.kiosk(|c| c.record.n < 31)?; Some(set(kiosk_word(k, 0), &[s.n + 1])) }),
    ("n one less", &[Rule::Differs], |s| {
        let k = s.kiosk(|c| c.record.m < c.record.n && c.record.answers[c.record.n as usize - 1].is_none())?;
        Some(set(kiosk_word(k, 0), &[s.n - 1]))
    }),
    ("m out of range", &[Rule::Number],
        |s| { let k = s.kiosk(|_| true)?; Some(set(kiosk_word(k, 1), &[0, s.n + 1, 65_536 + s.m, LAST])) }),
    ("m another", &[Rule::Differs], |s| {
        let (k, m) = (s.kiosk(in_section(REMAINDER))?, s.other(s.m)?);
        Some(set(kiosk_word(k, 1), &[m]))
    }),
    ("m one less", &[Rule::Differs], |s| {
        let k = s.kiosk(|c| c.record.section == TRYING && c.record.filled() + 1 < c.record.m)?;
        Some(set(kiosk_word(k, 1), &[s.m - 1]))
    }),
    ("own number out of range", &[Rule::Number],
        |s| { let k = s.kiosk(|_| true)?; Some(set(kiosk_word(k, 2), &[0, 65_536, 65_537 + k as u32, LAST])) }),
    ("own number another", &[Rule::Differs], |s| {
        let k = s.kiosk(|c| c.record.filled() == 0)?;
        let mut others = vec![k as u32 + 2, s.kiosks + 1, 65_535];
        others.extend((k > 0).then_some(k as u32));
        others.retain(|&number| number != k as u32 + 1);
        Some(set(kiosk_word(k, 2), &others))
    }),
    ("section", &[Rule::Number], |s| { let k = s.kiosk(|_| true)?; Some(set(kiosk_word(k, 3), &[3, 65_537, LAST])) }),
    ("trying without a ticket", &[Rule::Ticket],
        |s| { let k = s.kiosk(|c| c.record.ticket == 0)?; Some(set(kiosk_word(k, 3), &[TRYING])) }),
    ("trying with the ticket spent, or none", &[Rule::Ticket], |s| {
        let k = s.kiosk(|c| c.record.section == TRYING && !c.record.answers.contains(&Some(c.record.pair())))?;
        Some(set(kiosk_word(k, 4), &[0, LAST]))
    }),
    ("holding with the ticket spent", &[Rule::Ticket], |s| {
        let k = s.kiosk(in_section(HOLDING))?;
        let filled = (0..s.n as usize).filter(|&j| s.gallery.clients[k].record.answers[j].is_some());
        Some(vec![filled.map(|j| (answer_at(k, j) + 1, LAST)).chain([(kiosk_word(k, 4), LAST)]).collect()])
    }),
    ("holding without a ticket", &[Rule::OldTicket, Rule::Ticket],
        |s| { let k = s.kiosk(in_section(HOLDING))?; Some(set(kiosk_word(k, 4), &[0])) }),
    ("holding with the next ticket", &[Rule::OldTicket], |s| {
        let k = s.kiosk(in_section(HOLDING))?;
        Some(set(kiosk_word(k, 4), &[s.gallery.clients[k].record.ticket + 1, LAST - 1]))
    }),
    ("trying with m places filled, or all", &[Rule::Trying], |s| {
        let k = s.kiosk(in_section(TRYING))?;
        let record = &s.gallery.clients[k].record;
        let another = if s.kiosks == 1 { (1, record.ticket) } else if k == 0 { (2, 1) } else { (k as u32, LAST) };
        let fill = |count: u32, (kiosk, ticket): (u32, u32)| {
            let empty = (0..s.n as usize).filter(|&j| record.answers[j].is_none()).take((count - record.filled()) as usize);
            empty.flat_map(|j| [(answer_at(k, j), kiosk), (answer_at(k, j) + 1, ticket)]).collect()
        };
        Some(vec![fill(s.m, (record.id, record.ticket)), fill(s.n, (record.id, record.ticket)), fill(s.m, another)])
    }),
    ("holding turned into trying", &[Rule::Trying],
        |s| { let k = s.kiosk(in_section(HOLDING))?; Some(set(kiosk_word(k, 3), &[TRYING])) }),
    ("holding with no place filled", &[Rule::Holding], |s| {
        let k = s.kiosk(|c| c.record.section != HOLDING && c.record.filled() == 0 && (1..LAST).contains(&c.record.ticket))?;
        Some(set(kiosk_word(k, 3), &[HOLDING]))
    }),
    ("holding with one place fewer", &[Rule::Holding], |s| {
        let k = s.kiosk(in_section(HOLDING))?;
        let place = s.place(k, true)?;
        Some(set_pair(answer_at(k, place), &[(0, 0)]))
    }),
    ("holding with one place more", &[Rule::Holding], |s| {
        let k = s.kiosk(in_section(HOLDING))?;
        let (place, record) = (s.place(k, false)?, &s.gallery.clients[k].record);
        Some(set_pair(answer_at(k, place), &[(record.id, record.ticket)]))
    }),
    ("holding with another's place", &[Rule::NotOwn], |s| {
        let k = s.kiosk(in_section(HOLDING))?;
        let (place, other) = (s.place(k, true)?, if k > 0 { 1 } else { 2 });
        (s.kiosks > 1).then(|| set_pair(answer_at(k, place), &[(other, 1), (other, s.gallery.clients[k].record.ticket)]))
    }),
    ("remainder with a place filled", &[Rule::Remainder], |s| {
        let k = s.kiosk(in_section(REMAINDER))?;
        let (place, record) = (s.place(k, false)?, &s.gallery.clients[k].record);
        let mut pairs = vec![];
        pairs.extend((record.ticket > 0).then_some((record.id, record.ticket)));
        pairs.extend((s.kiosks > 1).then_some((if k > 0 { 1 } else { 2 }, 1)));
        Some(set_pair(answer_at(k, place), &pairs))
    }),
    ("places left filled in remainder", &[Rule::Remainder], |s| {
        let k = s.kiosk(|c| c.record.filled() > 0 && unnoted(c))?;
        Some(set(kiosk_word(k, 3), &[REMAINDER]))
    }),
    ("an own answer with another ticket, trying", &[Rule::OldTicket], |s| {
        let (at, id, ticket) = s.spare()?;
        let mut pairs = vec![(id, ticket + 1), (id, LAST)];
        pairs.extend((ticket > 1).then_some((id, ticket - 1)));
        Some(set_pair(at, &pairs))
    }),
    ("an own answer with another ticket, holding", &[Rule::OldTicket], |s| {
        let k = s.kiosk(in_section(HOLDING))?;
        let place = s.place(k, true)?;
        Some(set(answer_at(k, place) + 1, &[s.gallery.clients[k].record.ticket + 1]))
    }),
    ("an answer of a kiosk that is not there", &[Rule::Names],
        |s| { let (at, ..) = s.spare()?; Some(set_pair(at, &[(s.kiosks + 1, 1), (65_535, LAST)])) }),
    ("an answer of a kiosk past 65,535", &[Rule::Number],
        |s| { let (at, ..) = s.spare()?; Some(set_pair(at, &[(65_536, 1), (65_537, 1), (65_536, 0), (LAST, LAST)])) }),
    ("half an answer", &[Rule::Half], |s| {
        let k = s.kiosk(|_| true)?;
        let j = s.r.below(s.n.into()) as usize;
        Some(set_pair(answer_at(k, j), &[(0, 1), (0, LAST), (1, 0), (s.kiosks, 0), (65_535, 0)]))
    }),
    ("a place past keeper n", &[Rule::PastKeepers], |s| {
        let k = s.kiosk(|c| c.record.n < 31)?;
        let past = [s.n as usize, s.n as usize + s.r.below(u64::from(KEEPERS - s.n)) as usize, 30];
        Some(past.iter().flat_map(|&j| set_pair(answer_at(k, j), &[(0, 1), (1, 0), (1, 1), (65_536, 1)])).collect())
    }),
    ("a flag that is neither", &[Rule::Bit], |s| {
        let k = s.kiosk(|c| c.epoch.is_some())?;
        let at = flags_at(k) + s.r.below(s.n.into()) as usize;
        Some(vec![vec![(6, s.n), (at, 2)], vec![(6, s.n), (at, LAST)]])
    }),
    ("a flag outside an epoch", &[Rule::NoEpoch], |s| {
        let k = s.kiosk(|c| c.epoch.is_none())?;
        let j = s.r.below(s.n.into()) as usize;
        Some([set(flags_at(k) + j, &[1]), set(flags_at(k) + s.n as usize - 1, &[1])].concat())
    }),
    ("flags left in remainder", &[Rule::NoEpoch], |s| {
        let k = s.kiosk(|c| c.record.filled() == 0 && !unnoted(c))?;
        Some(set(kiosk_word(k, 3), &[REMAINDER]))
    }),
    ("flags left when fallen", &[Rule::NoEpoch], |s| { let k = s.kiosk(|c| !unnoted(c))?; Some(set(client_at(k), &[0])) }),
    ("a flag past keeper n", &[Rule::FlagPastKeepers], |s| {
        let k = s.kiosk(|c| c.record.n < 31)?;
        Some([set(flags_at(k) + s.n as usize, &[1, LAST]), set(client_at(k + 1) - 1, &[1])].concat())
    }),
    ("a word behind the kiosks", &[Rule::Blank], |s| {
        let first = s.kiosks as usize;
        (first < 16).then(|| [client_at(first), seen_at(first), server_at(0) - 1].iter().flat_map(|&at| set(at, &[1])).collect())
    }),
];

#[rustfmt::skip]
const KEEPER_BREAKS: &[(&str, &[Rule], Break)] = &[
    ("up", &[Rule::Bit], |s| { let j = s.keeper(|_| true)?; Some(set(server_at(j), &[2, 256, LAST])) }),
    ("n out of range", &[Rule::Number], |s| {
        let j = s.keeper(|_| true)?;
        // With n below its own number it is that number that is out of range.
        Some(set(keeper_word(j, 0), &[0, j as u32, 32, 255, 256, 65_536 + s.n, LAST]))
    }),
    ("n another", &[Rule::Differs], |s| {
        let j = s.keeper(|_| true)?;
        let others = (j as u32 + 1..=31).filter(|&n| n != s.n).collect::<Vec<_>>();
        Some(set(keeper_word(j, 0), &others))
    }),
    ("own number out of range", &[Rule::Number],
        |s| { let j = s.keeper(|_| true)?; Some(set(keeper_word(j, 1), &[0, s.n + 1, 65_537 + j as u32, LAST])) }),
    ("own number another", &[Rule::Differs],
        |s| { let j = s.keeper(|_| true)?; let other = s.other(j as u32 + 1)?; Some(set(keeper_word(j, 1), &[other])) }),
    ("half an owner", &[Rule::Half], |s| {
        let j = s.keeper(|_| true)?;
        Some(set_pair(keeper_word(j, 2), &[(0, 1), (0, LAST), (1, 0), (s.kiosks, 0), (65_535, 0)]))
    }),
    ("an owner that is not there", &[Rule::Names],
        |s| { let j = s.keeper(|_| true)?; Some(set_pair(keeper_word(j, 2), &[(s.kiosks + 1, 1), (65_535, LAST)])) }),
    ("an owner past 65,535", &[Rule::Number],
        |s| { let j = s.keeper(|_| true)?; Some(set_pair(keeper_word(j, 2), &[(65_536, 1), (65_537, 1), (65_536, 0)])) }),
    ("a line without an owner", &[Rule::NoOwner],
        |s| { let j = s.keeper(|k| !k.record.line.is_empty())?; Some(set_pair(keeper_word(j, 2), &[(0, 0)])) }),
    ("a line where there is no owner", &[Rule::NoOwner], |s| {
        let j = s.keeper(|k| k.record.owner.is_none())?;
        Some(vec![vec![(keeper_word(j, 4), 1), (waiting_at(j, 0), 1), (waiting_at(j, 0) + 1, 1)]])
    }),
    ("two of the line changed round", &[Rule::Order], |s| {
        let j = s.keeper(|k| k.record.line.len() > 1)?;
        let line = &s.gallery.servers[j].record.line;
        let i = s.r.below(line.len() as u64 - 1) as usize;
        let (a, b) = (line[i], line[i + 1]);
        let at = waiting_at(j, i);
        Some(vec![vec![(at, b.kiosk), (at + 1, b.ticket), (at + 2, a.kiosk), (at + 3, a.ticket)]])
    }),
    ("the line's first ticket too late", &[Rule::Order], |s| {
        let j = s.keeper(|k| k.record.line.len() > 1)?;
        Some(set(waiting_at(j, 0) + 1, &[s.gallery.servers[j].record.line[1].ticket + 1, LAST]))
    }),
    ("equal neighbours", &[Rule::Order, Rule::Twice], |s| {
        let j = s.keeper(|k| k.record.line.len() > 1)?;
        let line = &s.gallery.servers[j].record.line;
        let i = s.r.below(line.len() as u64 - 1) as usize;
        Some(set_pair(waiting_at(j, i + 1), &[(line[i].kiosk, line[i].ticket)]))
    }),
    ("a kiosk twice in the line", &[Rule::Twice], |s| {
        let j = s.keeper(|k| k.record.line.len() > 1)?;
        let line = &s.gallery.servers[j].record.line;
        let (last, i) = (line.len() - 1, s.r.below(line.len() as u64 - 1) as usize);
        Some(set_pair(waiting_at(j, last), &[(line[i].kiosk, line[last].ticket + 1), (line[last - 1].kiosk, LAST)]))
    }),
    ("the owner in the line", &[Rule::Twice], |s| {
        let j = s.keeper(|k| !k.record.line.is_empty())?;
        let Pair { kiosk, ticket } = s.r.one_of(&s.gallery.servers[j].record.line);
        Some(set_pair(keeper_word(j, 2), &[(kiosk, ticket), (kiosk, ticket + 1), (kiosk, LAST)]))
    }),
    ("the line's length", &[Rule::LineLength],
        |s| { let j = s.keeper(|_| true)?; Some(set(keeper_word(j, 4), &[17, 32, 33, 65_536, LAST])) }),
    ("the line's length, one more", &[Rule::Number], |s| {
        let j = s.keeper(|_| true)?;
        Some(set(keeper_word(j, 4), &[s.gallery.servers[j].record.line.len() as u32 + 1, 16]))
    }),
    ("the line's length, one fewer", &[Rule::BehindLine], |s| {
        let j = s.keeper(|k| !k.record.line.is_empty())?;
        Some(set(keeper_word(j, 4), &[s.gallery.servers[j].record.line.len() as u32 - 1, 0]))
    }),
    ("a place behind the line", &[Rule::BehindLine], |s| {
        let j = s.keeper(|_| true)?;
        let behind = [s.gallery.servers[j].record.line.len(), 15];
        Some(behind.iter().flat_map(|&i| set_pair(waiting_at(j, i), &[(0, 1), (1, 0), (1, LAST), (65_536, 1)])).collect())
    }),
    ("half a waiting pair", &[Rule::Half], |s| {
        let j = s.keeper(|k| !k.record.line.is_empty())?;
        let i = s.r.below(s.gallery.servers[j].record.line.len() as u64) as usize;
        Some([set(waiting_at(j, i), &[0]), set(waiting_at(j, i) + 1, &[0])].concat())
    }),
    ("an empty place in the line", &[Rule::Number], |s| {
        let j = s.keeper(|k| !k.record.line.is_empty())?;
        let i = s.r.below(s.gallery.servers[j].record.line.len() as u64) as usize;
        Some(set_pair(waiting_at(j, i), &[(0, 0)]))
    }),
    ("one waiting that is not there", &[Rule::Names], |s| {
        let j = s.keeper(|k| !k.record.line.is_empty())?;
        Some(set(waiting_at(j, s.gallery.servers[j].record.line.len() - 1), &[s.kiosks + 1, 65_535]))
    }),
    ("one waiting past 65,535", &[Rule::Number], |s| {
        let j = s.keeper(|k| !k.record.line.is_empty())?;
        let i = s.gallery.servers[j].record.line.len() - 1;
        Some(set(waiting_at(j, i), &[65_536, 65_536 + s.gallery.servers[j].record.line[i].kiosk, LAST]))
    }),
    ("a word behind the keepers", &[Rule::Blank], |s| {
        (s.n < 31).then(|| [server_at(s.n as usize), slot_at(0) - 1].iter().flat_map(|&at| set(at, &[1])).collect())
    }),
];

fn owned(kept: &Kept) -> bool {
    kept.message.owner > 0
}

#[rustfmt::skip]
const MESSAGE_BREAKS: &[(&str, &[Rule], Break)] = &[
    ("number 0", &[Rule::Ascend], |s| { let i = s.message(|_| true)?; Some(set(slot_at(i), &[0])) }),
    ("a number not above the one before", &[Rule::Ascend], |s| {
        let i = s.message(|_| true).filter(|&i| i > 0)?;
        let before = s.gallery.kept[i - 1].number as u32;
        Some(set(slot_at(i), &[before, before - 1, 1]))
    }),
    ("numbers changed round", &[Rule::Ascend], |s| {
        let i = s.message(|_| true).filter(|&i| i > 0)?;
        let [a, b] = [s.gallery.kept[i - 1].number, s.gallery.kept[i].number].map(|number| number as u32);
        Some(vec![vec![(slot_at(i - 1), b), (slot_at(i), a)]])
    }),
    ("a number above the last", &[Rule::AboveLast], |s| {
        let i = s.gallery.kept.len().checked_sub(1)?;
        Some(set(slot_at(i), &[s.gallery.last as u32 + 1, LAST]))
    }),
    ("taken", &[Rule::Bit], |s| { let i = s.message(|_| true)?; Some(set(slot_at(i) + 1, &[2, 256, LAST])) }),
    ("kind", &[Rule::Message], |s| {
        let i = s.message(|_| true)?;
        Some(set(slot_at(i) + 2, &[0, 7, 65_536 + s.gallery.kept[i].message.kind, LAST]))
    }),
    ("a RESPONSE's kind with none of its owner", &[Rule::Message],
        |s| { let i = s.message(|kept| kept.message.kind != RESPONSE)?; Some(set(slot_at(i) + 2, &[RESPONSE])) }),
    ("another kind with a RESPONSE's owner", &[Rule::Message],
        |s| { let i = s.message(owned)?; Some(set(slot_at(i) + 2, &[1, 2, 3, 4, 6])) }),
    ("kiosk", &[Rule::Message], |s| {
        let i = s.message(|_| true)?;
        Some(set(slot_at(i) + 3, &[0, 65_536, 65_536 + s.gallery.kept[i].message.kiosk, LAST]))
    }),
    ("a kiosk that is not there", &[Rule::Names],
        |s| { let i = s.message(|_| true)?; Some(set(slot_at(i) + 3, &[s.kiosks + 1, 65_535])) }),
    ("keeper", &[Rule::Message], |s| {
        let i = s.message(|_| true)?;
        Some(set(slot_at(i) + 4, &[0, 256, 257, 65_536 + s.gallery.kept[i].message.keeper, LAST]))
    }),
    ("a keeper that is not there", &[Rule::Names],
        |s| { let i = s.message(|_| true)?; Some(set(slot_at(i) + 4, &[s.n + 1, 31.max(s.n + 1), 32, 255])) }),
    ("ticket 0", &[Rule::Message],
        |s| { let i = s.message(|kept| kept.message.ticket > 0)?; Some(set(slot_at(i) + 5, &[0])) }),
    ("a ticket without an owner", &[Rule::Message], |s| {
        let i = s.message(|kept| kept.message.kind == RESPONSE)?;
        Some(vec![vec![(slot_at(i) + 5, 1), (slot_at(i) + 6, 0)], vec![(slot_at(i) + 5, 0), (slot_at(i) + 6, 1)]])
    }),
    ("an owner where the kind has none", &[Rule::Message], |s| {
        let i = s.message(|kept| kept.message.kind != RESPONSE)?;
        Some(set(slot_at(i) + 6, &[1, s.kiosks + 1, 65_536, LAST]))
    }),
    ("an owner past 65,535", &[Rule::Message],
        |s| { let i = s.message(owned)?; Some(set(slot_at(i) + 6, &[65_536, 65_536 + s.gallery.kept[i].message.owner, LAST])) }),
    ("an owner that is not there", &[Rule::Names],
        |s| { let i = s.message(owned)?; Some(set(slot_at(i) + 6, &[s.kiosks + 1, 65_535])) }),
    ("a word behind the last message", &[Rule::Blank], |s| {
        let first = slot_at(s.gallery.kept.len());
        (first < INDEX).then(|| [first, first + 6, INDEX - 1].iter().flat_map(|&at| set(at, &[1, LAST])).collect())
    }),
];

type Lists = Vec<List>;

/// The damages to the index's words by which its lists are changed so.
fn relisted(s: &Scene, changes: &[&dyn Fn(&mut Lists)]) -> Vec<Damage> {
    let sound = index::lists(&s.gallery.kept);
    let damage = |change: &&dyn Fn(&mut Lists)| {
        let mut lists = sound.clone();
        change(&mut lists);
        let (from, to) = (index::words(&sound), index::words(&lists));
        (0..index::WORDS).filter(|&at| from[at] != to[at]).map(|at| (INDEX + at, to[at])).collect()
    };
    changes.iter().map(damage).collect()
}

impl Scene<'_> {
    /// The places of receivers whose lists have at least so many messages.
    fn places(&self, least: usize) -> Vec<usize> {
        let lists = index::lists(&self.gallery.kept);
        (0..RECEIVERS).filter(|&place| lists[place].len() >= least).collect()
    }

    /// A receiver with at least so many messages, and which of them.
    fn listed(&mut self, least: usize) -> Option<(usize, usize)> {
        let place = self.any(self.places(least))?;
        let count = index::lists(&self.gallery.kept)[place].len();
        Some((place, self.r.below(count as u64) as usize))
    }

    /// Where the mark of some message of these stands in the index.
    fn mark(&mut self, of: impl Fn(&Kept) -> bool) -> Option<usize> {
        let i = self.message(of)?;
        let lists = index::lists(&self.gallery.kept);
        let at = lists.iter().flatten().position(|&(number, _)| u64::from(number) == self.gallery.kept[i].number)?;
        Some(INDEX + MARKS + at)
    }

    /// None where not one message more could be listed.
    fn room(&self) -> Option<()> {
        (self.gallery.kept.len() < GALLERY.places).then_some(())
    }
}

/// The places of the keepers and of the kiosks beyond the setting.
fn beyond(s: &Scene) -> Vec<usize> {
    let keepers = (s.n + 1..=KEEPERS).map(Receiver::Keeper);
    keepers.chain((s.kiosks + 1..=KIOSKS).map(Receiver::Kiosk)).map(Receiver::place).collect()
}

#[rustfmt::skip]
const INDEX_BREAKS: &[(&str, &[Rule], Break)] = &[
    ("a count", &[Rule::Index], |s| {
        let (at, kept) = (s.r.below(RECEIVERS as u64) as usize, s.gallery.kept.len() as u32);
        let count = index_of(&words_of(s.gallery))[at];
        let others = [count.wrapping_add(1), count.wrapping_sub(1), kept, kept + 1, 512, 513, LAST];
        Some(set(INDEX + at, &others.into_iter().filter(|&word| word != count).collect::<Vec<_>>()))
    }),
    ("a taken message listed as waiting", &[Rule::Index], |s| { let at = s.mark(|kept| kept.taken)?; Some(set(at, &[0])) }),
    ("a waiting message listed as taken", &[Rule::Index], |s| { let at = s.mark(|kept| !kept.taken)?; Some(set(at, &[1])) }),
    ("a mark that is neither", &[Rule::Index], |s| { let at = s.mark(|_| true)?; Some(set(at, &[2, 256, 257, LAST])) }),
    ("waiting again in the table alone", &[Rule::Index],
        |s| { let i = s.message(|kept| kept.taken)?; Some(vec![vec![(slot_at(i) + 1, 0)]]) }),
    ("taken in the table alone", &[Rule::Index],
        |s| { let i = s.message(|kept| !kept.taken)?; Some(vec![vec![(slot_at(i) + 1, 1)]]) }),
    ("another receiver in the table alone", &[Rule::Index], |s| {
        let i = s.message(|kept| kept.message.kind < RESPONSE)?;
        let other = s.other(s.gallery.kept[i].message.keeper)?;
        Some(vec![vec![(slot_at(i) + 4, other)]])
    }),
    ("another number in the table alone", &[Rule::Index], |s| {
        let i = s.gallery.kept.len().checked_sub(1).filter(|_| s.gallery.last < LAST.into())?;
        let last = s.gallery.last as u32 + 1;
        Some(vec![vec![(5, last), (slot_at(i), last)]])
    }),
    ("entries of two receivers exchanged", &[Rule::Index], |s| {
        let (p, i) = s.listed(1)?;
        let q = s.any(s.places(1).into_iter().filter(|&q| q != p).collect())?;
        Some(relisted(s, &[
            &|lists| (lists[p][i], lists[q][0]) = (lists[q][0], lists[p][i]),
            &|lists| (lists[p][i].0, lists[q][0].0) = (lists[q][0].0, lists[p][i].0),
            &|lists| lists.swap(p, q),
        ]))
    }),
    ("a list out of order", &[Rule::Index], |s| {
        let (p, i) = s.listed(2)?;
        Some(relisted(s, &[
            &|lists| { let next = (i + 1) % lists[p].len(); lists[p].swap(i, next) },
            &|lists| lists[p].reverse(),
        ]))
    }),
    ("the marks of a list out of order", &[Rule::Index], |s| {
        let lists = index::lists(&s.gallery.kept);
        let mixed = (0..RECEIVERS).filter(|&p| lists[p].windows(2).any(|two| two[0].1 != two[1].1)).collect();
        let p = s.any(mixed)?;
        let i = lists[p].windows(2).position(|two| two[0].1 != two[1].1)?;
        Some(relisted(s, &[&|lists| (lists[p][i].1, lists[p][i + 1].1) = (lists[p][i + 1].1, lists[p][i].1)]))
    }),
    ("a message in another's list", &[Rule::Index], |s| {
        let (p, i) = s.listed(1)?;
        let q = (p + 1 + s.r.below(RECEIVERS as u64 - 1) as usize) % RECEIVERS;
        let next = (p + 1) % RECEIVERS;
        let moved = |lists: &mut Lists, to: usize| {
            let entry = lists[p].remove(i);
            lists[to].push(entry);
            lists[to].sort();
        };
        Some(relisted(s, &[&|lists| moved(lists, q), &|lists| moved(lists, next)]))
    }),
    ("a list of a party beyond the setting, a message moved", &[Rule::Index], |s| {
        let ((p, i), past) = (s.listed(1)?, s.any(beyond(s))?);
        Some(relisted(s, &[&|lists| { let entry = lists[p].remove(i); lists[past].push(entry) }]))
    }),
    ("a list of a party beyond the setting, a message more", &[Rule::Index], |s| {
        s.room()?;
        let (past, last) = (s.any(beyond(s))?, s.gallery.last as u32);
        Some(relisted(s, &[&|lists| lists[past].push((last, false)), &|lists| lists[past].push((0, false)),
            &|lists| lists[past].push((last.wrapping_add(1), true))]))
    }),
    ("a message left out", &[Rule::Index], |s| {
        let (p, i) = s.listed(1)?;
        Some(relisted(s, &[&|lists| { lists[p].remove(i); }, &|lists| lists[p].clear()]))
    }),
    ("a message more than is kept", &[Rule::Index], |s| {
        s.room()?;
        let (p, last) = (s.r.below(RECEIVERS as u64) as usize, s.gallery.last as u32);
        Some(relisted(s, &[&|lists| lists[p].push((last.wrapping_add(1), false)), &|lists| lists[p].insert(0, (0, false))]))
    }),
    ("a message listed twice", &[Rule::Index], |s| {
        s.room()?;
        let (p, i) = s.listed(1)?;
        let q = s.r.below(RECEIVERS as u64) as usize;
        Some(relisted(s, &[&|lists| { let entry = lists[p][i]; lists[p].insert(i, entry) },
            &|lists| { let entry = lists[p][i]; lists[q].push(entry) }]))
    }),
    ("another number", &[Rule::Index], |s| {
        let (p, i) = s.listed(1)?;
        Some(relisted(s, &[&|lists| lists[p][i].0 -= 1, &|lists| lists[p][i].0 += 1, &|lists| lists[p][i].0 ^= 1 << 31]))
    }),
    ("a word behind the numbers", &[Rule::Index], |s| {
        s.room()?;
        let first = INDEX + NUMBERS + s.gallery.kept.len();
        Some([first, INDEX + MARKS - 1].iter().flat_map(|&at| set(at, &[1, LAST])).collect())
    }),
    ("a word behind the marks", &[Rule::Index], |s| {
        s.room()?;
        let first = INDEX + MARKS + s.gallery.kept.len();
        Some([first, WORDS - 1].iter().flat_map(|&at| set(at, &[1, LAST])).collect())
    }),
    ("no index at all", &[Rule::Index],
        |s| (!s.gallery.kept.is_empty()).then(|| vec![(INDEX..WORDS).map(|at| (at, 0)).collect()])),
];

fn damages_of(damages: Break, gallery: &Gallery, r: &mut Random) -> Vec<Damage> {
    let Setting { n, m, .. } = gallery.setting;
    damages(&mut Scene { gallery, n, m, kiosks: gallery.clients.len() as u32, r }).unwrap_or_default()
}

fn damaged(words: &[u32], damage: &Damage) -> Vec<u32> {
    let mut wrong = words.to_vec();
    damage.iter().for_each(|&(at, word)| wrong[at] = word);
    wrong
}

/// The words with the index that their slots ask for.
fn reindexed(mut words: Vec<u32>) -> Vec<u32> {
    let index = index_of(&words);
    words[INDEX..].copy_from_slice(&index);
    words
}

/// Each damage of these is judged as it says, refused 21 by both ways, and leaves every word. Where it is not the index that is
/// damaged, the index is made afresh, so that nothing else is wrong, and tried as it was too.
fn try_breaks(breaks: &[(&str, &[Rule], Break)], seed: u64) {
    let (mut r, mut tried) = (Random::new(seed), 0);
    let all = galleries(96, 1);
    for &(name, rules, damages) in breaks {
        let mut met = 0;
        for gallery in &all {
            let words = words_of(gallery);
            for damage in damages_of(damages, gallery, &mut r) {
                met += 1;
                let stale = damaged(&words, &damage);
                let wrong = if rules.contains(&Rule::Index) { stale.clone() } else { reindexed(stale.clone()) };
                assert_eq!(broken(&wrong), rules, "{name}: {damage:?} of {:?}", told(&words));
                let event = any_event(gallery, &mut r);
                for mut wrong in [wrong, stale] {
                    assert_eq!(by_library(&mut wrong, event), Err(21), "{name}: {damage:?} of {:?}", told(&words));
                }
            }
        }
        assert!(met >= 5, "{name}: only {met} damages");
        tried += met;
    }
    println!("{tried} damages of {} kinds", breaks.len());
}

#[test]
fn heads_broken_by_one_rule() {
    try_breaks(HEAD_BREAKS, 2);
}

#[test]
fn kiosks_broken_by_one_rule() {
    try_breaks(KIOSK_BREAKS, 3);
}

#[test]
fn keepers_broken_by_one_rule() {
    try_breaks(KEEPER_BREAKS, 4);
}

#[test]
fn messages_broken_by_one_rule() {
    try_breaks(MESSAGE_BREAKS, 5);
}

#[test]
fn indexes_that_are_not_the_tables() {
    try_breaks(INDEX_BREAKS, 10);
}

/// Each rule is among those above that stand alone, but for the length, which has a test of its own.
#[test]
fn every_rule_is_broken_by_itself() {
    let breaks = [HEAD_BREAKS, KIOSK_BREAKS, KEEPER_BREAKS, MESSAGE_BREAKS, INDEX_BREAKS].concat();
    let alone = breaks.iter().filter_map(|(_, rules, _)| (rules.len() == 1).then(|| rules[0]));
    let alone: BTreeSet<Rule> = alone.chain([Rule::Length]).collect();
    assert_eq!(alone.len(), Rule::Index as usize + 1, "{alone:?}");
}

#[test]
fn words_of_another_number() {
    for gallery in galleries(8, 6) {
        let words = words_of(&gallery);
        for length in [0, 1, 7, INDEX - 7, INDEX, WORDS - 1, WORDS + 1, STATE + WORDS] {
            let mut other = words.clone();
            other.resize(length, 0);
            assert_eq!(broken(&other), [Rule::Length]);
            for kind in 1..=9 {
                assert_eq!(by_call(&mut other, kind, 1, 2), Err(21), "{length} words");
            }
            assert_eq!(by_script(&mut other, Event { kind: Kind::Drop, number: 1 }), Err(21), "{length} words");
        }
    }
}

// What is next to a rule and breaks none ----------------------------------------------------------------------------------------

#[rustfmt::skip]
const EDGES: &[(&str, Break)] = &[
    ("any losses", |s| Some(set(2, &[0, s.n]))),
    ("the last message number", |_| Some(set(5, &[LAST, LAST - 1]))),
    ("every keeper down within an epoch", |s| Some(set(6, &[s.n]))),
    ("fallen", |s| { let k = s.kiosk(unnoted)?; Some(set(client_at(k), &[0])) }),
    ("living again", |s| { let k = s.kiosk(|c| !c.living)?; Some(set(client_at(k), &[1])) }),
    ("tickets in remainder",
        |s| { let k = s.kiosk(in_section(REMAINDER))?; Some(set(kiosk_word(k, 4), &[0, LAST - 2, LAST - 1, LAST])) }),
    ("tickets while trying", |s| {
        let k = s.kiosk(|c| c.record.section == TRYING && !c.record.answers.contains(&Some(c.record.pair())))?;
        Some(set(kiosk_word(k, 4), &[1, LAST - 1]))
    }),
    ("anything seen, in any section", |s| { let k = s.kiosk(|_| true)?; Some(set(seen_at(k), &[0, 1, LAST - 2, LAST - 1, LAST])) }),
    ("the last ticket while holding", |s| {
        let k = s.kiosk(in_section(HOLDING))?;
        let filled = (0..s.n as usize).filter(|&j| s.gallery.clients[k].record.answers[j].is_some());
        Some(vec![filled.map(|j| (answer_at(k, j) + 1, LAST - 1)).chain([(kiosk_word(k, 4), LAST - 1)]).collect()])
    }),
    ("answers of any kiosk with any ticket", |s| {
        let (at, id, ticket) = s.spare()?;
        let other = if id == 1 { s.kiosks } else { 1 };
        (s.kiosks > 1).then(|| set_pair(at, &[(id, ticket), (other, 1), (other, LAST)]))
    }),
    ("any keeper down within an epoch", |s| {
        let k = s.kiosk(|c| c.epoch.is_some())?;
        let (first, last) = (flags_at(k), flags_at(k) + s.n as usize - 1);
        Some(vec![vec![(6, s.n), (first, 1), (last, 1)], (first..=last).map(|at| (at, 1)).chain([(6, s.n)]).collect()])
    }),
    ("no keeper down within an epoch", |s| {
        let k = s.kiosk(|c| !unnoted(c))?;
        Some(vec![(flags_at(k)..client_at(k + 1)).map(|at| (at, 0)).collect()])
    }),
    ("down with its record", |s| { let j = s.keeper(|k| k.up)?; Some(set(server_at(j), &[0])) }),
    ("up with its record", |s| { let j = s.keeper(|k| !k.up)?; Some(set(server_at(j), &[1])) }),
    ("an owner with any ticket",
        |s| { let j = s.keeper(|k| k.record.owner.is_some())?; Some(set(keeper_word(j, 3), &[1, LAST])) }),
    ("an owner where there was none", |s| {
        let j = s.keeper(|k| k.record.owner.is_none())?;
        Some(set_pair(keeper_word(j, 2), &[(1, 1), (s.kiosks, LAST)]))
    }),
    ("the last waiting with the last ticket", |s| {
        let j = s.keeper(|k| !k.record.line.is_empty())?;
        Some(set(waiting_at(j, s.gallery.servers[j].record.line.len() - 1) + 1, &[LAST]))
    }),
    ("waiting again", |s| { let i = s.message(|kept| kept.taken)?; Some(set(slot_at(i) + 1, &[0])) }),
    ("taken by its keeper",
        |s| { let i = s.message(|kept| !kept.taken && kept.message.kind < RESPONSE)?; Some(set(slot_at(i) + 1, &[1])) }),
    ("taken by its kiosk",
        |s| { let i = s.message(|kept| kept.message.kind >= RESPONSE)?; Some(set(slot_at(i) + 1, &[1])) }),
    ("an answer without an owner", |s| { let i = s.message(owned)?; Some(set_pair(slot_at(i) + 5, &[(0, 0)])) }),
    ("other parties", |s| {
        let i = s.message(|_| true)?;
        Some([set(slot_at(i) + 3, &[1, s.kiosks]), set(slot_at(i) + 4, &[1, s.n])].concat())
    }),
    ("tickets of a message", |s| { let i = s.message(|kept| kept.message.ticket > 0)?; Some(set(slot_at(i) + 5, &[1, LAST])) }),
    ("another kind without an owner",
        |s| { let i = s.message(|kept| kept.message.kind != RESPONSE)?; Some(set(slot_at(i) + 2, &[1, 2, 3, 4, 6])) }),
    ("the last message with the last number", |s| {
        let i = s.gallery.kept.len().checked_sub(1)?;
        Some(vec![vec![(5, LAST), (slot_at(i), LAST)]])
    }),
];

#[test]
fn edges_that_break_no_rule() {
    let (mut r, mut tried, mut answers) = (Random::new(7), 0, Met::new());
    let all = galleries(96, 1);
    for &(name, damages) in EDGES {
        let mut met = 0;
        for gallery in &all {
            let words = words_of(gallery);
            for damage in damages_of(damages, gallery, &mut r) {
                let edge = reindexed(damaged(&words, &damage));
                assert_eq!(broken(&edge), [], "{name}: {damage:?} of {:?}", told(&words));
                let places: Vec<usize> = damage.iter().map(|&(at, _)| at).collect();
                play(&edge, &places, 12, &mut answers, &mut r);
                met += 1;
            }
        }
        assert!(met >= 5, "{name}: only {met} edges");
        tried += met;
    }
    println!("{tried} edges of {} kinds, which answered {answers:?}", EDGES.len());
    assert!(answers.keys().eq(&EVERY_ANSWER) && answers.values().all(|&times| times >= 20), "{answers:?}");
}

// Random damage ----------------------------------------------------------------------------------------------------------------

/// A word's place: anywhere, but more often among those that are used.
fn any_place(words: &[u32], r: &mut Random) -> usize {
    let (n, kiosks, kept) = (words[0].into(), words[3].into(), u64::from(words[4]));
    let within =
        |size: usize, front: u64, r: &mut Random| (if r.below(3) == 0 { r.below(size as u64) } else { r.below(front) }) as usize;
    match r.below(13) {
        0 => r.below(WORDS as u64) as usize,
        1 | 2 => r.below(7) as usize,
        3..=5 => client_at(r.below(kiosks) as usize) + within(CLIENT, 7 + 2 * n, r),
        6 => flags_at(r.below(kiosks) as usize) + r.below(n) as usize,
        7..=9 => server_at(r.below(n) as usize) + within(SERVER, 12, r),
        10 | 11 => slot_at(r.below(kept.max(1)) as usize) + r.below(SLOT as u64) as usize,
        _ => index_place(kept, r),
    }
}

/// A word of the index that is used with so many messages kept.
fn index_place(kept: u64, r: &mut Random) -> usize {
    let [receiver, message] = [RECEIVERS as u64, kept.max(1)].map(|count| r.below(count) as usize);
    INDEX + r.one_of(&[receiver, NUMBERS + message, MARKS + message])
}

/// The same word of another kiosk, keeper or message, or another of the index.
fn alike(words: &[u32], at: usize, r: &mut Random) -> usize {
    let (n, kiosks, kept) = (words[0].into(), words[3].into(), u64::from(words[4]));
    if at < client_at(0) {
        at
    } else if at < server_at(0) {
        client_at(r.below(kiosks) as usize) + (at - client_at(0)) % CLIENT
    } else if at < slot_at(0) {
        server_at(r.below(n) as usize) + (at - server_at(0)) % SERVER
    } else if at < INDEX {
        slot_at(r.below(kept.max(1)) as usize) + (at - slot_at(0)) % SLOT
    } else {
        index_place(kept, r)
    }
}

fn any_word(words: &[u32], at: usize, r: &mut Random) -> u32 {
    let [n, m, kiosks] = [words[0], words[1], words[3]];
    let edges = [0, 1, 2, 3, 6, 7, 15, 16, 17, 31, 32, 33, 255, 256, 512, 513, 65_535, 65_536, 65_537, LAST - 2, LAST - 1, LAST];
    let own = [m - 1, m, n, n + 1, kiosks, kiosks + 1];
    match r.below(10) {
        0 | 1 => r.one_of(&edges),
        2 => r.one_of(&own),
        3 => words[at].wrapping_add(1),
        4 => words[at].wrapping_sub(1),
        5 => 1 + r.below(u64::from(n.min(kiosks))) as u32,
        6 => words[any_place(words, r)],
        _ => words[alike(words, at, r)],
    }
}

/// The place of some pair: an answer, an owner or one waiting.
fn any_pair(words: &[u32], r: &mut Random) -> usize {
    let (n, kiosks) = (words[0].into(), words[3].into());
    match r.below(3) {
        0 => answer_at(r.below(kiosks) as usize, r.below(n) as usize),
        1 => keeper_word(r.below(n) as usize, 2),
        _ => waiting_at(r.below(n) as usize, r.below(4) as usize),
    }
}

/// One to three words set, or a pair to that of another place.
fn damage(words: &mut [u32], r: &mut Random) {
    let sound = words.to_vec();
    for _ in 0..1 + r.below(3) {
        if r.below(6) == 0 {
            let (from, to) = (any_pair(&sound, r), any_pair(&sound, r));
            words[to..to + 2].copy_from_slice(&sound[from..from + 2]);
        } else {
            let at = any_place(&sound, r);
            words[at] = any_word(&sound, at, r);
        }
    }
}

/// Of the damaged ones, half of them with the index made afresh, the library refuses 21 exactly those that the model calls
/// broken; the others it goes on with as the model does.
#[test]
fn random_damage() {
    let mut r = Random::new(8);
    let all: Vec<Vec<u32>> = galleries(400, 9).iter().map(words_of).collect();
    let (mut refused, mut worked, mut alone, mut answers) = (0, 0, BTreeMap::new(), Met::new());
    while refused + worked < 300_000 {
        let sound = &all[r.below(all.len() as u64) as usize];
        let mut words = sound.clone();
        damage(&mut words, &mut r);
        if r.below(2) == 0 {
            words = reindexed(words);
        }
        if words == *sound {
            continue;
        }
        let rules = broken(&words);
        let damaged = changes(&words, sound);
        if rules.is_empty() {
            worked += 1;
            let places: Vec<usize> = damaged.iter().map(|&(at, ..)| at).collect();
            play(&words, &places, 3, &mut answers, &mut r);
            continue;
        }
        refused += 1;
        if let [rule] = rules[..] {
            *alone.entry(rule).or_insert(0) += 1;
        }
        let event = Event { kind: r.one_of(&KINDS), number: r.below(40) };
        assert_eq!(by_library(&mut words, event), Err(21), "{rules:?} {event:?} {damaged:?} of {:?}", told(sound));
    }
    println!("{refused} refused, {worked} worked and answered {answers:?}; broken by one rule alone: {alone:?}");
    assert!(refused >= 20_000 && worked >= 20_000, "{refused} refused, {worked} worked");
    assert!(alone.len() == Rule::Index as usize && alone.values().all(|&times| times >= 20), "{alone:?}");
    assert!(answers.keys().eq(&EVERY_ANSWER), "{answers:?}");
}
