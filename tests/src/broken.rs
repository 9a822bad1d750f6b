//! Which rules the words of a gallery break: document 01, the paragraph 'A record is broken if ..' and the sentence 'A gallery
//! is broken if ..', and document 02, L2, a rule for each thing that they name. Where they leave a choice the rule says what was
//! chosen.

use crate::gallery::{GALLERY, KEEPERS, KIOSKS};
use crate::kiosk::{HOLDING, REMAINDER, TRYING};
use crate::model::Message;
use crate::players::{Players, NEW};
use crate::simulation::{client_at, flags_at, index_of, server_at, slot_at, FORM, INDEX, WORDS};

#[derive(Clone, Copy, Debug, PartialEq, Eq, PartialOrd, Ord)]
pub enum Rule {
    /// A gallery has so many words, and no other number of them. Ours: it is no rule of the document's.
    Length,
    /// "n 1 to 31, threshold m 1 to n, losses f 0 to n.", as a gallery still has it.
    Setting,
    /// "A gallery has 1 to 16 kiosks .."
    Kiosks,
    /// ".. and keeps 512 messages."
    Kept,
    /// "a number is out of range": "Kiosk 1 to 65,535; keeper 1 to n; ticket 1 to 4,294,967,295." Also n and m, and a section.
    Number,
    /// "0 means none, allowed only for an owner with its ticket (both or neither) .."
    Half,
    /// "A keeper's waiting line has 16 places." In document 02, L3, 32.
    LineLength,
    /// "a place behind the line .. is not empty"
    BehindLine,
    /// "a place .. past keeper n is not empty"
    PastKeepers,
    /// "a line without an owner"
    NoOwner,
    /// "a line not strictly in order"
    Order,
    /// "a kiosk present twice"
    Twice,
    /// "trying with m or more places filled"
    Trying,
    /// "holding with other than exactly m places filled .."
    Holding,
    /// ".. or one not its own"
    NotOwn,
    /// "in remainder with a place filled"
    Remainder,
    /// "has an own answer with another ticket"
    OldTicket,
    /// "tries or holds with a ticket of 0 or 4,294,967,295"
    Ticket,
    /// "A gallery is broken if a record or kept message in it is": the message, by its kind and the ranges of its numbers.
    Message,
    /// "a record differs from its setting": n, m or its own number is not its place's.
    Differs,
    /// "either names a kiosk or keeper it lacks"
    Names,
    /// "message numbers do not ascend", from 1 on.
    Ascend,
    /// "Messages are numbered from 1 as sent": none has a number above the last.
    AboveLast,
    /// "a count is out of range": the most keepers down within one epoch, of n. Ours: no open epoch has more.
    Most,
    /// "a number is out of range": a word that says yes or no is 1 or 0.
    Bit,
    /// Ours: outside an epoch no keeper is noted as down in it.
    NoEpoch,
    /// Ours: nor, in any kiosk's epoch, one past keeper n.
    FlagPastKeepers,
    /// Ours: the words behind the kiosks, the keepers and the messages that there are, are 0.
    Blank,
    /// "A gallery whose index is not its table's": numbers, order, waiting or taken. Its words are those made afresh.
    Index,
}

/// The rules that do not hold.
fn unmet<const N: usize>(rules: [(Rule, bool); N]) -> Vec<Rule> {
    rules.into_iter().filter(|(_, holds)| !holds).map(|(rule, _)| rule).collect()
}

type Pairs = Vec<(u32, u32)>;

/// Kiosk and ticket of each place.
fn pairs(words: &[u32]) -> Pairs {
    words.chunks(2).map(|pair| (pair[0], pair[1])).collect()
}

const EMPTY: (u32, u32) = (0, 0);

/// What is wrong with the numbers of pairs, of which each may be empty.
fn pairs_unmet(pairs: &[(u32, u32)]) -> Vec<Rule> {
    unmet([
        (Rule::Number, pairs.iter().all(|&(kiosk, _)| kiosk <= 65_535)),
        (Rule::Half, pairs.iter().all(|&(kiosk, ticket)| kiosk > 65_535 || (kiosk == 0) == (ticket == 0))),
    ])
}

/// The kiosk's record by itself, with as many words as these players' have. Where its numbers are out of range, nothing else can be
/// said of it. The largest ticket seen, a word of its own where these players have a clock, breaks no rule.
pub fn kiosk_unmet(players: Players, record: &[u32]) -> Vec<Rule> {
    let [n, m, id, section, ticket] = std::array::from_fn(|i| record[i]);
    let settled = (1..=players.keepers).contains(&n) && (1..=n).contains(&m);
    if !settled || !(1..=65_535).contains(&id) || ![REMAINDER, TRYING, HOLDING].contains(&section) {
        return vec![Rule::Number];
    }
    let answers = pairs(&record[players.kiosk_head()..]);
    let (answers, past) = answers.split_at(n as usize);
    let wrong = pairs_unmet(answers);
    if !wrong.is_empty() {
        return wrong;
    }
    let filled: Pairs = answers.iter().copied().filter(|&answer| answer != EMPTY).collect();
    let count = filled.len() as u32;
    unmet([
        (Rule::PastKeepers, past.iter().all(|&place| place == EMPTY)),
        (Rule::Trying, section != TRYING || count < m),
        (Rule::Holding, section != HOLDING || count == m),
        (Rule::NotOwn, section != HOLDING || filled.iter().all(|&(kiosk, _)| kiosk == id)),
        (Rule::Remainder, section != REMAINDER || count == 0),
        (Rule::OldTicket, filled.iter().all(|&(kiosk, of)| kiosk != id || of == ticket)),
        (Rule::Ticket, section == REMAINDER || (1..=4_294_967_294).contains(&ticket)),
    ])
}

/// The keeper's record by itself, the same.
pub fn keeper_unmet(players: Players, record: &[u32]) -> Vec<Rule> {
    let [n, id, owner, ticket, length] = std::array::from_fn(|i| record[i]);
    if !(1..=players.keepers).contains(&n) || !(1..=n).contains(&id) {
        return vec![Rule::Number];
    }
    let places = pairs(&record[5..]);
    if length as usize > places.len() {
        return vec![Rule::LineLength];
    }
    let (line, behind) = places.split_at(length as usize);
    let present: Pairs = [&[(owner, ticket)], line].concat();
    let mut wrong = pairs_unmet(&present);
    // A place of the line is not empty, so that no number of it is 0.
    wrong.extend(unmet([(Rule::Number, line.iter().all(|&place| place != EMPTY))]));
    if !wrong.is_empty() {
        return wrong;
    }
    let before = |a: (u32, u32), b: (u32, u32)| a.1 < b.1 || (a.1 == b.1 && a.0 < b.0);
    let earlier = |i: usize| present[..i].iter().any(|&(kiosk, _)| kiosk != 0 && kiosk == present[i].0);
    unmet([
        (Rule::BehindLine, behind.iter().all(|&place| place == EMPTY)),
        (Rule::NoOwner, owner != 0 || line.is_empty()),
        (Rule::Order, line.windows(2).all(|two| before(two[0], two[1]))),
        (Rule::Twice, !(0..present.len()).any(earlier)),
    ])
}

/// Whether the numbers of a record that breaks these rules still say which parties it means.
fn readable(wrong: &[Rule]) -> bool {
    ![Rule::Number, Rule::Half, Rule::LineLength].iter().any(|rule| wrong.contains(rule))
}

/// "An epoch runs from a kiosk's accepted try to its next accepted exit or fall": while it lives and tries or holds.
fn in_epoch(living: u32, record: &[u32]) -> bool {
    living != 0 && record[3] != REMAINDER
}

/// What a gallery's parts are held against: its keepers, their threshold, and its kiosks.
struct Parties {
    n: u32,
    m: u32,
    kiosks: u32,
}

impl Parties {
    /// Whether each kiosk of these pairs is one of the gallery's.
    fn have(&self, pairs: &[(u32, u32)]) -> bool {
        pairs.iter().all(|&(kiosk, _)| kiosk <= self.kiosks)
    }

    /// Kiosk `number`: its record, and which keepers are noted as down in its epoch.
    fn client_unmet(&self, number: u32, block: &[u32], flags: &[u32]) -> Vec<Rule> {
        let (living, record) = (block[0], &block[1..]);
        let mut wrong = kiosk_unmet(FORM, record);
        if readable(&wrong) {
            let place = [self.n, self.m, number];
            let answers = &record[FORM.kiosk_head()..];
            let named = self.have(&pairs(&answers[..2 * self.n as usize]));
            wrong.extend(unmet([(Rule::Differs, record[..3] == place), (Rule::Names, named)]));
        }
        let (noted, past) = flags.split_at(self.n as usize);
        wrong.extend(unmet([
            (Rule::Bit, living <= 1 && noted.iter().all(|&flag| flag <= 1)),
            (Rule::NoEpoch, in_epoch(living, record) || noted.iter().all(|&flag| flag == 0)),
            (Rule::FlagPastKeepers, past.iter().all(|&flag| flag == 0)),
        ]));
        wrong
    }

    fn server_unmet(&self, number: u32, block: &[u32]) -> Vec<Rule> {
        let (up, record) = (block[0], &block[1..]);
        let mut wrong = keeper_unmet(FORM, record);
        if readable(&wrong) {
            let line = pairs(&record[5..5 + 2 * record[4] as usize]);
            let named = self.have(&line) && self.have(&[(record[2], record[3])]);
            wrong.extend(unmet([(Rule::Differs, record[..2] == [self.n, number]), (Rule::Names, named)]));
        }
        wrong.extend(unmet([(Rule::Bit, up <= 1)]));
        wrong
    }

    /// A kept message; its number is above `before` and at most `last`. Whether a kiosk's message can be taken and still be
    /// kept the document leaves open; it may.
    fn message_unmet(&self, slot: &[u32], before: u32, last: u32) -> Vec<Rule> {
        let [number, taken, kind, kiosk, keeper, ticket, owner] = std::array::from_fn(|i| slot[i]);
        let good = NEW.in_range(&Message { kind, kiosk, keeper, ticket, owner });
        let named = kiosk <= self.kiosks && keeper <= self.n && owner <= self.kiosks;
        unmet([
            (Rule::Message, good),
            (Rule::Names, !good || named),
            (Rule::Ascend, number > before),
            (Rule::AboveLast, number <= last),
            (Rule::Bit, taken <= 1),
        ])
    }
}

fn blank(words: &[u32]) -> bool {
    words.iter().all(|&word| word == 0)
}

/// The rules that these words break, in their order, none of them twice. Where the setting or a count is out of range, the
/// words cannot be told apart, and it alone is named.
pub fn broken(words: &[u32]) -> Vec<Rule> {
    if words.len() != WORDS {
        return vec![Rule::Length];
    }
    let [n, m, f, kiosks, kept, last, most] = std::array::from_fn(|i| words[i]);
    let head = unmet([
        (Rule::Setting, (1..=KEEPERS).contains(&n) && (1..=n).contains(&m) && f <= n),
        (Rule::Kiosks, (1..=KIOSKS).contains(&kiosks)),
        (Rule::Kept, kept as usize <= GALLERY.places),
    ]);
    if !head.is_empty() {
        return head;
    }
    let parties = Parties { n, m, kiosks };
    let [clients, servers, slots] = [kiosks, n, kept].map(|count| count as usize);
    let mut wrong = vec![];
    let mut downs = 0;
    for (i, number) in (0..clients).zip(1..) {
        let (block, flags) = (&words[client_at(i)..flags_at(i)], &words[flags_at(i)..client_at(i + 1)]);
        wrong.extend(parties.client_unmet(number, block, flags));
        let noted = flags[..servers].iter().filter(|&&flag| flag != 0).count();
        downs = downs.max(if in_epoch(block[0], &block[1..]) { noted } else { 0 });
    }
    for (i, number) in (0..servers).zip(1..) {
        wrong.extend(parties.server_unmet(number, &words[server_at(i)..server_at(i + 1)]));
    }
    let mut before = 0;
    for i in 0..slots {
        let slot = &words[slot_at(i)..slot_at(i + 1)];
        wrong.extend(parties.message_unmet(slot, before, last));
        before = slot[0];
    }
    let behind = [client_at(clients)..server_at(0), server_at(servers)..slot_at(0), slot_at(slots)..INDEX];
    wrong.extend(unmet([
        (Rule::Blank, behind.into_iter().all(|part| blank(&words[part]))),
        (Rule::Most, most <= n && downs <= most as usize),
        (Rule::Index, words[INDEX..] == index_of(words)),
    ]));
    wrong.sort();
    wrong.dedup();
    wrong
}
