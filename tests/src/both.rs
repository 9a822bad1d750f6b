//! One step of a kiosk or keeper, made by the library and by the model on equal loans, and all that either could have
//! changed held against each other.

use crate::library;
use crate::players::{Players, NEW};

#[derive(Clone, Copy, Debug)]
pub enum Event<'a> {
    KeeperTakes(&'a [u32]),
    Missing,
    Check,
    KioskTakes(&'a [u32]),
    Try,
    Exit,
}

fn by_library(event: Event, record: &mut [u32], out: &mut [u8], sent: &mut [u32]) -> u32 {
    match event {
        Event::KeeperTakes(message) => library::server_message(record, message, out, sent),
        Event::Missing => library::server_suspect(record, out, sent),
        Event::Check => library::server_check(record, out, sent),
        Event::KioskTakes(message) => library::client_message(record, message, out, sent),
        Event::Try => library::client_begin(record, out, sent),
        Event::Exit => library::client_exit(record, out, sent),
    }
}

fn by_model(players: Players, event: Event, record: &mut [u32], out: &mut [u8], sent: &mut [u32]) -> u32 {
    match event {
        Event::KeeperTakes(message) => players.keeper_takes(record, message, out, sent),
        Event::Missing => players.keeper_misses(record, out, sent),
        Event::Check => players.keeper_checks(record, out, sent),
        Event::KioskTakes(message) => players.kiosk_takes(record, message, out, sent),
        Event::Try => players.kiosk_tries(record, out, sent),
        Event::Exit => players.kiosk_exits(record, out, sent),
    }
}

/// Room for everything that any step sends: a kiosk's to 255 keepers.
pub const ROOM: usize = 3068;

/// The messages that stand in these bytes.
fn messages_in(bytes: &[u8]) -> Vec<[u32; 5]> {
    let (mut rest, mut messages) = (bytes, vec![]);
    while !rest.is_empty() {
        let (m, used) = NEW.parse(rest).expect("a step writes whole messages");
        messages.push([m.kind, m.kiosk, m.keeper, m.ticket, m.owner]);
        rest = &rest[used..];
    }
    messages
}

/// The step by players of either generation alone, with room enough: the messages sent, or the refusal, which leaves the record.
pub fn played(players: Players, event: Event, record: &mut [u32]) -> Result<Vec<[u32; 5]>, u32> {
    let (mut out, mut sent, before) = ([0; ROOM], [0; 2], record.to_vec());
    let number = by_model(players, event, record, &mut out, &mut sent);
    if number != 0 {
        assert!(record == before, "{number} changed something: {event:?} on {before:?}");
        return Err(number);
    }
    Ok(messages_in(&out[..sent[1] as usize]))
}

/// What is lent begins `EDGE` elements from the start of each array, and as many stand behind it at least.
const EDGE: usize = 4;

#[derive(Clone, PartialEq, Eq, Debug)]
struct Loan {
    record: Vec<u32>,
    out: Vec<u8>,
    sent: [u32; 3 + 2 * EDGE],
}

/// The refusal's number or 0, and the loan as both left it.
pub struct Outcome {
    pub number: u32,
    loan: Loan,
}

impl Outcome {
    pub fn record(&self) -> &[u32] {
        &self.loan.record[EDGE..self.loan.record.len() - EDGE]
    }

    /// How many messages an accepted step sent, and their bytes.
    pub fn sent(&self) -> [u32; 2] {
        [self.loan.sent[EDGE], self.loan.sent[EDGE + 1]]
    }

    pub fn bytes(&self) -> &[u8] {
        &self.loan.out[EDGE..EDGE + self.sent()[1] as usize]
    }

    /// The messages that an accepted step sent.
    pub fn messages(&self) -> Vec<[u32; 5]> {
        messages_in(self.bytes())
    }
}

/// Lends both the record, `room` bytes of `out` and `words` words of `sent`, all else holding `filler`.
pub fn compare(event: Event, record: &[u32], room: usize, words: usize, filler: u8) -> Outcome {
    let word = u32::from_ne_bytes([filler; 4]);
    let edge = [word; EDGE];
    let record = [&edge, record, &edge].concat();
    let before = Loan { record, out: vec![filler; room + 2 * EDGE], sent: [word; 3 + 2 * EDGE] };
    let record = EDGE..before.record.len() - EDGE;
    let call = |by: fn(Event, &mut [u32], &mut [u8], &mut [u32]) -> u32| {
        let mut loan = before.clone();
        let (out, sent) = (&mut loan.out[EDGE..EDGE + room], &mut loan.sent[EDGE..EDGE + words]);
        (by(event, &mut loan.record[record.clone()], out, sent), loan)
    };
    let ours = call(by_library);
    let theirs = call(|event, record, out, sent| by_model(NEW, event, record, out, sent));
    let record = &before.record[record];
    assert!(ours == theirs, "{event:?} on {record:?}, {room} bytes, {words} words\nlibrary {ours:?}\nmodel {theirs:?}");
    let (number, loan) = ours;
    assert!(number == 0 || loan == before, "{number} changed something: {event:?} on {record:?}, {room}, {words}");
    Outcome { number, loan }
}
