//! Steps of a server with eight clients, and of a client with 31 servers and threshold 21, on records as words. All are accepted.

use crate::compare;
use sigma_tests::both::ROOM;
use sigma_tests::model::{INQUIRY, RELEASE, REQUEST, RESPONSE, YIELD};
use sigma_tests::random::Random;
use sigma_tests::{keeper, kiosk, library};

const MESSAGES: usize = 1_000_000;
const VISITS: usize = 50_000;
const N: u32 = 31;
const M: u32 = 21;

type Message = fn(&mut [u32], &[u32], &mut [u8], &mut [u32]) -> u32;
type Step = fn(&mut [u32], &mut [u8], &mut [u32]) -> u32;

/// A record's words and the loans of its steps, and a sum over what the steps gave.
struct Player<const W: usize> {
    record: [u32; W],
    out: [u8; ROOM],
    sent: [u32; 2],
    sum: u64,
}

impl<const W: usize> Player<W> {
    fn new(make: impl Fn(&mut [u32]) -> u32) -> Player<W> {
        let mut record = [0; W];
        assert_eq!(make(&mut record), 0);
        Player { record, out: [0; ROOM], sent: [0; 2], sum: 0 }
    }

    fn note(&mut self, refusal: u32) {
        assert_eq!(refusal, 0);
        let last = self.out[(self.sent[1] as usize).saturating_sub(6)];
        self.sum = self.sum.wrapping_mul(31).wrapping_add(u64::from(self.sent[1]) << 8 | u64::from(last));
    }

    fn take(&mut self, message: Message, words: &[u32]) {
        let refusal = message(&mut self.record, words, &mut self.out, &mut self.sent);
        self.note(refusal);
    }

    fn step(&mut self, step: Step) {
        let refusal = step(&mut self.record, &mut self.out, &mut self.sent);
        self.note(refusal);
    }

    fn total(&self) -> u64 {
        self.record.iter().fold(self.sum, |sum, &w| sum.wrapping_mul(31).wrapping_add(u64::from(w)))
    }
}

/// Messages to server 1: each client asks, yields, inquires and releases; a release ends its timestamp.
fn to_server() -> Vec<[u32; 5]> {
    let mut r = Random::new(2);
    let mut timestamps = [1u32; 9];
    (0..MESSAGES)
        .map(|_| {
            let client = 1 + r.below(8) as usize;
            let kind = r.one_of(&[REQUEST, REQUEST, REQUEST, YIELD, RELEASE, INQUIRY]);
            let timestamp = timestamps[client];
            timestamps[client] += u32::from(kind == RELEASE);
            [kind, client as u32, 1, timestamp, 0]
        })
        .collect()
}

fn serve(make: fn(u32, u32, &mut [u32]) -> u32, message: Message, stream: &[[u32; 5]]) -> u64 {
    let mut server = Player::<{ keeper::WORDS }>::new(|record| make(N, 1, record));
    stream.iter().for_each(|words| server.take(message, words));
    server.total()
}

/// A server with an owner sends CHECK again and again.
fn check(make: fn(u32, u32, &mut [u32]) -> u32, message: Message, step: Step) -> u64 {
    let mut server = Player::<{ keeper::WORDS }>::new(|record| make(N, 1, record));
    server.take(message, &[REQUEST, 1, 1, 1, 0]);
    (0..MESSAGES).for_each(|_| server.step(step));
    server.total()
}

/// The owner is suspected and removed, and another client asks: one of two steps each.
fn suspect(make: fn(u32, u32, &mut [u32]) -> u32, message: Message, step: Step) -> u64 {
    let mut server = Player::<{ keeper::WORDS }>::new(|record| make(N, 1, record));
    for i in 0..MESSAGES as u32 / 2 {
        server.take(message, &[REQUEST, 1 + i % 8, 1, 1 + i, 0]);
        server.step(step);
    }
    server.total()
}

/// Client 5 tries, yields a round in which others have the last ten servers, is told of 21 servers' votes, enters and leaves.
fn visit(make: fn(u32, u32, u32, &mut [u32]) -> u32, begin: Step, message: Message, exit: Step) -> u64 {
    let mut client = Player::<{ kiosk::WORDS }>::new(|record| make(N, M, 5, record));
    for _ in 0..VISITS {
        client.step(begin);
        let timestamp = client.record[4];
        for j in 1..=M {
            let other = if j <= 11 { 5 } else { 2 };
            client.take(message, &[RESPONSE, 5, j, timestamp, other]);
        }
        for j in 1..=M {
            client.take(message, &[RESPONSE, 5, j, timestamp, 5]);
        }
        client.step(exit);
    }
    client.total()
}

pub fn run() {
    let stream = to_server();
    compare(
        "server takes a message",
        MESSAGES,
        &mut || serve(library::server_new, library::server_message, &stream),
        &mut || serve(keeper::new, keeper::message, &stream),
    );
    compare(
        "server sends CHECK",
        MESSAGES,
        &mut || check(library::server_new, library::server_message, library::server_check),
        &mut || check(keeper::new, keeper::message, keeper::check),
    );
    compare(
        "server takes a REQUEST, or drops its owner",
        MESSAGES,
        &mut || suspect(library::server_new, library::server_message, library::server_suspect),
        &mut || suspect(keeper::new, keeper::message, keeper::missing),
    );
    compare(
        "client tries, takes a RESPONSE, or exits",
        VISITS * (2 * M as usize + 2),
        &mut || visit(library::client_new, library::client_begin, library::client_message, library::client_exit),
        &mut || visit(kiosk::new, kiosk::try_wall, kiosk::message, kiosk::exit),
    );
}
