//! Writing and reading a stream of mixed messages. No buffer is cleared between rounds.

use crate::compare;
use sigma_tests::random::Random;
use sigma_tests::{library, model};

const MESSAGES: usize = 5_000_000;

fn stream() -> Vec<[u32; 5]> {
    let mut r = Random::new(1);
    (0..MESSAGES)
        .map(|_| {
            let kind = 1 + r.below(6) as u32;
            let owner = if kind == model::RESPONSE { 1 + r.below(65_535) as u32 } else { 0 };
            [kind, 1 + r.below(65_535) as u32, 1 + r.below(31) as u32, 1 + r.below(1 << 31) as u32, owner]
        })
        .collect()
}

fn write_all(write: fn(&[u32], &mut [u8]) -> u32, messages: &[[u32; 5]], out: &mut [u8]) -> u64 {
    let mut at = 0;
    for words in messages {
        assert_eq!(write(words, &mut out[at..]), 0);
        at += model::length_of(words[0]);
    }
    at as u64
}

fn read_all(read: fn(&[u8], &mut [u32]) -> u32, bytes: &[u8]) -> u64 {
    let mut words = [0u32; 6];
    let (mut at, mut sum) = (0, 0u64);
    while at < bytes.len() {
        assert_eq!(read(&bytes[at..], &mut words), 0);
        sum = sum.wrapping_mul(31).wrapping_add(u64::from(words[1]) ^ u64::from(words[3]));
        at += words[5] as usize;
    }
    sum
}

pub fn run() {
    let messages = stream();
    let mut out = vec![0u8; messages.iter().map(|w| model::length_of(w[0])).sum()];
    let mut other = out.clone();
    compare("write a message", MESSAGES, &mut || write_all(library::write, &messages, &mut out), &mut || {
        write_all(model::write, &messages, &mut other)
    });
    assert!(out == other, "the same bytes");
    compare("read a message", MESSAGES, &mut || read_all(library::read, &out), &mut || read_all(model::read, &other));
}
