//! Packing a round of 255 messages, and reading the packet to its end. Each call of the reader judges the whole packet.

use crate::compare;
use sigma_tests::model::{self, YIELD};
use sigma_tests::{library, packet};

const MESSAGES: usize = 255;
const CALLS: usize = MESSAGES + 1;
const LENGTH: usize = packet::FIRST + 12 * MESSAGES;
const READ: usize = 100;
const PACKED: usize = 20_000;

/// YIELDs of one client, as a step writes them.
fn round() -> Vec<u8> {
    let mut bytes = vec![0; 12 * MESSAGES];
    for (i, out) in bytes.chunks_mut(12).enumerate() {
        assert_eq!(model::write(&[YIELD, 5, 1 + i as u32 % 31, 1 + i as u32, 0], out), 0);
    }
    bytes
}

fn pack_all(pack: fn(&[u8], &mut [u8]) -> u32, bytes: &[u8], out: &mut [u8]) -> u64 {
    (0..PACKED).fold(0, |sum, _| {
        assert_eq!(pack(bytes, out), 0);
        sum * 31 % 1_000_003 + u64::from(out[0]) + u64::from(out[LENGTH - 4])
    })
}

fn read_all(next: fn(&[u8], usize, &mut [u32]) -> u32, packet: &[u8]) -> u64 {
    let (mut words, mut sum) = ([0; 6], 0u64);
    for _ in 0..READ {
        let mut at = packet::FIRST;
        for _ in 0..CALLS {
            assert_eq!(next(packet, at, &mut words), 0);
            sum = sum.wrapping_mul(31).wrapping_add(u64::from(words[2]) ^ u64::from(words[3]));
            at += words[5] as usize;
        }
        assert_eq!((at, words), (packet.len(), [0; 6]));
    }
    sum
}

pub fn run() {
    let bytes = round();
    let (mut out, mut other) = (vec![0; LENGTH], vec![0; LENGTH]);
    compare("pack 255 messages", PACKED, &mut || pack_all(library::packet_pack, &bytes, &mut out), &mut || {
        pack_all(packet::pack, &bytes, &mut other)
    });
    assert!(out == other, "the same packet");
    compare("read a packet of 255 messages to its end", READ, &mut || read_all(library::packet_next, &out), &mut || {
        read_all(packet::next, &other)
    });
}
