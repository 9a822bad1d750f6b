//! `sigma_read` and `sigma_write` beside the model: the refusal, every word and every byte, lent or not used.

use sigma_tests::random::Random;
use sigma_tests::samples::{bytes_of, random_message};
use sigma_tests::{library, model};

const POISON: u32 = 0xA5A5_5A5A;

/// Reads with both and compares all that either could have changed. Returns the refusal.
fn compare_read(bytes: &[u8], room: usize) -> u32 {
    let mut ours = [POISON; 9];
    let mut theirs = [POISON; 9];
    let a = library::read(bytes, &mut ours[..room]);
    let b = model::read(bytes, &mut theirs[..room]);
    assert_eq!((a, ours), (b, theirs), "reading {bytes:02X?} into {room} words");
    a
}

/// The same of writing.
fn compare_write(words: &[u32], room: usize) -> u32 {
    let mut ours = [0xC3u8; 24];
    let mut theirs = [0xC3u8; 24];
    let a = library::write(words, &mut ours[..room]);
    let b = model::write(words, &mut theirs[..room]);
    assert_eq!((a, ours), (b, theirs), "writing {words:?} into {room} bytes");
    a
}

#[test]
fn examples_of_document_01() {
    let request = [0x0C, 0, 0x01, 0, 0x05, 0, 0x01, 0, 0x03, 0, 0, 0];
    let response = [0x0E, 0, 0x05, 0, 0x05, 0, 0x01, 0, 0x03, 0, 0, 0, 0x02, 0];
    let cases: [(&[u8], [u32; 5]); 2] = [(&request, [1, 5, 1, 3, 0]), (&response, [5, 5, 1, 3, 2])];
    for (bytes, words) in cases {
        let mut read = [POISON; 6];
        assert_eq!(library::read(bytes, &mut read), 0);
        assert_eq!(read[..5], words);
        assert_eq!(read[5] as usize, bytes.len());
        let mut out = [0x77u8; 16];
        assert_eq!(library::write(&words, &mut out), 0);
        assert_eq!(out[..bytes.len()], *bytes);
        assert!(out[bytes.len()..].iter().all(|&b| b == 0x77), "the bytes behind stay");
    }
}

#[test]
fn every_length_of_input() {
    let mut seen = [0usize; 7];
    for words in [[1, 5, 1, 3, 0], [5, 5, 1, 3, 2], [5, 5, 1, 0, 0], [6, 65_535, 255, u32::MAX, 0]] {
        for behind in [0u8, 1, 0xFF] {
            let mut bytes = bytes_of(&words);
            bytes.resize(40, behind);
            for length in 0..=40 {
                seen[compare_read(&bytes[..length], 6) as usize] += 1;
            }
        }
    }
    assert!(seen[0] > 0 && seen[1] > 0 && seen[4] > 0);
}

#[test]
fn every_kind_and_length_word() {
    for kind in 0..=300u16 {
        for length in [0u16, 4, 11, 12, 13, 14, 15, 0x0C0C, 0x0E00, u16::MAX] {
            let mut bytes = bytes_of(&[5, 5, 1, 3, 2]);
            bytes[0..2].copy_from_slice(&length.to_le_bytes());
            bytes[2..4].copy_from_slice(&kind.to_le_bytes());
            for taken in [4, 11, 12, 13, 14] {
                let refusal = compare_read(&bytes[..taken], 6);
                if !(1..=6).contains(&kind) {
                    assert_eq!(refusal, 2, "kind {kind}, whatever the length says");
                }
            }
        }
        assert_eq!(compare_write(&[u32::from(kind), 5, 1, 3, 0], 14) == 0, (1..=6).contains(&kind) && kind != 5);
    }
}

#[test]
fn boundary_numbers_of_each_field() {
    let kinds = [0, 1, 2, 3, 4, 5, 6, 7, 65_535, 65_536, 65_537, u32::MAX];
    let shorts = [0, 1, 2, 65_534, 65_535, 65_536, 65_537, u32::MAX];
    let keepers = [0, 1, 2, 30, 31, 32, 33, 34, 253, 254, 255, 256, 257, 258, 65_535, 65_536, 65_537, u32::MAX];
    let tickets = [0, 1, 2, 65_536, u32::MAX - 1, u32::MAX];
    for kind in kinds {
        for kiosk in shorts {
            for keeper in keepers {
                for ticket in tickets {
                    for owner in shorts {
                        let words = [kind, kiosk, keeper, ticket, owner];
                        compare_write(&words, 14);
                        if words.iter().take(3).all(|&w| w <= 65_535) && owner <= 65_535 {
                            let mut bytes = vec![if kind == 5 { 14 } else { 12 }, 0];
                            for word in [kind, kiosk, keeper] {
                                bytes.extend((word as u16).to_le_bytes());
                            }
                            bytes.extend(ticket.to_le_bytes());
                            bytes.extend((owner as u16).to_le_bytes());
                            compare_read(&bytes, 6);
                        }
                    }
                }
            }
        }
    }
    assert_eq!(compare_write(&[1, 5, 255, 3, 0], 12), 0);
    assert_eq!(compare_write(&[1, 5, 256, 3, 0], 12), 5, "keeper 256");
    assert_eq!(compare_write(&[5, 5, 1, 0, 7], 14), 5, "an owner with ticket 0");
    assert_eq!(compare_write(&[5, 5, 1, 7, 0], 14), 5, "a ticket with owner 0");
}

/// All that the field's two bytes can say, in a message of each kind: 1 to 255 is in range.
#[test]
fn every_keeper_number() {
    for keeper in 0..=65_535 {
        let expected = if (1..=255).contains(&keeper) { 0 } else { 5 };
        for kind in 1..=6 {
            let mut bytes = bytes_of(&[kind, 5, 1, 3, if kind == 5 { 2 } else { 0 }]);
            bytes[6..8].copy_from_slice(&(keeper as u16).to_le_bytes());
            assert_eq!(compare_read(&bytes, 6), expected, "keeper {keeper} in kind {kind}");
        }
        assert_eq!(compare_write(&[6, 5, keeper, 3, 0], 12), expected, "keeper {keeper}");
    }
}

#[test]
fn every_room() {
    let messages = [[1, 5, 1, 3, 0], [2, 5, 1, 3, 0], [5, 5, 1, 3, 2], [5, 5, 1, 0, 0], [5, 5, 1, 0, 2], [6, 5, 0, 3, 0]];
    for words in messages {
        for room in 0..=20 {
            compare_write(&words, room);
        }
        for count in 0..=8 {
            let mut given = words.to_vec();
            given.resize(count, 0);
            let refusal = compare_write(&given, 20);
            assert_eq!(refusal == 0, count == 5 && model::write(&words, &mut [0; 14]) == 0);
        }
    }
    let bytes = bytes_of(&[5, 5, 1, 3, 2]);
    for room in 0..=8 {
        assert_eq!(compare_read(&bytes, room), if room < 6 { 6 } else { 0 });
        assert_eq!(compare_read(&bytes[..13], room), 4, "6 comes last");
    }
}

#[test]
fn a_million_random_inputs() {
    let mut r = Random::new(20_051_058);
    let mut seen = [0usize; 7];
    let mut damaged = 0;
    for turn in 0..1_200_000u32 {
        let mut bytes = [0u8; 20];
        let mut length = r.below(21) as usize;
        r.fill(&mut bytes);
        if turn % 2 == 0 {
            let words = random_message(&mut r);
            let whole = bytes_of(&words);
            bytes[..whole.len()].copy_from_slice(&whole);
            length = whole.len() + r.below(5) as usize;
            compare_write(&words, r.below(21) as usize);
            for _ in 0..=r.below(2) {
                let at = r.below(whole.len() as u64) as usize;
                bytes[at] = r.damage(bytes[at]);
            }
            damaged += usize::from(bytes[..whole.len()] != whole[..]);
        } else if turn % 4 == 1 {
            bytes[1] = 0;
            bytes[3] = 0;
            bytes[2] = r.below(8) as u8;
            bytes[0] = r.one_of(&[12, 14]);
            let any = r.next() as u8;
            bytes[6] = r.one_of(&[0, 1, 31, 32, 254, 255, any]);
            bytes[7] = r.one_of(&[0, 0, 0, 1]);
        }
        seen[compare_read(&bytes[..length], r.below(9) as usize) as usize] += 1;
        let mut words = random_message(&mut r);
        let at = r.below(5) as usize;
        words[at] = r.one_of(&[0, 1, 5, 31, 32, 255, 256, 65_535, 65_536, u32::MAX, words[at]]);
        seen[compare_write(&words, r.below(21) as usize) as usize] += 1;
    }
    assert!(seen.iter().all(|&n| n > 1000), "each refusal was met: {seen:?}");
    assert!(damaged >= 500_000, "half of a million were damaged messages: {damaged}");
}

#[test]
fn round_trips() {
    let mut r = Random::new(7);
    for _ in 0..200_000 {
        let words = random_message(&mut r);
        let mut bytes = [0u8; 24];
        r.fill(&mut bytes);
        assert_eq!(library::write(&words, &mut bytes), 0);
        let mut read = [POISON; 6];
        assert_eq!(library::read(&bytes, &mut read), 0);
        assert_eq!(read[..5], words);
        let mut again = [0u8; 24];
        assert_eq!(library::write(&read[..5], &mut again), 0);
        let used = read[5] as usize;
        assert_eq!(again[..used], bytes[..used]);
    }
}
