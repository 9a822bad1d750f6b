//! `sigma_packet_next` and `sigma_packet_pack` beside the model: the refusal, every word and every byte, lent or not used.

use sigma_tests::random::Random;
use sigma_tests::samples::{bytes_of, random_message};
use sigma_tests::{library, packet};

const POISON: u32 = 0xA5A5_5A5A;
const FILLER: u8 = 0xC3;

/// What is lent begins `EDGE` elements from the start of each array, and as many stand behind it at least.
const EDGE: usize = 4;

/// Document 01's examples, and what reading gives of them.
const REQUEST: [u8; 12] = [0x0C, 0, 1, 0, 5, 0, 1, 0, 3, 0, 0, 0];
const RESPONSE: [u8; 14] = [0x0E, 0, 5, 0, 5, 0, 1, 0, 3, 0, 0, 0, 2, 0];
const REQUEST_READ: [u32; 6] = [1, 5, 1, 3, 0, 12];
const RESPONSE_READ: [u32; 6] = [5, 5, 1, 3, 2, 14];

/// A message of each kind, and an answer without an owner.
const MESSAGES: [[u32; 5]; 7] = [
    [1, 5, 1, 3, 0],
    [2, 1, 255, 1, 0],
    [3, 65_535, 2, u32::MAX, 0],
    [4, 7, 9, 258, 0],
    [5, 5, 1, 3, 2],
    [5, 2, 3, 0, 0],
    [6, 256, 32, 65_536, 0],
];

/// Places that no small packet has; some are one of its places in their last 16 or 32 bits.
const HUGE: [usize; 9] =
    [65_534, 65_535, 65_536, 65_538, 65_550, (1 << 32) + 2, (usize::MAX << 32) + 14, usize::MAX - 1, usize::MAX];

/// Reads with both and compares all that either could have changed. Returns the refusal and the first six of the words lent.
fn compare_next(lent: &[u8], at: usize, room: usize) -> (u32, [u32; 6]) {
    let call = |next: fn(&[u8], usize, &mut [u32]) -> u32| {
        let mut words = [POISON; 8 + 2 * EDGE];
        (next(lent, at, &mut words[EDGE..EDGE + room]), words)
    };
    let (ours, theirs) = (call(library::packet_next), call(packet::next));
    assert_eq!(ours, theirs, "place {at} of {lent:02X?} into {room} words");
    let (number, words) = ours;
    let written = if number == 0 { 6 } else { 0 };
    let kept = words[..EDGE].iter().chain(&words[EDGE + written..]).all(|&word| word == POISON);
    assert!(kept, "{number} wrote {words:X?}: place {at} of {lent:02X?}");
    (number, std::array::from_fn(|i| words[EDGE + i]))
}

/// The same of packing. Returns the refusal and the bytes written.
fn compare_pack(bytes: &[u8], room: usize) -> (u32, Vec<u8>) {
    let call = |pack: fn(&[u8], &mut [u8]) -> u32| {
        let mut out = vec![FILLER; room + 2 * EDGE];
        (pack(bytes, &mut out[EDGE..EDGE + room]), out)
    };
    let (ours, theirs) = (call(library::packet_pack), call(packet::pack));
    assert!(ours == theirs, "packing {bytes:02X?} into {room}\nlibrary {ours:02X?}\nmodel {theirs:02X?}");
    let (number, out) = ours;
    let end = EDGE + if number == 0 { 2 + bytes.len() } else { 0 };
    let kept = out[..EDGE].iter().chain(&out[end..]).all(|&byte| byte == FILLER);
    assert!(kept, "{number} wrote too much, packing {bytes:02X?}");
    (number, out[EDGE..end].to_vec())
}

fn with_total(total: usize, bytes: &[u8]) -> Vec<u8> {
    [&(total as u16).to_le_bytes(), bytes].concat()
}

fn packet_of(bytes: &[u8]) -> Vec<u8> {
    with_total(2 + bytes.len(), bytes)
}

/// What both calls say of these bytes: a packet has a message or its end at 2, so the reader refuses there just what packing does.
fn judged(bytes: &[u8]) -> u32 {
    let (number, packet) = compare_pack(bytes, 2 + bytes.len());
    assert!(number != 0 || packet == packet_of(bytes), "{packet:02X?}");
    assert_eq!(compare_next(&packet_of(bytes), 2, 6).0, number, "{bytes:02X?}");
    number
}

/// A message as long as its length field says, whatever its kind's length is; as document 01's examples in all other fields.
fn long(length: usize, kind: u8) -> Vec<u8> {
    let mut bytes = RESPONSE.to_vec();
    bytes.resize(length.max(14), 0);
    bytes[..2].copy_from_slice(&(length as u16).to_le_bytes());
    bytes[2] = kind;
    bytes.truncate(length);
    bytes
}

/// Messages that reading refuses, with the refusal.
fn bad() -> Vec<(u32, Vec<u8>)> {
    let (mut nobody, mut nowhere, mut far, mut owner) = (REQUEST.to_vec(), REQUEST.to_vec(), REQUEST.to_vec(), RESPONSE.to_vec());
    nobody[4] = 0;
    nowhere[6] = 0;
    far[7] = 1; // keeper 257
    owner[8] = 0;
    let of_length = [(2, long(12, 0)), (2, long(4, 7)), (3, long(14, 1)), (3, long(12, 5)), (3, long(4, 6)), (3, long(300, 2))];
    let of_range = [(5, nobody), (5, nowhere), (5, far), (5, owner)];
    of_length.into_iter().chain(of_range).collect()
}

/// Bytes at which no walk goes on, whatever stands behind them in a packet of under 65,535.
const BROKEN: [&[u8]; 4] = [&[0, 0, 1, 0], &[3, 0, 1, 0], &[2, 0], &[255, 255, 1, 0]];

/// Bytes at which it doesn't where they are the last.
const CUT: [&[u8]; 4] = [&[12], &[12, 0], &[4, 0, 1], &[12, 0, 1, 0, 5, 0, 1, 0, 3, 0, 0]];

/// All that are refused before the place is looked at.
fn refused() -> Vec<Vec<u8>> {
    let broken = BROKEN.into_iter().chain(CUT).map(<[u8]>::to_vec);
    bad().into_iter().map(|(_, one)| one).chain(broken).collect()
}

#[test]
fn the_empty_packet() {
    assert_eq!(compare_next(&[2, 0], 2, 8), (0, [0; 6]), "its end");
    for at in [0, 1, 3, 4].into_iter().chain(HUGE) {
        assert_eq!(compare_next(&[2, 0], at, 8).0, 22, "place {at}");
    }
    assert_eq!(compare_pack(&[], 2), (0, vec![2, 0]));
    assert_eq!(compare_pack(&[], 1).0, 6);
    let short: [&[u8]; 10] = [&[], &[2], &[0], &[0, 0], &[1, 0], &[3, 0], &[2, 1], &[0, 1], &[3, 0, 0], &[1, 0, 0]];
    for lent in short {
        for at in 0..=3 {
            assert_eq!(compare_next(lent, at, 6).0, 22, "place {at} of {lent:?}");
        }
    }
}

#[test]
fn examples_by_hand() {
    let packet = [vec![0x1C, 0], REQUEST.to_vec(), RESPONSE.to_vec()].concat();
    assert_eq!(compare_next(&packet, 2, 8), (0, REQUEST_READ));
    assert_eq!(compare_next(&packet, 14, 8), (0, RESPONSE_READ));
    assert_eq!(compare_next(&packet, 28, 8), (0, [0; 6]), "its end");
    for at in [0, 1, 3, 12, 13, 15, 16, 26, 27, 29, 30] {
        assert_eq!(compare_next(&packet, at, 8).0, 22, "no message starts at {at}");
    }
    assert_eq!(compare_pack(&packet[2..], 28), (0, packet.clone()));
    assert_eq!(compare_pack(&packet[2..], 27).0, 6);

    let mut damaged = packet.clone();
    damaged[4] = 9;
    assert_eq!(compare_next(&damaged, 14, 8).0, 2, "the kind of the first, asked for the second");
    damaged[20] = 0;
    assert_eq!(compare_next(&damaged, 14, 8).0, 2, "the first bad message, and the second is 5");
    damaged[4] = 1;
    assert_eq!(compare_next(&damaged, 2, 8).0, 5, "the second, asked for the first");
    assert_eq!(compare_next(&damaged, 3, 8).0, 5, "its own number before the place's 22");
    damaged[6] = 0;
    damaged[14] = 13;
    assert_eq!(compare_next(&damaged, 2, 8).0, 22, "the walk has a byte left, though the first is 5");
    assert_eq!(compare_pack(&damaged[2..], 28).0, 22);
}

/// What the largest kiosk sends at a try: 255 messages of 12 bytes.
#[test]
fn a_round_to_every_keeper() {
    let (mut record, mut out, mut sent) = ([0; 516], [0; 12 * 255], [0; 2]);
    assert_eq!(library::client_new(255, 170, 5, &mut record), 0);
    assert_eq!(library::client_begin(&mut record, &mut out, &mut sent), 0);
    assert_eq!(sent, [255, 3060]);
    let (number, packet) = compare_pack(&out, 3062);
    assert_eq!((number, &packet[..2]), (0, &[0xF6, 0x0B][..]), "a total of 3,062");
    for keeper in 1..=255 {
        assert_eq!(compare_next(&packet, 12 * keeper as usize - 10, 6), (0, [1, 5, keeper, 1, 0, 12]));
    }
    assert_eq!(compare_next(&packet, 3062, 6), (0, [0; 6]), "its end");
}

#[test]
fn every_place_of_small_packets() {
    for count in 0..=4 {
        for mixture in 0..MESSAGES.len().pow(count) {
            let chosen = (0..count).map(|i| MESSAGES[mixture / MESSAGES.len().pow(i) % MESSAGES.len()]);
            let (mut bytes, mut starts) = (vec![], vec![]);
            for words in chosen {
                let message = bytes_of(&words);
                let [kind, kiosk, keeper, ticket, owner] = words;
                starts.push((2 + bytes.len(), [kind, kiosk, keeper, ticket, owner, message.len() as u32]));
                bytes.extend(message);
            }
            starts.push((2 + bytes.len(), [0; 6]));
            let packet = packet_of(&bytes);
            for at in (0..=packet.len() + 2).chain(HUGE) {
                let (number, words) = compare_next(&packet, at, 6);
                let start = starts.iter().find(|start| start.0 == at);
                assert_eq!(number, if start.is_some() { 0 } else { 22 }, "place {at} of {packet:02X?}");
                assert!(start.is_none_or(|start| words == start.1), "place {at} of {packet:02X?}");
            }
        }
    }
}

/// Small packets' messages, with 0 to 4 of them.
fn small() -> [Vec<u8>; 5] {
    let messages = MESSAGES.map(|words| bytes_of(&words));
    [vec![], REQUEST.to_vec(), [REQUEST.as_slice(), &RESPONSE].concat(), messages[3..6].concat(), messages[..4].concat()]
}

#[test]
fn totals_that_are_off() {
    for bytes in small() {
        let right = 2 + bytes.len();
        for total in [0, 1, right - 2, right - 1, right + 1, right + 2] {
            for behind in [vec![], vec![0; 2], vec![4, 0], vec![255; 4], REQUEST.to_vec()] {
                let lent = with_total(total, &[bytes.clone(), behind].concat());
                for at in 0..=right + 3 {
                    assert_eq!(compare_next(&lent, at, 6).0, 22, "place {at} of {lent:02X?}");
                }
            }
        }
        let packet = packet_of(&bytes);
        for lent in 0..right {
            assert_eq!(compare_next(&packet[..lent], 2, 6).0, 22, "{lent} bytes lent of {packet:02X?}");
        }
        let one_more = [bytes.clone(), RESPONSE.to_vec()].concat();
        assert_eq!(compare_next(&with_total(right + 14, &one_more), right, 6), (0, RESPONSE_READ));
        assert_eq!(compare_next(&with_total(right, &one_more), right, 6), (0, [0; 6]), "the packet ends before it");
    }
}

#[test]
fn bytes_behind_the_total_do_not_matter() {
    let mut r = Random::new(11);
    let mut any = [0; 20];
    for bytes in small().into_iter().chain(refused()) {
        let packet = packet_of(&bytes);
        for _ in 0..20 {
            r.fill(&mut any);
            for tail in [&any[..], &[0; 20], &[255; 20], &REQUEST.repeat(2), &REQUEST.repeat(5_500)] {
                let whole = [&packet, tail].concat();
                let lent = packet.len() + r.below(tail.len() as u64 + 1) as usize;
                for at in [0, 2, 14, packet.len(), packet.len() + 2, lent] {
                    let alone = compare_next(&packet, at, 6);
                    assert_eq!(compare_next(&whole[..lent], at, 6), alone, "place {at} of {packet:02X?}, {lent} bytes lent");
                }
            }
        }
        let whole = [packet.clone(), vec![FILLER; 70_000]].concat();
        for lent in [65_536, 65_537, 65_538, 65_550, 70_000] {
            assert_eq!(compare_next(&whole[..lent], 2, 6), compare_next(&packet, 2, 6), "{lent} bytes lent");
        }
    }
}

#[test]
fn every_length_field() {
    let messages = [&REQUEST[..], &RESPONSE, &REQUEST].map(<[u8]>::to_vec);
    for i in 0..3 {
        for length in (0..=20).chain([26, 38, 255, 256, 3_084, 65_533, 65_535]) {
            let mut fields = messages.clone();
            fields[i][..2].copy_from_slice(&(length as u16).to_le_bytes());
            let number = judged(&fields.concat());
            assert!(length >= 4 || number == 22, "a field of {length}");
            assert!(i < 2 || length <= 12 || number == 22, "a last field of {length}");
            for at in 0..=42 {
                let (refusal, _) = compare_next(&packet_of(&fields.concat()), at, 6);
                assert!(number == 0 || refusal == number, "whatever the place, {at}");
            }
        }
    }
    let spanning = [&[26], &REQUEST[1..], &RESPONSE, &REQUEST].concat();
    assert_eq!(judged(&spanning), 3, "a field that takes the next message in");
}

#[test]
fn every_length_of_a_message() {
    let messages = [&REQUEST[..], &RESPONSE, &REQUEST].map(<[u8]>::to_vec);
    for i in 0..3 {
        for length in (4..=20).chain([255, 256, 257, 1_000]) {
            for (kind, right) in [(0, None), (1, Some(12)), (4, Some(12)), (5, Some(14)), (6, Some(12)), (7, None)] {
                let mut changed = messages.clone();
                changed[i] = long(length, kind);
                let expected = right.map_or(2, |right| if length == right { 0 } else { 3 });
                assert_eq!(judged(&changed.concat()), expected, "{length} bytes of kind {kind}");
            }
        }
    }
}

#[test]
fn bytes_that_are_left() {
    let values = [0, 1, 2, 3, 4, 12, 255];
    for bytes in small() {
        for &a in &values {
            assert_eq!(judged(&[bytes.as_slice(), &[a]].concat()), 22, "a byte is left");
            for &b in &values {
                assert_eq!(judged(&[bytes.as_slice(), &[a, b]].concat()), 22, "two are left");
                for &c in &values {
                    assert_eq!(judged(&[bytes.as_slice(), &[a, b, c]].concat()), 22, "three are left");
                }
            }
        }
        assert_eq!(judged(&[bytes.as_slice(), &[4, 0, 1, 0]].concat()), 3, "four are a message, of a wrong length");
        assert_eq!(judged(&[bytes.as_slice(), &[4, 0, 0, 0]].concat()), 2, "or of no kind");
        assert_eq!(judged(&[bytes.as_slice(), &[4, 0, 1]].concat()), 22);
        assert_eq!(judged(&[bytes.as_slice(), &[3, 0, 1, 0]].concat()), 22);
        assert_eq!(judged(&[bytes.as_slice(), &[5, 0, 1, 0]].concat()), 22);
    }
}

#[test]
fn a_broken_walk_before_every_bad_message() {
    let good = [&REQUEST[..], &RESPONSE].concat();
    for (number, one) in bad() {
        for stop in BROKEN.into_iter().chain(CUT) {
            for order in [[&one, &good, stop], [&good, &one, stop]] {
                assert_eq!(judged(&order.concat()), 22, "{number} in front of {stop:?}");
            }
        }
        for stop in BROKEN {
            for order in [[&one, stop, &good], [stop, &one, &good], [stop, &good, &one], [&good, stop, &one]] {
                assert_eq!(judged(&order.concat()), 22, "{number} and {stop:?}");
            }
        }
    }
}

#[test]
fn the_first_bad_message_tells() {
    let good = [&REQUEST[..], &RESPONSE].concat();
    for (number, one) in bad() {
        for alone in [vec![&one], vec![&one, &good], vec![&good, &one], vec![&good, &one, &good]] {
            assert_eq!(judged(&alone.into_iter().flatten().copied().collect::<Vec<u8>>()), number);
        }
        for (_, other) in bad() {
            for order in [[&one, &other, &good], [&one, &good, &other], [&good, &one, &other]] {
                let bytes = order.map(Vec::as_slice).concat();
                assert_eq!(judged(&bytes), number, "the first of two");
                assert_eq!(compare_pack(&bytes, 0).0, number);
                for at in [0, 1, 2, 3, 14, 28, 2 + bytes.len(), 3 + bytes.len(), usize::MAX] {
                    assert_eq!(compare_next(&packet_of(&bytes), at, 0).0, number, "whatever the place and the room, {at}");
                }
            }
        }
    }
}

/// So many messages of 12 bytes, and so many of 14 in front of them.
fn many(twelves: usize, fourteens: usize) -> Vec<u8> {
    [RESPONSE.repeat(fourteens), REQUEST.repeat(twelves)].concat()
}

#[test]
fn the_most_that_a_packet_holds() {
    for (twelves, fourteens) in [(5_461, 0), (5_454, 6), (1, 4_680)] {
        let bytes = many(twelves, fourteens);
        assert_eq!((bytes.len(), judged(&bytes)), (65_532, 0), "{twelves} and {fourteens}");
        assert_eq!(compare_pack(&bytes, 65_533).0, 6);
        let packet = packet_of(&bytes);
        assert_eq!(packet[..2], [0xFE, 0xFF]);
        assert_eq!(compare_next(&packet, 65_522, 6), (0, REQUEST_READ), "the last");
        assert_eq!(compare_next(&packet, 65_534, 6), (0, [0; 6]), "its end");
        for at in [0, 1, 3, 65_523, 65_533, 65_535, 65_536, usize::MAX] {
            assert_eq!(compare_next(&packet, at, 6).0, 22, "place {at}");
        }
    }
    let most = [(3, [many(5_460, 0), long(13, 1)].concat()), (3, long(65_533, 1)), (2, long(65_533, 7))];
    for (number, bytes) in most {
        assert_eq!((bytes.len(), judged(&bytes)), (65_533, number), "the total is 65,535, and fits");
    }
    assert_eq!(judged(&[many(5_461, 0), vec![12]].concat()), 22, "a byte is left of 65,533");
}

#[test]
fn bytes_too_many_for_two() {
    let just = [(0, 4_681, 65_534), (7, 4_675, 65_534), (5_460, 1, 65_534), (5_459, 2, 65_536), (5_462, 0, 65_544)];
    let far = [(5_460, 2, 65_548), (10_919, 3, 131_070), (10_918, 4, 131_072)];
    for (twelves, fourteens, length) in just.into_iter().chain(far) {
        let bytes = many(twelves, fourteens);
        assert_eq!(bytes.len(), length);
        for room in [0, 1, 2, 14, length + 1, length + 2, length + 9] {
            assert_eq!(compare_pack(&bytes, room).0, 22, "{length} bytes into {room}");
        }
    }
    for (i, one) in refused().into_iter().enumerate() {
        for length in [65_534, 65_535, 65_536, 65_538, 65_548, 131_070, 131_072] {
            let mut bytes = [one.clone(), many(11_000, 0)].concat();
            bytes.truncate(length);
            assert_eq!(compare_pack(&bytes, length + 2).0, 22, "sample {i} and more, {length} bytes");
        }
    }
}

#[test]
fn every_room() {
    let bytes = [&REQUEST[..], &RESPONSE].concat();
    let packet = packet_of(&bytes);
    for room in 0..=8 {
        for at in [2, 14, 28] {
            assert_eq!(compare_next(&packet, at, room).0, if room < 6 { 6 } else { 0 }, "place {at}, {room} words");
        }
        assert_eq!(compare_next(&[2, 0], 2, room).0, if room < 6 { 6 } else { 0 });
        assert_eq!(compare_next(&packet, 3, room).0, 22, "6 comes last");
        assert_eq!(compare_next(&packet[..27], 2, room).0, 22);
        for (number, one) in bad() {
            assert_eq!(compare_next(&packet_of(&one), 2, room).0, number);
        }
    }
    for bytes in small() {
        for room in (0..=2 + bytes.len() + 5).chain([65_535, 65_536, 65_537, 131_072]) {
            assert_eq!(compare_pack(&bytes, room).0, if room < 2 + bytes.len() { 6 } else { 0 }, "{room} bytes");
        }
    }
    for room in 0..=30 {
        for (number, one) in bad() {
            assert_eq!(compare_pack(&one, room).0, number, "6 comes last");
        }
        for stop in BROKEN.into_iter().chain(CUT) {
            assert_eq!(compare_pack(stop, room).0, 22, "6 comes last");
        }
    }
}

/// None to five messages, now and then many more, one after another behind what is there, and the places where they start.
fn random_messages(r: &mut Random, bytes: &mut Vec<u8>) -> Vec<usize> {
    let mut starts = vec![];
    let most = if r.below(64) == 0 { 60 } else { 6 };
    for _ in 0..r.below(most) {
        starts.push(bytes.len());
        bytes.extend(bytes_of(&random_message(r)));
    }
    starts
}

/// Damages one or two of these bytes, in which messages start at some places: any byte, a kind that becomes another one,
/// or a length that takes in the next message.
fn damage(r: &mut Random, bytes: &mut [u8], starts: &[usize]) {
    let before = bytes.to_vec();
    while !before.is_empty() && bytes == before {
        for _ in 0..=r.below(2) {
            let any = r.below(before.len() as u64) as usize;
            let start = if starts.is_empty() { any } else { r.one_of(starts) };
            let (place, value) = match r.below(6) {
                0 => (start + 2, 1 + r.below(6) as u8),
                1 => (start, r.one_of(&[24, 26, 28])),
                _ => (any, r.damage(before[any])),
            };
            bytes[place.min(before.len() - 1)] = value;
        }
    }
}

fn met_often(seen: &[usize; 23]) {
    for (number, &times) in seen.iter().enumerate() {
        let expected = [0, 2, 3, 5, 6, 22].contains(&number);
        assert!(if expected { times > 10_000 } else { times == 0 }, "{number} was met {times} times: {seen:?}");
    }
}

#[test]
fn a_million_random_packets() {
    let mut r = Random::new(20_260_202);
    let (mut seen, mut damaged) = ([0; 23], 0);
    for turn in 0..1_000_000u32 {
        let mut packet = vec![0; 2];
        let mut places = random_messages(&mut r, &mut packet);
        let total = packet.len();
        packet[..2].copy_from_slice(&(total as u16).to_le_bytes());
        if turn % 2 == 0 {
            damage(&mut r, &mut packet, &places);
            damaged += 1;
        }
        places.push(total);
        let at = match r.below(8) {
            0 => r.below(total as u64 + 3) as usize,
            1 => r.one_of(&HUGE),
            _ => r.one_of(&places),
        };
        packet.resize(total + r.below(3) as usize, r.next() as u8);
        let room = if r.below(4) == 0 { r.below(9) } else { 6 };
        seen[compare_next(&packet, at, room as usize).0 as usize] += 1;
    }
    met_often(&seen);
    assert_eq!(damaged, 500_000, "half of them");
}

#[test]
fn a_million_random_packings() {
    let mut r = Random::new(20_260_203);
    let (mut seen, mut damaged) = ([0; 23], 0);
    for turn in 0..1_000_000u32 {
        let mut bytes = vec![];
        let starts = random_messages(&mut r, &mut bytes);
        if turn % 2 == 0 {
            damage(&mut r, &mut bytes, &starts);
            damaged += u32::from(!bytes.is_empty());
        }
        let needed = 2 + bytes.len() as u64;
        let room = if r.below(4) == 0 { r.below(needed) } else { needed + r.below(4) };
        seen[compare_pack(&bytes, room as usize).0 as usize] += 1;
    }
    met_often(&seen);
    assert!((400_000..=500_000).contains(&damaged), "half of those that have a byte: {damaged}");
}

#[test]
fn round_trips() {
    let mut r = Random::new(5);
    for _ in 0..100_000 {
        let messages: Vec<[u32; 5]> = (0..r.below(9)).map(|_| random_message(&mut r)).collect();
        let bytes = messages.iter().flat_map(bytes_of).collect::<Vec<u8>>();
        let mut packet = vec![FILLER; 2 + bytes.len()];
        assert_eq!(library::packet_pack(&bytes, &mut packet), 0);
        let (mut at, mut read, mut again, mut joined) = (2, vec![], vec![], vec![]);
        loop {
            let mut words = [POISON; 6];
            assert_eq!(library::packet_next(&packet, at, &mut words), 0);
            if words == [0; 6] {
                break;
            }
            let [kind, kiosk, keeper, ticket, owner, length] = words;
            read.push([kind, kiosk, keeper, ticket, owner]);
            let mut out = [0; 14];
            assert_eq!(library::write(&words[..5], &mut out), 0);
            again.extend_from_slice(&out[..length as usize]);
            joined.extend_from_slice(&packet[at..at + length as usize]);
            at += length as usize;
        }
        assert_eq!((at, read), (packet.len(), messages), "the same messages, to the end");
        assert!(joined == packet[2..] && again == bytes, "the parts are the packet, and their messages its bytes");
    }
}
