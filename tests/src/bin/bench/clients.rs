//! A client's call by the number of its servers: it tries, takes a RESPONSE, or exits. An earlier library's calls are timed in the
//! same rounds where there is one (`before.rs`); their ratio is the time now over the time before.

use crate::before::Before;
use crate::{best, each, row};
use sigma_tests::both::ROOM;
use sigma_tests::model::RESPONSE;
use sigma_tests::players::GENERATIONS;
use sigma_tests::{kiosk, library};

/// n, m and how often a client comes and goes in a round.
const COURSES: [(u32, u32, usize); 3] = [(4, 3, 50_000), (31, 21, 10_000), (255, 170, 300)];

type New<'a> = &'a dyn Fn(u32, u32, u32, &mut [u32]) -> u32;
type Step<'a> = &'a dyn Fn(&mut [u32], &mut [u8], &mut [u32]) -> u32;
type Message<'a> = &'a dyn Fn(&mut [u32], &[u32], &mut [u8], &mut [u32]) -> u32;

/// The words of a record, and the calls on it.
struct Calls<'a> {
    words: usize,
    new: New<'a>,
    begin: Step<'a>,
    message: Message<'a>,
    exit: Step<'a>,
}

/// Calls of one visit: a try, a round of responses of which not all are its own, a round of those that are, and an exit.
fn calls(m: u32) -> usize {
    2 + 2 * m as usize
}

fn visits(calls: &Calls, n: u32, m: u32, visits: usize) -> u64 {
    let (mut record, mut out, mut sent, mut sum) = (vec![0; calls.words], vec![0; ROOM], [0; 2], 0u64);
    assert_eq!((calls.new)(n, m, 5, &mut record), 0);
    let mut note = |refusal: u32, sent: &[u32]| {
        assert_eq!(refusal, 0);
        sum = sum.wrapping_mul(31).wrapping_add(sent[1].into());
    };
    for _ in 0..visits {
        note((calls.begin)(&mut record, &mut out, &mut sent), &sent);
        let timestamp = record[4];
        for (j, round) in (0..2).flat_map(|round| (1..=m).map(move |j| (j, round))) {
            let owner = if round == 1 || 2 * j <= m { 5 } else { 2 };
            note((calls.message)(&mut record, &[RESPONSE, 5, j, timestamp, owner], &mut out, &mut sent), &sent);
        }
        note((calls.exit)(&mut record, &mut out, &mut sent), &sent);
    }
    record[..5].iter().fold(sum, |sum, &word| sum.wrapping_mul(31).wrapping_add(word.into()))
}

pub fn run() {
    let before = Before::open();
    let ours = Calls {
        words: kiosk::WORDS,
        new: &library::client_new,
        begin: &library::client_begin,
        message: &library::client_message,
        exit: &library::client_exit,
    };
    let theirs =
        Calls { words: kiosk::WORDS, new: &kiosk::new, begin: &kiosk::try_wall, message: &kiosk::message, exit: &kiosk::exit };
    for (n, m, times) in COURSES {
        let (name, count) = (format!("client's call, n {n}, m {m}"), times * calls(m));
        let mut our_work = || visits(&ours, n, m, times);
        let mut their_work = || visits(&theirs, n, m, times);
        let forms = GENERATIONS.map(|players| players.kiosk_words());
        match before.and_then(|before| Some((before, before.words(n, m, &forms)?))) {
            None => {
                let [a, b] = best(&name, [&mut our_work, &mut their_work]);
                row(&name, count, a, b);
            }
            Some((old, words)) => {
                let earlier = Calls {
                    words,
                    new: &|n, m, id, record| old.client_new(n, m, id, record),
                    begin: &|record, out, sent| old.client_begin(record, out, sent),
                    message: &|record, message, out, sent| old.client_message(record, message, out, sent),
                    exit: &|record, out, sent| old.client_exit(record, out, sent),
                };
                let [a, b, c] = best(&name, [&mut our_work, &mut their_work, &mut || visits(&earlier, n, m, times)]);
                row(&name, count, a, b);
                let ratio = a.as_secs_f64() / c.as_secs_f64();
                println!("{name}, before and after: {:.1} ns, {:.1} ns, ratio {ratio:.2}", each(c, count), each(a, count));
            }
        }
    }
}
