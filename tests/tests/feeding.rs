//! The library's script calls, and the program over them, beside the model's gallery: the same bytes however the input is cut.

use sigma_tests::author::any_script;
use sigma_tests::files::{contents, failures, program, scripts};
use sigma_tests::library::{script_feed, script_finish, script_new};
use sigma_tests::random::Random;
use sigma_tests::script::run;
use sigma_tests::simulation::{self, slot_at, INDEX, STATE};
use std::collections::BTreeSet;
use std::fs::File;
use std::io::Write;
use std::path::Path;
use std::process::{Command, Stdio};
use std::thread;
use std::time::{Duration, Instant};

const WORDS: usize = STATE + simulation::WORDS;
const LINE: usize = 52;
const END: usize = 104;
const FILLER: u8 = 0x77;

fn new_state() -> Vec<u32> {
    let mut state = vec![0xAAAA_AAAA; WORDS];
    assert_eq!(script_new(&mut state), 0);
    state
}

/// The library's output, each call given so many of the bytes left and so much room.
fn fed(script: &[u8], mut cut: impl FnMut() -> (usize, usize)) -> Vec<u8> {
    let (mut state, mut left, mut output) = (new_state(), script, vec![]);
    let mut buffer = vec![FILLER; 1 << 16];
    let mut write = |buffer: &mut [u8], wrote: usize, room: usize| {
        assert!(wrote <= room && buffer[wrote..room].iter().all(|&b| b == FILLER), "the bytes behind stay");
        output.extend(&buffer[..wrote]);
        buffer[..wrote].fill(FILLER);
    };
    while !left.is_empty() {
        let (given, room) = cut();
        let given = given.clamp(1, left.len());
        let mut counts = [usize::MAX; 3];
        assert_eq!(script_feed(&mut state, &left[..given], &mut buffer[..room], &mut counts), 0);
        let [used, wrote, behind] = counts;
        assert!((1..=given).contains(&used) && behind == usize::MAX, "{used} of {given}");
        write(&mut buffer, wrote, room);
        left = &left[used..];
    }
    let mut counts = [usize::MAX; 2];
    let room = END + cut().1 - LINE;
    assert_eq!(script_finish(&mut state, &mut buffer[..room], &mut counts), 0);
    assert_eq!(counts[0], 0);
    write(&mut buffer, counts[1], room);
    output
}

fn whole(script: &[u8]) -> Vec<u8> {
    fed(script, || (usize::MAX, 1 << 15))
}

/// Parts and buffers of random sizes, the small ones often.
fn in_cuts(script: &[u8], r: &mut Random) -> Vec<u8> {
    fed(script, || {
        let (most, room) = (r.one_of(&[1, 7, 60, 700]), r.one_of(&[1, 4, 52, 900]));
        (1 + r.below(most) as usize, LINE + r.below(room) as usize)
    })
}

fn text(bytes: &[u8]) -> String {
    String::from_utf8_lossy(bytes).into_owned()
}

#[test]
fn each_script_in_parts_of_any_size() {
    let mut r = Random::new(31);
    for (name, script, expected) in scripts() {
        let expected = text(&expected);
        assert_eq!(text(&whole(&script)), expected, "{name}");
        assert_eq!(text(&fed(&script, || (1, LINE))), expected, "{name} byte by byte");
        for _ in 0..10 {
            assert_eq!(text(&in_cuts(&script, &mut r)), expected, "{name} in cuts");
        }
    }
}

fn random_scripts(count: usize) -> Vec<Vec<u8>> {
    let mut r = Random::new(2005);
    (0..count).map(|_| any_script(&mut r)).collect()
}

#[test]
fn random_scripts_print_what_the_model_prints() {
    let mut r = Random::new(58);
    let (mut first, mut event, mut accepted) = (BTreeSet::new(), BTreeSet::new(), 0);
    for script in random_scripts(2500) {
        let expected = text(&run(&script));
        assert_eq!(text(&whole(&script)), expected, "{}", text(&script));
        assert_eq!(text(&in_cuts(&script, &mut r)), expected, "in cuts: {}", text(&script));
        for line in expected.lines() {
            match line.split(' ').collect::<Vec<_>>()[..] {
                ["no", refusal] => drop(first.insert(refusal.to_string())),
                [_, "no", refusal] => drop(event.insert(refusal.to_string())),
                [_, "ok", _, _] => accepted += 1,
                _ => (),
            }
        }
    }
    assert_eq!(first, ["16", "7"].map(String::from).into());
    assert_eq!(event, ["10", "15", "16", "17", "18", "19", "20"].map(String::from).into());
    assert!(accepted > 50_000, "{accepted}");
}

/// 1,000,000 event lines, and the same with a line more.
fn million() -> (Vec<u8>, Vec<u8>) {
    let mut script = b"setting 1 1 0 2\n".to_vec();
    let round = b"try 1\n\ncheck 1\ntake 0\ndown 1\nup 1\nup 1\nmiss 1\nexit 1\ntry\n";
    (0..100_000).for_each(|_| script.extend(round));
    let more = [&script[..], b"fall 2\n"].concat();
    (script, more)
}

#[test]
fn a_million_event_lines_and_one_more() {
    let (script, more) = million();
    let expected = run(&script);
    assert!(expected.ends_with(b"\n1000000 no 16\nend 300001 0 1\n"), "{}", text(&expected[expected.len() - 60..]));
    assert!(whole(&script) == expected, "a million lines");
    assert!(whole(&more) == expected, "a line more");
}

/// A state behind some lines of a script, with the next one begun.
fn running() -> Vec<u32> {
    let mut state = new_state();
    let lines = contents("yield_round.script").split_inclusive(|&b| b == b'\n').take(9).collect::<Vec<_>>().concat();
    let (mut out, mut counts) = (vec![0; 1 << 16], [0; 2]);
    assert_eq!(script_feed(&mut state, &[&lines[..], b"tak"].concat(), &mut out, &mut counts), 0);
    state
}

/// Feed and finish on a copy of the state give this number, or 0 and whatever they do; a refused call changes nothing.
fn call(state: &[u32], room: usize, words: usize) -> [u32; 2] {
    let before = (state.to_vec(), [FILLER; 200], [7usize; 3]);
    let unchanged = |number: u32, after: (Vec<u32>, [u8; 200], [usize; 3])| {
        assert!(number == 0 || after == before, "{number} changed something");
        number
    };
    let (mut s, mut out, mut counts) = before.clone();
    let feed = script_feed(&mut s, b"take 1\ntry 2\n", &mut out[..room], &mut counts[..words]);
    let feed = unchanged(feed, (s, out, counts));
    let (mut s, mut out, mut counts) = before.clone();
    let finish = script_finish(&mut s, &mut out[..room], &mut counts[..words]);
    [feed, unchanged(finish, (s, out, counts))]
}

#[test]
fn refused_calls_change_nothing() {
    let state = running();
    assert_eq!(call(&state, 200, 3), [0, 0]);
    assert_eq!((call(&state, LINE, 2), call(&state, LINE - 1, 2), call(&state, 0, 2)), ([0, 6], [6, 6], [6, 6]));
    assert_eq!((call(&state, END, 2), call(&state, END - 1, 2)), ([0, 0], [0, 6]));
    assert_eq!((call(&state, 200, 1), call(&state, 200, 0)), ([6, 6], [6, 6]));
    // Without the index it is the state of a script from before there was one.
    for length in [0, 1, STATE, STATE + INDEX, WORDS - 1, WORDS + 1] {
        let mut other = state.clone();
        other.resize(length, 0);
        // 21 stands before 6.
        assert_eq!((call(&other, 200, 2), call(&other, 0, 0)), ([21, 21], [21, 21]), "{length} words");
        let before = other.clone();
        assert_eq!((script_new(&mut other), &other), (7, &before), "{length} words");
    }
}

/// Word 0 is the stage, 1 to 3 the counts, 4 the line's length, 5 to 45 its bytes. Behind them is the simulation: n, m, f, the
/// kiosks, the messages kept, the last message's number, the most keepers down; then the kiosks, the keepers, the messages and
/// the index.
#[test]
fn broken_states() {
    let state = running();
    let [answered, accepted, holders] = [state[1], state[2], state[3]];
    assert!(state[0] == 1 && accepted <= answered && holders <= 16 && state[4] == 3);
    #[rustfmt::skip]
    let broken = [
        (0, 3), (0, u32::MAX), (1, 1_000_001), (1, accepted - 1), (2, answered + 1), (3, 17), (4, 42), (5, 256), (45, 256),
        (46, 0), (46, 32), (46, 255), (47, 0), (48, 32), (49, 0), (49, 17), (50, 513), (51, 0), (52, 32),
        (STATE + slot_at(0), 0), (STATE + INDEX - 1, 1),
    ];
    for (at, word) in broken {
        let mut wrong = state.clone();
        wrong[at] = word;
        assert_eq!((call(&wrong, 200, 2), call(&wrong, 0, 0)), ([21, 21], [21, 21]), "word {at} is {word}");
    }
}

/// Every other word in a running script's index, by both calls.
#[test]
fn no_word_of_the_index_can_be_another() {
    let state = running();
    for at in STATE + INDEX..WORDS {
        for word in [state[at].wrapping_add(1), state[at].wrapping_sub(1)] {
            let mut wrong = state.clone();
            wrong[at] = word;
            assert_eq!(call(&wrong, 200, 2), [21, 21], "word {at} is {word}");
        }
    }
}

/// Whatever a word is set to, the state is refused or it works: nothing runs out of bounds.
#[test]
fn damaged_states() {
    let mut r = Random::new(21);
    let state = running();
    let (mut refused, mut worked) = (0, 0);
    for _ in 0..20_000 {
        let mut wrong = state.clone();
        for _ in 0..1 + r.below(3) {
            let at = if r.below(3) == 0 { r.below(60) } else { r.below(WORDS as u64) } as usize;
            wrong[at] = r.one_of(&[0, 1, 2, 31, 32, 255, 256, u32::MAX, wrong[at].wrapping_add(1), wrong[at].wrapping_sub(1)]);
        }
        match call(&wrong, 200, 2) {
            [21, 21] => refused += 1,
            [0, 0] => worked += 1,
            other => panic!("{other:?}"),
        }
    }
    assert!(refused > 5000 && worked > 500, "{refused} refused, {worked} worked");
}

// The program ------------------------------------------------------------------------------------------------------------------

fn file_of(name: &str, bytes: &[u8]) -> File {
    let path = Path::new(env!("CARGO_TARGET_TMPDIR")).join(name);
    std::fs::write(&path, bytes).expect("a file for the program's input");
    File::open(path).expect("it is there")
}

#[test]
fn the_program_prints_the_same() {
    let program = program().expect("run `rt run` in crates/gallery first");
    let gallery = |script: &[u8]| {
        let run = Command::new(&program).stdin(file_of("script", script)).output().expect("it runs");
        assert!(run.status.success() && run.stderr.is_empty(), "{}", text(&run.stderr));
        text(&run.stdout)
    };
    for (name, script, expected) in scripts() {
        assert_eq!(gallery(&script), text(&expected), "{name}");
    }
    for script in random_scripts(200) {
        assert_eq!(gallery(&script), text(&run(&script)), "{}", text(&script));
    }
}

/// A pipe gives short reads. After 1,000,000 event lines the program ends, though its input goes on.
#[test]
fn the_program_reads_no_more_than_a_million_lines() {
    let program = program().expect("run `rt run` in crates/gallery first");
    let path = Path::new(env!("CARGO_TARGET_TMPDIR")).join("printed");
    let printed = File::create(&path).expect("a file for the output");
    let mut child = Command::new(program).stdin(Stdio::piped()).stdout(printed).spawn().expect("it runs");
    let mut input = child.stdin.take().expect("a pipe");
    let (script, more) = million();
    let writer = thread::spawn(move || {
        let parts = more.chunks(1009).map(|part| input.write_all(part)).take_while(Result::is_ok).count();
        (parts, input)
    });
    let start = Instant::now();
    while child.try_wait().expect("its status").is_none() {
        if start.elapsed() > Duration::from_secs(120) {
            child.kill().expect("it can be ended");
            panic!("the program still reads");
        }
        thread::sleep(Duration::from_millis(10));
    }
    drop(writer.join().expect("the writer ends"));
    assert!(std::fs::read(path).expect("the output") == run(&script));
}

#[test]
fn the_program_says_what_failed() {
    let said = failures("gallery", b"setting 1 1 0 1\ntry 1\n");
    assert_eq!(said, ["write: No space left on device\n", "read: Is a directory\n"]);
}
