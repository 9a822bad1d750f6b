//! The slips program beside the model: behind each event, or the last, what every keeper and every kiosk knows, with `mail` the
//! messages that are kept, and with `boxes` these for each receiver.

use sigma_tests::author::any_script;
use sigma_tests::files::{answer, contents, failures, scripts};
use sigma_tests::gallery::{Gallery, Kept};
use sigma_tests::index::{self, Receiver};
use sigma_tests::kiosk::{HOLDING, REMAINDER};
use sigma_tests::model::{Message, INQUIRY, RELEASE, REQUEST, RESPONSE, YIELD};
use sigma_tests::random::Random;
use sigma_tests::records::Pair;
use sigma_tests::script::run_telling;
use std::collections::{BTreeMap, BTreeSet};
use std::path::Path;

/// What the program is asked for: slips behind each event, behind the last, or behind each with the mail or the boxes.
#[derive(Clone, Copy, Debug)]
enum Mode {
    Each,
    Last,
    Mail,
    Boxes,
}

/// What standard error says to other arguments.
const REFUSED: &str = "no 16 not last, mail or boxes\n";

const MODES: [Mode; 4] = [Mode::Each, Mode::Last, Mode::Mail, Mode::Boxes];

fn slips(script: &[u8], mode: Mode) -> String {
    let words: &[&str] = match mode {
        Mode::Each => &[],
        Mode::Last => &["last"],
        Mode::Mail => &["mail"],
        Mode::Boxes => &["boxes"],
    };
    let run = answer("slips", words, script);
    assert!(run.status.success() && run.stderr.is_empty(), "{}", text(&run.stderr));
    text(&run.stdout)
}

/// What the model prints in the program's place.
fn model(script: &[u8], mode: Mode) -> String {
    let with_mail = |gallery: &Gallery| told(gallery) + &mail(gallery);
    let with_boxes = |gallery: &Gallery| told(gallery) + &boxes(gallery);
    text(&match mode {
        Mode::Each => run_telling(script, &told, false),
        Mode::Last => run_telling(script, &told, true),
        Mode::Mail => run_telling(script, &with_mail, false),
        Mode::Boxes => run_telling(script, &with_boxes, false),
    })
}

fn pair(p: &Pair) -> String {
    format!("{},{}", p.kiosk, p.ticket)
}

/// The slips as docs/PROGRAMS.md has them.
fn told(gallery: &Gallery) -> String {
    let mut out = String::new();
    for (server, j) in gallery.servers.iter().zip(1..) {
        let waiting: String = server.record.line.iter().map(|p| format!(" {}", pair(p))).collect();
        let line = if waiting.is_empty() { waiting } else { format!(" line{waiting}") };
        out += &match &server.record.owner {
            _ if !server.up => format!("keeper {j} down\n"),
            None => format!("keeper {j} free\n"),
            Some(owner) => format!("keeper {j} owner {}{line}\n", pair(owner)),
        };
    }
    for (client, k) in gallery.clients.iter().zip(1..) {
        let kiosk = &client.record;
        let own = |j: &usize| kiosk.answers[*j] == Some(kiosk.pair());
        let keepers: String = (0..kiosk.answers.len()).filter(own).map(|j| format!(" {}", j + 1)).collect();
        let tickets = format!("ticket {} seen {}", kiosk.ticket, kiosk.seen.expect("a gallery's kiosk has a clock"));
        out += &match kiosk.section {
            _ if !client.living => format!("kiosk {k} fallen\n"),
            REMAINDER => format!("kiosk {k} remainder {tickets}\n"),
            HOLDING => format!("kiosk {k} holding {tickets} keepers{keepers}\n"),
            _ => format!("kiosk {k} trying {tickets} keepers{keepers}\n"),
        };
    }
    out
}

fn state(taken: bool) -> &'static str {
    if taken {
        "taken"
    } else {
        "waiting"
    }
}

/// The mail as docs/PROGRAMS.md has it: the messages that are kept, in the order of their numbers.
fn mail(gallery: &Gallery) -> String {
    let line = |kept: &Kept| {
        let Message { kind, kiosk, keeper, ticket, owner } = kept.message;
        let message = match kind {
            REQUEST => format!("REQUEST kiosk {kiosk} keeper {keeper} ticket {ticket}"),
            YIELD => format!("YIELD kiosk {kiosk} keeper {keeper} ticket {ticket}"),
            RELEASE => format!("RELEASE kiosk {kiosk} keeper {keeper} ticket {ticket}"),
            INQUIRY => format!("INQUIRY kiosk {kiosk} keeper {keeper} ticket {ticket}"),
            RESPONSE if owner == 0 => format!("RESPONSE keeper {keeper} kiosk {kiosk} free"),
            RESPONSE => format!("RESPONSE keeper {keeper} kiosk {kiosk} owner {owner},{ticket}"),
            _ => format!("CHECK keeper {keeper} kiosk {kiosk} ticket {ticket}"),
        };
        format!("mail {} {message} {}\n", kept.number, state(kept.taken))
    };
    gallery.kept.iter().map(line).collect()
}

/// The boxes as docs/PROGRAMS.md has them: for each keeper and then each kiosk, the messages kept for it, in the order of their
/// numbers.
fn boxes(gallery: &Gallery) -> String {
    let lists = index::lists(&gallery.kept);
    let entry = |&(number, taken): &(u32, bool)| format!(" {number} {}", state(taken));
    let line = |receiver: Receiver| {
        let entries: String = lists[receiver.place()].iter().map(entry).collect();
        format!("{receiver} mail{entries}\n")
    };
    let keepers = (1..=gallery.setting.n).map(Receiver::Keeper);
    keepers.chain((1..=gallery.clients.len() as u32).map(Receiver::Kiosk)).map(line).collect()
}

/// Whether a line is a receiver's box, and no slip.
fn is_box(line: &str) -> bool {
    matches!(line.split(' ').collect::<Vec<_>>()[..], ["keeper" | "kiosk", _, "mail", ..])
}

fn text(bytes: &[u8]) -> String {
    String::from_utf8_lossy(bytes).into_owned()
}

/// The program's output is the model's; of one that is not, the first line that differs is shown.
fn compare(script: &[u8], mode: Mode) -> String {
    let (ours, model) = (slips(script, mode), model(script, mode));
    let differs = ours.lines().zip(model.lines()).zip(1..).find(|((our, its), _)| our != its);
    let sizes = (ours.len(), model.len());
    assert!(ours == model, "{mode:?}: {differs:?}, {sizes:?} bytes, of the script\n{}", text(script));
    ours
}

/// The scripts of tests/scripts, and random ones.
fn many(seed: u64, random: usize) -> Vec<Vec<u8>> {
    let mut r = Random::new(seed);
    let mut all: Vec<Vec<u8>> = scripts().into_iter().map(|(_, script, _)| script).collect();
    all.extend((0..random).map(|_| any_script(&mut r)));
    all
}

#[test]
fn as_the_model_has_them() {
    let (mut lines, mut letters, mut boxes) = (0, 0, 0);
    for script in many(6, 150) {
        for mode in MODES {
            let ours = compare(&script, mode);
            lines += ours.lines().count();
            letters += ours.lines().filter(|line| line.starts_with("mail ")).count();
            boxes += ours.lines().filter(|line| is_box(line)).count();
        }
    }
    let others = lines - letters - boxes;
    assert!(others > 10_000 && letters > 100_000 && boxes > 100_000, "{others} lines, {letters} of mail, {boxes} boxes");
}

/// The lines that begin with none of these words.
fn without(words: &[&str], output: &str) -> String {
    let kept = |line: &&str| !words.iter().any(|word| line.starts_with(word));
    output.lines().filter(kept).map(|line| format!("{line}\n")).collect()
}

#[test]
fn without_slips_it_is_the_gallery() {
    for (name, script, expected) in scripts() {
        for mode in [Mode::Each, Mode::Boxes] {
            assert_eq!(without(&["keeper ", "kiosk "], &slips(&script, mode)), text(&expected), "{name}");
        }
    }
}

#[test]
fn without_mail_it_is_the_slips() {
    for script in many(9, 50) {
        assert!(without(&["mail "], &slips(&script, Mode::Mail)) == slips(&script, Mode::Each), "{}", text(&script));
    }
}

#[test]
fn without_boxes_it_is_the_slips() {
    for script in many(10, 50) {
        let with = slips(&script, Mode::Boxes);
        let slips_only: String = with.lines().filter(|line| !is_box(line)).map(|line| format!("{line}\n")).collect();
        assert!(slips_only == slips(&script, Mode::Each), "{}", text(&script));
    }
}

/// The output with boxes as that with mail tells it, each line of mail put into the box of the party named second.
fn sorted(with_mail: &str) -> String {
    let header: Vec<&str> = with_mail.lines().next().unwrap_or_default().split(' ').collect();
    let ["gallery", n, _, _, kiosks] = header[..] else {
        return with_mail.into();
    };
    let [n, kiosks] = [n, kiosks].map(|word| word.parse::<u32>().expect("a number"));
    let parties = (1..=n).map(|j| format!("keeper {j}")).chain((1..=kiosks).map(|k| format!("kiosk {k}")));
    let parties: Vec<String> = parties.collect();
    let (mut out, mut boxes, mut behind_event) = (String::new(), BTreeMap::<String, String>::new(), false);
    for line in with_mail.lines() {
        let words: Vec<&str> = line.split(' ').collect();
        match words[..] {
            ["mail", number, _, _, _, to, id, .., state] => {
                *boxes.entry(format!("{to} {id}")).or_default() += &format!(" {number} {state}");
                continue;
            }
            ["keeper" | "kiosk", ..] => (),
            // The next event's line, or the end: the mail of the last event is all there.
            _ if behind_event => {
                for party in &parties {
                    out += &format!("{party} mail{}\n", boxes.remove(party).unwrap_or_default());
                }
                assert!(boxes.is_empty(), "no such party: {boxes:?}");
            }
            _ => (),
        }
        behind_event = words[0] != "gallery";
        out += &format!("{line}\n");
    }
    out
}

#[test]
fn the_boxes_are_the_mail_sorted() {
    for script in many(11, 100) {
        let (boxes, sorted) = (slips(&script, Mode::Boxes), sorted(&slips(&script, Mode::Mail)));
        let differs = boxes.lines().zip(sorted.lines()).zip(1..).find(|((a, b), _)| a != b);
        assert!(boxes == sorted, "{differs:?} of the script\n{}", text(&script));
    }
}

/// A keeper's box is empty, or has taken messages, waiting ones or both; a kiosk's has only waiting ones.
#[test]
fn the_scripts_meet_every_form_of_a_box() {
    let mut forms = BTreeSet::new();
    for (_, script, _) in scripts() {
        for line in slips(&script, Mode::Boxes).lines().filter(|line| is_box(line)) {
            let words: Vec<&str> = line.split(' ').collect();
            let states: BTreeSet<&str> = words[3..].iter().skip(1).step_by(2).copied().collect();
            forms.insert([&[words[0]], &states.into_iter().collect::<Vec<_>>()[..]].concat().join(" "));
        }
    }
    let expected = ["keeper", "keeper taken", "keeper taken waiting", "keeper waiting", "kiosk", "kiosk waiting"];
    assert_eq!(forms, expected.map(String::from).into());
}

/// Every kind of message, with what it says and whether it was taken. What a kiosk takes is gone, so no answer and no check is taken.
#[test]
fn the_scripts_meet_every_form_of_mail() {
    let mut forms = BTreeSet::new();
    for (_, script, _) in scripts() {
        for line in slips(&script, Mode::Mail).lines() {
            if let ["mail", _, kind, _, _, _, _, says, .., state] = line.split(' ').collect::<Vec<_>>()[..] {
                forms.insert([kind, says, state].join(" "));
            }
        }
    }
    let from_kiosks = ["REQUEST", "YIELD", "RELEASE", "INQUIRY"];
    let mut expected: BTreeSet<String> =
        ["RESPONSE owner waiting", "RESPONSE free waiting", "CHECK ticket waiting"].map(String::from).into();
    expected.extend(from_kiosks.iter().flat_map(|kind| ["waiting", "taken"].map(|state| format!("{kind} ticket {state}"))));
    assert_eq!(forms, expected);
}

/// Below its ticket, equal to it, or above it: what a kiosk has seen, in each section. Who holds has been told its own ticket.
#[test]
fn the_scripts_meet_every_form_of_what_is_seen() {
    let mut forms = BTreeSet::new();
    for (_, script, _) in scripts() {
        for line in slips(&script, Mode::Each).lines() {
            if let ["kiosk", _, section, "ticket", ticket, "seen", seen, ..] = line.split(' ').collect::<Vec<_>>()[..] {
                let [ticket, seen] = [ticket, seen].map(|word| word.parse::<u32>().expect("a number"));
                forms.insert(format!("{section} {:?}", seen.cmp(&ticket)));
            }
        }
    }
    let expected = [
        "holding Equal",
        "holding Greater",
        "remainder Equal",
        "remainder Greater",
        "remainder Less",
        "trying Equal",
        "trying Less",
    ];
    assert_eq!(forms, expected.map(String::from).into());
}

fn written(file: &str) -> String {
    let path = Path::new(env!("CARGO_MANIFEST_DIR")).join("slips").join(file);
    std::fs::read_to_string(&path).unwrap_or_else(|e| panic!("{}: {e}", path.display()))
}

#[test]
fn whole_outputs() {
    let outputs = [
        ("two_holders", Mode::Each, "two_holders.expected"),
        ("yield_round", Mode::Last, "yield_round.expected"),
        ("fallen_owner", Mode::Last, "fallen_owner.expected"),
        ("newcomer", Mode::Last, "newcomer.expected"),
        ("two_holders", Mode::Mail, "two_holders.mail"),
        ("redelivery", Mode::Mail, "redelivery.mail"),
        ("two_holders", Mode::Boxes, "two_holders.boxes"),
        ("redelivery", Mode::Boxes, "redelivery.boxes"),
    ];
    for (name, mode, file) in outputs {
        let (script, expected) = (contents(&format!("{name}.script")), written(file));
        assert_eq!(model(&script, mode), expected, "the model, {file}");
        assert_eq!(slips(&script, mode), expected, "{file}");
    }
}

/// What is written down of the boxes is what is written down of the mail.
#[test]
fn written_boxes_are_the_written_mail() {
    for name in ["two_holders", "redelivery"] {
        assert_eq!(written(&format!("{name}.boxes")), sorted(&written(&format!("{name}.mail"))), "{name}");
    }
}

/// Scripts of many parts: lines that a part's end cuts are answered once, and slips stand behind no other.
#[test]
fn long_scripts() {
    let mut r = Random::new(8);
    let events = (0..12_000).map(|_| format!("{} {}\n", r.one_of(&["try", "exit", "take", "down", "up", "check"]), r.below(40)));
    let mixed = format!("setting 3 2 1 2\n{}take 1", events.collect::<String>());
    let bad = format!("setting 1 1 0 1\n{}\n{}", "x".repeat(200_000), "check 1\n".repeat(20_000));
    for script in [mixed, bad] {
        assert!(script.len() > 65_536);
        for mode in MODES {
            compare(script.as_bytes(), mode);
        }
    }
}

/// A gallery as full as it can be: at each of 31 keepers an owner and 15 in line, 16 kiosks trying, 512 messages kept. The program's
/// buffer has room for all of it.
#[test]
fn the_fullest_gallery_is_told_whole() {
    let mut script = "setting 31 21 10 16\n".to_string();
    for (kiosk, sent) in (1..=16).rev().zip((0..).step_by(62)) {
        // Its requests are the next 31 messages, their answers the 31 behind them.
        script += &format!("try {kiosk}\n");
        (sent + 1..=sent + 31).for_each(|i| script += &format!("take {i}\ndrop {i}\n"));
    }
    (1..=16).for_each(|keeper| script += &format!("check {keeper}\n"));
    let out = compare(script.as_bytes(), Mode::Mail);
    let (_, end) = out.split_once("\n1024 ok 1 0\n").expect("the last event");
    let count = |word: &str| end.lines().filter(|line| line.starts_with(word)).count();
    assert_eq!((count("keeper "), count("kiosk "), count("mail ")), (31, 16, 512));
    assert!(end.starts_with("keeper 1 owner 16,1 line 1,1 2,1 3,1 ") && end.len() > 30_000, "{} bytes", end.len());
    assert!(end.ends_with("\nmail 1008 CHECK keeper 16 kiosk 16 ticket 1 waiting\nend 1024 0 0\n"), "{end}");
    let out = compare(script.as_bytes(), Mode::Boxes);
    let (_, end) = out.split_once("\n1024 ok 1 0\n").expect("the last event");
    let boxes: Vec<&str> = end.lines().filter(|line| is_box(line)).collect();
    assert_eq!((boxes.len(), boxes.iter().flat_map(|line| line.split(' ')).filter(|&word| word == "waiting").count()), (47, 512));
}

/// All 512 messages in one box: a keeper that took them all, goes down and has them all waiting, and a kiosk with checks.
#[test]
fn the_fullest_boxes_are_told_whole() {
    // Turn i sends a request, its answer and a release: messages 3i - 2, 3i - 1 and 3i.
    let turn = |i: usize| format!("try 1\ntake {}\ntake {}\nexit 1\ntake {}\n", 3 * i - 2, 3 * i - 1, 3 * i);
    let keepers = format!("setting 1 1 0 1\n{}down 1\n", (1..=256).map(turn).collect::<String>());
    let kiosks = format!("setting 1 1 0 1\ntry 1\ntake 1\n{}drop 1\ncheck 1\n", "check 1\n".repeat(510));
    for (script, party, last) in
        [(keepers, "keeper 1 mail 1 waiting 3 waiting ", 768), (kiosks, "kiosk 1 mail 2 waiting 3 waiting ", 513)]
    {
        let out = compare(script.as_bytes(), Mode::Boxes);
        let full = out.lines().rfind(|line| line.starts_with(party)).expect("a box");
        assert_eq!(full.split(' ').count(), 3 + 2 * 512, "{full}");
        assert!(full.ends_with(&format!(" {last} waiting")), "{full}");
    }
}

/// Nothing is shown behind a line that is no longer read.
#[test]
fn a_million_lines_and_some_more() {
    let script = format!("setting 1 1 0 1\n{}", "\n".repeat(1_000_003));
    assert!(slips(script.as_bytes(), Mode::Each) == model(script.as_bytes(), Mode::Each));
}

#[test]
fn the_program_says_what_failed() {
    let said = failures("slips", b"setting 1 1 0 1\ntry 1\n");
    assert_eq!(said, ["write: No space left on device\n", "read: Is a directory\n"]);
}

#[test]
fn only_last_mail_and_boxes_are_arguments() {
    #[rustfmt::skip]
    let one = [
        "first", "las", "last1", "", "mai", "mail1", "mails", "Mail", "lail", "mast", "last mail", "box", "boxe", "boxes1",
        "boxess", "Boxes", "mail boxes", "boxes ", "foxes",
    ];
    let one = one.map(|word| vec![word]);
    #[rustfmt::skip]
    let two = [
        ["last", "last"], ["mail", "mail"], ["last", "mail"], ["mail", "last"], ["mail", ""], ["boxes", "boxes"],
        ["mail", "boxes"], ["boxes", "last"], ["boxes", ""],
    ];
    for words in one.into_iter().chain(two.map(Vec::from)) {
        let run = answer("slips", &words, b"setting 1 1 0 1\ntry 1\n");
        assert_eq!((text(&run.stdout), text(&run.stderr)), (String::new(), REFUSED.into()), "{words:?}");
    }
}
