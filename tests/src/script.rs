//! The gallery program: document 01, 'The gallery script', from a whole script to its whole output.

use crate::fault::Fault;
use crate::gallery::{Event, Gallery, Kind, GALLERY};
use crate::players::{Players, NEW};
use crate::setting::Setting;

/// Bytes of a line before its newline.
const LONGEST: usize = 40;
/// Event lines that are read.
const EVENTS: usize = 1_000_000;

const NAMES: [(&[u8], Kind); 9] = [
    (b"try", Kind::Try),
    (b"exit", Kind::Exit),
    (b"fall", Kind::Fall),
    (b"down", Kind::Down),
    (b"up", Kind::Up),
    (b"take", Kind::Take),
    (b"drop", Kind::Drop),
    (b"miss", Kind::Miss),
    (b"check", Kind::Check),
];

/// The lines without their newlines; behind the last newline there is none.
pub fn lines(script: &[u8]) -> impl Iterator<Item = &[u8]> {
    script.split_inclusive(|&b| b == b'\n').map(|line| line.strip_suffix(b"\n").unwrap_or(line))
}

fn words(line: &[u8]) -> Result<Vec<&[u8]>, u32> {
    if line.len() > LONGEST {
        return Err(16);
    }
    Ok(line.split(|&b| b == b' ').collect())
}

/// Decimal without leading zeros, up to 4,294,967,295.
fn number(word: &[u8]) -> Result<u32, u32> {
    let digits = !word.is_empty() && word.iter().all(|b| b.is_ascii_digit());
    if !digits || (word[0] == b'0' && word.len() > 1) {
        return Err(16);
    }
    String::from_utf8_lossy(word).parse().map_err(|_| 16)
}

/// n, m, f and the kiosks, in range or not.
pub fn first(line: &[u8]) -> Result<[u32; 4], u32> {
    let &[b"setting", n, m, f, kiosks] = words(line)?.as_slice() else {
        return Err(16);
    };
    Ok([number(n)?, number(m)?, number(f)?, number(kiosks)?])
}

/// A line that is a number alone.
pub fn alone(line: &[u8]) -> Result<u32, u32> {
    let &[word] = words(line)?.as_slice() else {
        return Err(16);
    };
    number(word)
}

pub fn event(line: &[u8]) -> Result<Event, u32> {
    let &[name, of] = words(line)?.as_slice() else {
        return Err(16);
    };
    let &(_, kind) = NAMES.iter().find(|(known, _)| *known == name).ok_or(16u32)?;
    Ok(Event { kind, number: u64::from(number(of)?) })
}

/// An event as the line that asks for it, without the newline.
pub fn line_of(event: Event) -> String {
    let (name, _) = NAMES[event.kind as usize - 1];
    format!("{} {}", String::from_utf8_lossy(name), event.number)
}

/// What is added behind an event's line, and behind the last one.
type Shown<'a> = &'a dyn Fn(&Gallery) -> String;

/// The program's output with kiosks of these players, or the refusal of the first line.
fn output(script: &[u8], players: Players, fault: Fault, each: Shown, last: Shown) -> Result<String, u32> {
    let mut lines = lines(script);
    let [n, m, f, kiosks] = first(lines.next().ok_or(16u32)?)?;
    let mut gallery = Gallery::of(players, Setting::new(n, m, f)?, kiosks, GALLERY)?.with(fault);
    let mut out = format!("gallery {n} {m} {f} {kiosks}\n");
    let mut any = false;
    for (line, number) in lines.take(EVENTS).zip(1..) {
        any = true;
        out += &match event(line).and_then(|event| gallery.event(event)) {
            Ok(sent) => format!("{number} ok {sent} {}\n", gallery.holders()),
            Err(refusal) => format!("{number} no {refusal}\n"),
        };
        out += &each(&gallery);
    }
    if any {
        out += &last(&gallery);
    }
    out += &format!("end {} {} {}\n", gallery.accepted, gallery.most_holders, gallery.most_down);
    Ok(out)
}

fn printed(output: Result<String, u32>) -> Vec<u8> {
    output.unwrap_or_else(|refusal| format!("no {refusal}\n")).into_bytes()
}

pub fn run(script: &[u8]) -> Vec<u8> {
    run_with(script, Fault::None)
}

pub fn run_with(script: &[u8], fault: Fault) -> Vec<u8> {
    let nothing = |_: &Gallery| String::new();
    printed(output(script, NEW, fault, &nothing, &nothing))
}

/// As the program of these players' time printed it.
pub fn run_by(players: Players, script: &[u8]) -> Vec<u8> {
    let nothing = |_: &Gallery| String::new();
    printed(output(script, players, Fault::None, &nothing, &nothing))
}

/// The same, with what is told of the gallery behind each event's line, or behind the last one only.
pub fn run_telling(script: &[u8], told: &dyn Fn(&Gallery) -> String, only_last: bool) -> Vec<u8> {
    let nothing = |_: &Gallery| String::new();
    let (each, last): (Shown, Shown) = if only_last { (&nothing, told) } else { (told, &nothing) };
    printed(output(script, NEW, Fault::None, each, last))
}
