//! All the short runs: document 02, L5, from the two lines of input to the whole output. `list` finds them by their length, each from
//! a replay of the one that it continues, and puts them in order when all are there; `quick` goes from run to run in the listing's
//! own order, and is what the benchmark times.

use crate::gallery::{Event, Gallery, Kind, GALLERY, RUN};
use crate::script::{alone, first, line_of, lines};
use crate::setting::Setting;
use std::cmp::Ordering;
use std::io::{self, Write};

/// "up to 2 kiosks, 3 keepers and 6 events"
const KIOSKS: u32 = 2;
const KEEPERS: u32 = 3;
const EVENTS: u32 = 6;

/// In the order of document 01's event names.
pub const KINDS: [Kind; 9] =
    [Kind::Try, Kind::Exit, Kind::Fall, Kind::Down, Kind::Up, Kind::Take, Kind::Drop, Kind::Miss, Kind::Check];

/// What the two lines ask for, within the sizes.
#[derive(Clone, Copy, Debug, PartialEq, Eq)]
pub struct Asked {
    pub setting: Setting,
    pub kiosks: u32,
    /// The most events of a run.
    pub events: u32,
}

/// The last line: the runs, and those with two living holders at some moment.
#[derive(Clone, Copy, Debug, Default, PartialEq, Eq)]
pub struct Counts {
    pub runs: u64,
    pub two_holders: u64,
}

impl Asked {
    /// 16 for either line, then 7, then 23. Behind the second line nothing is looked at.
    pub fn read(input: &[u8]) -> Result<Asked, u32> {
        let mut lines = lines(input);
        let [n, m, f, kiosks] = first(lines.next().ok_or(16u32)?)?;
        let events = alone(lines.next().ok_or(16u32)?)?;
        let setting = Setting::new(n, m, f)?;
        Gallery::new(setting, kiosks, GALLERY)?;
        if n > KEEPERS || kiosks > KIOSKS || events > EVENTS {
            return Err(23);
        }
        Ok(Asked { setting, kiosks, events })
    }

    /// All that are within the sizes and have so many events: 40.
    pub fn all(events: u32) -> Vec<Asked> {
        let with = |setting| (1..=KIOSKS).map(move |kiosks| Asked { setting, kiosks, events });
        Setting::all(KEEPERS).into_iter().flat_map(with).collect()
    }

    pub fn input(&self) -> Vec<u8> {
        let Asked { setting: Setting { n, m, f }, kiosks, events } = self;
        format!("setting {n} {m} {f} {kiosks}\n{events}\n").into_bytes()
    }

    pub fn start(&self) -> Gallery {
        Gallery::new(self.setting, self.kiosks, RUN).expect("in range")
    }

    /// "A list with more than f different keepers ever down within one epoch is no run."
    pub fn within_losses(&self, gallery: &Gallery) -> bool {
        gallery.most_down <= self.setting.f as usize
    }

    /// Every event that could be accepted: any other number is refused 17, whatever its kind.
    fn candidates(&self, gallery: &Gallery) -> impl Iterator<Item = Event> {
        let most = gallery.last.max(self.setting.n.into()).max(self.kiosks.into());
        KINDS.into_iter().flat_map(move |kind| (0..=most).map(move |number| Event { kind, number }))
    }
}

/// A run's events, in as many of the places as it has: millions of them are kept.
#[derive(Clone, Copy)]
struct Run {
    length: u8,
    places: [(Kind, u8); EVENTS as usize],
}

impl Run {
    const EMPTY: Run = Run { length: 0, places: [(Kind::Try, 0); EVENTS as usize] };

    fn events(&self) -> &[(Kind, u8)] {
        &self.places[..self.length.into()]
    }

    fn then(mut self, event: Event) -> Run {
        self.places[usize::from(self.length)] = (event.kind, u8::try_from(event.number).expect("a few messages"));
        self.length += 1;
        self
    }

    fn replay(&self, asked: &Asked) -> Gallery {
        let mut gallery = asked.start();
        for &(kind, number) in self.events() {
            gallery.event(Event { kind, number: number.into() }).expect("all are accepted");
        }
        gallery
    }

    /// "a run before its longer ones, else in the order of document 01's event names and then ascending numbers"
    fn order(&self, other: &Run) -> Ordering {
        match self.events().iter().zip(other.events()).find(|(a, b)| a != b) {
            Some(((a, i), (b, j))) => (*a as u32).cmp(&(*b as u32)).then(i.cmp(j)),
            None => self.length.cmp(&other.length),
        }
    }
}

/// All runs, in order, and how many have two holders.
fn found(asked: &Asked) -> (Vec<Run>, Counts) {
    // What is behind `at` has not been continued yet. No run is found twice: it continues one other, by one event.
    let (mut runs, mut at, mut two_holders) = (vec![Run::EMPTY], 0, 0);
    while at < runs.len() && u32::from(runs[at].length) < asked.events {
        let run = runs[at];
        let gallery = run.replay(asked);
        let mut next = gallery.clone();
        for event in asked.candidates(&gallery) {
            // A refused event has changed nothing.
            if next.event(event).is_ok() {
                if asked.within_losses(&next) {
                    runs.push(run.then(event));
                    two_holders += u64::from(next.most_holders >= 2);
                }
                next = gallery.clone();
            }
        }
        at += 1;
    }
    runs.sort_unstable_by(Run::order);
    let counts = Counts { runs: runs.len() as u64, two_holders };
    (runs, counts)
}

fn last_line(counts: Counts, out: &mut dyn Write) -> io::Result<()> {
    writeln!(out, "{} {}", counts.runs, counts.two_holders)
}

/// The whole listing.
pub fn list(asked: &Asked, out: &mut dyn Write) -> io::Result<Counts> {
    let (runs, counts) = found(asked);
    for run in runs {
        for (at, &(kind, number)) in run.events().iter().enumerate() {
            let comma = if at == 0 { "" } else { "," };
            write!(out, "{comma}{}", line_of(Event { kind, number: number.into() }))?;
        }
        out.write_all(b"\n")?;
    }
    last_line(counts, out)?;
    Ok(counts)
}

/// The program's output for these bytes of input.
pub fn runs(input: &[u8]) -> Vec<u8> {
    let mut out = vec![];
    match Asked::read(input) {
        Ok(asked) => drop(list(&asked, &mut out).expect("a vector takes all")),
        Err(refusal) => out.extend(format!("no {refusal}\n").into_bytes()),
    }
    out
}

/// The same listing, from each run to those that continue it.
struct Quick<'a> {
    asked: &'a Asked,
    /// The run, as it is printed.
    line: Vec<u8>,
    counts: Counts,
    out: &'a mut dyn Write,
}

impl Quick<'_> {
    /// Lists the run that led to this gallery, and what follows it with so many events left to go.
    fn follow(&mut self, gallery: &Gallery, left: u32) -> io::Result<()> {
        self.line.push(b'\n');
        self.out.write_all(&self.line)?;
        self.line.pop();
        self.counts.runs += 1;
        self.counts.two_holders += u64::from(gallery.most_holders >= 2);
        if left == 0 {
            return Ok(());
        }
        let length = self.line.len();
        let comma = if length == 0 { "" } else { "," };
        let mut next = gallery.clone();
        for event in self.asked.candidates(gallery) {
            if next.event(event).is_ok() {
                if self.asked.within_losses(&next) {
                    write!(self.line, "{comma}{}", line_of(event))?;
                    self.follow(&next, left - 1)?;
                    self.line.truncate(length);
                }
                next = gallery.clone();
            }
        }
        Ok(())
    }
}

pub fn quick(asked: &Asked, out: &mut dyn Write) -> io::Result<Counts> {
    let mut quick = Quick { asked, line: vec![], counts: Counts::default(), out };
    quick.follow(&asked.start(), asked.events)?;
    last_line(quick.counts, quick.out)?;
    Ok(quick.counts)
}

/// A listing by its length and checksum (64-bit FNV-1a), for those that are too large to keep.
#[derive(Clone, Copy, Debug, PartialEq, Eq)]
pub struct Digest {
    pub bytes: u64,
    pub sum: u64,
}

impl Default for Digest {
    fn default() -> Digest {
        Digest { bytes: 0, sum: 0xCBF2_9CE4_8422_2325 }
    }
}

impl Write for Digest {
    fn write(&mut self, bytes: &[u8]) -> io::Result<usize> {
        self.bytes += bytes.len() as u64;
        self.sum = bytes.iter().fold(self.sum, |sum, &b| (sum ^ u64::from(b)).wrapping_mul(0x100_0000_01B3));
        Ok(bytes.len())
    }

    fn flush(&mut self) -> io::Result<()> {
        Ok(())
    }
}
