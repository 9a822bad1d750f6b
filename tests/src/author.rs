//! Scripts that no person wrote: random ones, valid and malformed, and the long ones of the benchmark.

use crate::gallery::{Event, Gallery, Kind, GALLERY, KIOSKS};
use crate::kiosk::{HOLDING, REMAINDER};
use crate::model::{Message, INQUIRY, RESPONSE};
use crate::random::Random;
use crate::script::line_of;
use crate::setting::Setting;

const KINDS: [Kind; 9] =
    [Kind::Try, Kind::Exit, Kind::Fall, Kind::Down, Kind::Up, Kind::Take, Kind::Drop, Kind::Miss, Kind::Check];

/// The number of a message that waits, or one that may not be there.
fn message(gallery: &Gallery, r: &mut Random) -> u64 {
    let waiting: Vec<u64> = gallery.kept.iter().filter(|kept| !kept.taken).map(|kept| kept.number).collect();
    if waiting.is_empty() || r.below(12) == 0 {
        return r.below(gallery.last + 3);
    }
    r.one_of(&waiting)
}

pub fn any_event(gallery: &Gallery, r: &mut Random) -> Event {
    let usual = [Kind::Take, Kind::Take, Kind::Take, Kind::Take, Kind::Take, Kind::Try, Kind::Exit];
    let kind = if r.below(3) == 0 { r.one_of(&KINDS) } else { r.one_of(&usual) };
    let number = match kind {
        Kind::Take | Kind::Drop => message(gallery, r),
        Kind::Try | Kind::Exit | Kind::Fall => r.below(gallery.clients.len() as u64 + 2),
        _ => r.below(gallery.servers.len() as u64 + 2),
    };
    Event { kind, number }
}

/// The next event of a calm course: mostly what waits for a party that is there is taken, who holds leaves and who wants nothing tries,
/// the first kiosk most often: it has turn upon turn, and the others see its tickets. An INQUIRY is left where it is, for a kiosk that
/// waits sends one after the other.
fn calm_event(gallery: &Gallery, r: &mut Random) -> Event {
    let in_section = |section: u32| -> Vec<u64> {
        let clients = gallery.clients.iter().filter(|client| client.living && client.record.section == section);
        clients.map(|client| client.record.id.into()).collect()
    };
    let there = |message: &Message| match message.kind {
        INQUIRY => false,
        RESPONSE.. => gallery.clients[message.kiosk as usize - 1].living,
        _ => gallery.servers[message.keeper as usize - 1].up,
    };
    let waiting: Vec<u64> =
        gallery.kept.iter().filter(|kept| !kept.taken && there(&kept.message)).map(|kept| kept.number).collect();
    let (idle, holders) = (in_section(REMAINDER), in_section(HOLDING));
    let first = r.below(3) > 0;
    match r.below(60) {
        0 => any_event(gallery, r),
        1..=30 if !waiting.is_empty() => Event { kind: Kind::Take, number: r.one_of(&waiting) },
        ..=45 if !holders.is_empty() => Event { kind: Kind::Exit, number: r.one_of(&holders) },
        _ if !idle.is_empty() => Event { kind: Kind::Try, number: if first { idle[0] } else { r.one_of(&idle) } },
        _ if !waiting.is_empty() => Event { kind: Kind::Take, number: r.one_of(&waiting) },
        _ => any_event(gallery, r),
    }
}

/// A small setting, in which turns are short, with two kiosks at least.
fn calm_setting(r: &mut Random) -> (Setting, u32) {
    let n = 1 + r.below(3) as u32;
    (Setting { n, m: n - n / 3, f: 0 }, 2 + r.below(3) as u32)
}

/// A line that something happened to: most often it is a bad one then.
fn damaged(line: &str, r: &mut Random) -> Vec<u8> {
    let mut bytes = line.as_bytes().to_vec();
    let at = r.below(bytes.len() as u64) as usize;
    match r.below(10) {
        0 => bytes[at] = r.damage(bytes[at]),
        1 => drop(bytes.remove(at)),
        2 => bytes.insert(at, r.one_of(b" 0159\r\tx")),
        3 => bytes.push(b' '),
        4 => bytes.clear(),
        5 => bytes.extend(vec![b'7'; r.below(60) as usize]),
        6 => bytes.resize(38 + r.below(5) as usize, b' '),
        7 => bytes.push(b'\n'),
        8 => bytes = b"take 4294967296".to_vec(),
        _ => bytes = b"take 4294967295".to_vec(),
    }
    bytes
}

fn push_line(script: &mut Vec<u8>, line: &str, damage: u64, r: &mut Random) {
    if r.below(100) < damage {
        script.extend(damaged(line, r));
    } else {
        script.extend(line.as_bytes());
    }
    script.push(b'\n');
}

/// A setting and kiosks in range; now and then as many kiosks and keepers as a gallery can have, which fill it.
pub fn any_setting(r: &mut Random) -> (Setting, u32) {
    if r.below(12) == 0 {
        return (Setting { n: 31, m: 21, f: 10 }, 16);
    }
    let most = r.one_of(&[3, 5, 9, 31]);
    let n = 1 + r.below(most) as u32;
    let setting = Setting { n, m: 1 + r.below(n.into()) as u32, f: r.below(u64::from(n) + 1) as u32 };
    let kiosks = r.one_of(&[2, 3, 5, 16]);
    (setting, 1 + r.below(kiosks) as u32)
}

/// A random script of up to 300 lines, of which one in four is calm. Of every hundred lines `damage` are damaged.
pub fn any_script(r: &mut Random) -> Vec<u8> {
    let damage = r.one_of(&[0, 0, 0, 10, 30]);
    let calm = r.below(4) == 0;
    let (setting, kiosks) = if calm { calm_setting(r) } else { any_setting(r) };
    let Setting { n, m, f } = setting;
    let mut script = vec![];
    let too_many = [32, 33, 255, 256].map(|n| format!("setting {n} {m} {f} {kiosks}"));
    let out_of_range = [format!("setting {n} {m} {f} 17"), format!("setting {n} 0 {f} 1")];
    let wrong = [&too_many[..], &out_of_range].concat();
    let first = if r.below(20) == 0 { wrong[r.below(6) as usize].clone() } else { format!("setting {n} {m} {f} {kiosks}") };
    push_line(&mut script, &first, damage / 3, r);
    let mut gallery = Gallery::new(setting, kiosks, GALLERY).expect("in range");
    let least = if calm { 150 } else { 0 };
    for _ in 0..least + r.below(300 - least) {
        let event = if calm { calm_event(&gallery, r) } else { any_event(&gallery, r) };
        // A refused event changes nothing.
        let _ = gallery.event(event);
        push_line(&mut script, &line_of(event), damage, r);
    }
    match r.below(8) {
        0 | 1 => drop(script.pop()),
        2 => script.truncate(r.below(script.len() as u64 + 1) as usize),
        3 => script.push(b'\n'),
        _ => (),
    }
    script
}

/// A script as it is written, of so many more event lines, all accepted.
struct Author {
    gallery: Gallery,
    script: Vec<u8>,
    left: usize,
}

impl Author {
    /// With 16 kiosks.
    fn new(setting: Setting, lines: usize) -> Author {
        let Setting { n, m, f } = setting;
        let gallery = Gallery::new(setting, KIOSKS, GALLERY).expect("in range");
        Author { gallery, script: format!("setting {n} {m} {f} {KIOSKS}\n").into_bytes(), left: lines }
    }

    fn give(&mut self, kind: Kind, number: u64) {
        if self.left == 0 {
            return;
        }
        if let Err(refusal) = self.offer(kind, number) {
            panic!("{kind:?} {number} is refused {refusal}");
        }
    }

    /// The event, if it is accepted.
    fn offer(&mut self, kind: Kind, number: u64) -> Result<(), u32> {
        let event = Event { kind, number };
        self.gallery.event(event)?;
        self.script.extend(line_of(event).as_bytes());
        self.script.push(b'\n');
        self.left -= 1;
        Ok(())
    }

    /// The waiting messages, in their order, and what they call forth.
    fn take_all(&mut self) {
        while let Some(next) = self.gallery.kept.iter().find(|kept| !kept.taken).map(|kept| kept.number) {
            if self.left == 0 {
                return;
            }
            self.give(Kind::Take, next);
        }
    }

    fn drop_all(&mut self) {
        for kept in self.gallery.kept.clone() {
            self.give(Kind::Drop, kept.number);
        }
    }

    /// A kiosk's way to the wall and back, alone.
    fn turn(&mut self, kiosk: u64) {
        self.give(Kind::Try, kiosk);
        self.take_all();
        self.give(Kind::Exit, kiosk);
        self.take_all();
    }

    /// The newest message that waits for a party that can take it.
    fn newest(&self) -> Option<u64> {
        let up = |message: &Message| message.kind >= RESPONSE || self.gallery.servers[message.keeper as usize - 1].up;
        self.gallery.kept.iter().rfind(|kept| !kept.taken && up(&kept.message)).map(|kept| kept.number)
    }

    /// One event, of those that are accepted and leave enough messages for the restarts.
    fn work(&mut self, r: &mut Random) {
        while self.left > 0 {
            let Gallery { kept, clients, servers, .. } = &self.gallery;
            let any = r.one_of(kept);
            let kiosk = r.below(clients.len() as u64);
            let (kind, number) = match r.below(16) {
                _ if kept.len() > 480 => (Kind::Drop, kept[0].number),
                0 if clients[kiosk as usize].record.section == HOLDING => (Kind::Exit, kiosk + 1),
                0 => (Kind::Try, kiosk + 1),
                1 => (Kind::Check, 1 + r.below(servers.len() as u64)),
                2..=5 => (Kind::Take, any.number),
                _ => (Kind::Take, self.newest().unwrap_or(0)),
            };
            let spare = kept.len() > RESTARTS_KEEP;
            if (spare || kind != Kind::Take) && self.offer(kind, number).is_ok() {
                return;
            }
        }
    }
}

/// So many event lines with 31 keepers, threshold 21 and 16 kiosks in turn, all accepted: a try, its requests and their
/// answers taken, an exit, its releases taken, and all that the keepers took dropped.
pub fn long_script(lines: usize) -> Vec<u8> {
    let mut author = Author::new(Setting { n: 31, m: 21, f: 10 }, lines);
    for kiosk in (1..=16).cycle() {
        if author.left == 0 {
            break;
        }
        author.turn(kiosk);
        author.drop_all();
    }
    author.script
}

/// The settings of the scripts with restarts: many keepers with short lists of messages, and few with long ones.
pub const RESTARTS: [Setting; 2] = [Setting { n: 31, m: 21, f: 10 }, Setting { n: 3, m: 2, f: 0 }];

/// How many other events stand behind a keeper's going down, and behind its coming up again: of three events one is a restart's,
/// or two are.
pub const MIXED: [usize; 2] = [2, 2];
pub const OFTEN: [usize; 2] = [0, 1];

/// The fewest messages kept once the restarts have begun.
pub const RESTARTS_KEEP: usize = 400;

/// So many event lines with 16 kiosks, all accepted, in which keepers restart all the time beside a table that is nearly full.
/// First kiosks have their turns, until about 450 messages are kept, all taken by keepers. Then keepers go down and come up again,
/// all in turn, with so many other events behind each: mostly takes of the newest message and of old ones that wait again, but also
/// tries, exits, checks, and drops of the oldest message where the places grow few.
pub fn restarts_script(setting: Setting, others: [usize; 2], lines: usize) -> Vec<u8> {
    let (mut author, mut r) = (Author::new(setting, lines), Random::new(4));
    for kiosk in (1..=16).cycle() {
        if author.left == 0 || author.gallery.kept.len() + 2 * setting.n as usize > 450 {
            break;
        }
        author.turn(kiosk);
    }
    for keeper in (1..=u64::from(setting.n)).cycle() {
        if author.left == 0 {
            break;
        }
        for (kind, others) in [Kind::Down, Kind::Up].into_iter().zip(others) {
            author.give(kind, keeper);
            (0..others).for_each(|_| author.work(&mut r));
        }
    }
    author.script
}
