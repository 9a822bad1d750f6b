//! Random histories of one keeper or one kiosk, event by event, and records that something happened to.

use crate::both::Event;
use crate::keeper::Keeper;
use crate::kiosk::{Kiosk, HOLDING, REMAINDER};
use crate::model::{CHECK, INQUIRY, RELEASE, REQUEST, RESPONSE, YIELD};
use crate::players::{NEW, OLD, WIDE};
use crate::random::Random;

/// The words of a message, and which call it is for: 0 is the message's own.
pub type Drawn = ([u32; 5], usize);

pub fn to_keeper(call: usize, message: &[u32]) -> Event<'_> {
    [Event::KeeperTakes(message), Event::Missing, Event::Check][call]
}

pub fn to_kiosk(call: usize, message: &[u32]) -> Event<'_> {
    [Event::KioskTakes(message), Event::Try, Event::Exit][call]
}

/// The kiosks that write to a keeper, and the first of the few tickets that they have.
pub struct Crowd {
    kiosks: Vec<u32>,
    base: u32,
    /// Whether the line is to fill: then hardly anything takes kiosks out of it.
    fill: bool,
}

impl Crowd {
    /// Now and then enough for a line of so many places.
    pub fn draw(r: &mut Random, places: u32) -> Crowd {
        let count = r.one_of(&[2, 3, 6, places + 2, places + 6, places + 24]);
        let near = r.one_of(&[1, 250, 65_535 - count]);
        let kiosks = (0..count).map(|i| near + i).collect();
        let base = r.one_of(&[1, 7, 65_534, u32::MAX - 5]);
        Crowd { kiosks, base, fill: count > places && r.below(4) != 0 }
    }

    /// The next event of the keeper's history.
    pub fn event(&self, r: &mut Random, keeper: &Keeper) -> Drawn {
        let kind = if self.fill {
            r.one_of(&[REQUEST, REQUEST, REQUEST, REQUEST, REQUEST, REQUEST, REQUEST, YIELD, YIELD, INQUIRY, INQUIRY, RELEASE])
        } else {
            1 + r.below(4) as u32
        };
        let (owner, any) = (keeper.owner.map_or(0, |p| p.kiosk), r.one_of(&self.kiosks));
        let kiosk = if owner != 0 && r.below(if self.fill { 5 } else { 2 }) == 0 { owner } else { any };
        let known = keeper.owner.iter().chain(&keeper.line).find(|p| p.kiosk == kiosk);
        let ticket = match known {
            Some(pair) if r.below(2) == 0 => pair.ticket,
            _ => self.base + r.below(6) as u32,
        };
        let call = if r.below(if self.fill { 40 } else { 10 }) == 0 { 1 + r.below(2) as usize } else { 0 };
        ([kind, kiosk, keeper.id, ticket, 0], call)
    }
}

/// The next event of a kiosk's history. `favour` of 10 answers name this kiosk with its ticket. Tickets are near the kiosk's own, and
/// now and then near the largest that it has seen, or far above both.
pub fn kiosk_event(r: &mut Random, kiosk: &Kiosk, favour: u64) -> Drawn {
    let call = match (kiosk.section, r.below(12)) {
        (_, 0) => 1 + r.below(2) as usize,
        (REMAINDER, 1..6) => 1,
        (HOLDING, 1..3) => 2,
        _ => 0,
    };
    let n = kiosk.n as usize;
    let any = r.below(u64::from(kiosk.n)) as usize;
    // Mostly a place that is empty, so that many answers come together.
    let empty = (any..any + n).map(|j| j % n).find(|&j| kiosk.answers[j].is_none());
    let keeper = 1 + if r.below(3) == 0 { any } else { empty.unwrap_or(any) } as u32;
    let other = r.one_of(&[kiosk.id, 1, 2, 300, 65_535, kiosk.id ^ 1]).max(1);
    let from = if r.below(8) == 0 { kiosk.seen.unwrap_or(0) } else { kiosk.ticket };
    let near = from.saturating_add(2).saturating_sub(r.below(6) as u32);
    let ticket = if r.below(100) == 0 { far_ticket(r, kiosk.ticket) } else { r.one_of(&[kiosk.ticket, near]) }.max(1);
    let message = if r.below(8) == 0 {
        [CHECK, kiosk.id, keeper, ticket, 0]
    } else if r.below(10) < favour && kiosk.ticket > 0 {
        [RESPONSE, kiosk.id, keeper, kiosk.ticket, kiosk.id]
    } else if r.below(6) == 0 {
        [RESPONSE, kiosk.id, keeper, 0, 0]
    } else {
        [RESPONSE, kiosk.id, keeper, ticket, other]
    };
    (message, call)
}

/// Any ticket is valid in remainder; the highest cannot be reached from 0 within a test.
pub fn first_ticket(r: &mut Random) -> u32 {
    r.one_of(&[0, 0, 1, 65_535, u32::MAX - 12, u32::MAX - 3, u32::MAX - 2, u32::MAX - 1, u32::MAX])
}

/// What a kiosk may have seen before: any number is valid in any section.
pub fn first_seen(r: &mut Random, ticket: u32) -> u32 {
    let any = first_ticket(r);
    r.one_of(&[0, 0, ticket.saturating_sub(1), ticket, ticket.saturating_add(1), ticket.saturating_add(40), any])
}

/// Mostly some way above this one; seldom one of those behind which there are no tickets left.
fn far_ticket(r: &mut Random, ticket: u32) -> u32 {
    let above = ticket.saturating_add(10 + r.below(1000) as u32);
    if r.below(8) == 0 {
        u32::MAX - r.below(4) as u32
    } else {
        above
    }
}

/// A word to put in the place of a good one: at the limits of both generations and around them.
pub fn damage(r: &mut Random, word: u32) -> u32 {
    let any = r.next() as u32;
    let near = [word.wrapping_add(1), word.wrapping_sub(1), word ^ 1 << 16, word.wrapping_add(256)];
    let small = [0, 1, 2, 15, 16, 17, 31, 32, 33, 254, 255, 256];
    let large = [65_535, 65_536, u32::MAX - 2, u32::MAX - 1, u32::MAX, any];
    match r.below(4) {
        0 => r.one_of(&small),
        1 => r.one_of(&large),
        _ => r.one_of(&near),
    }
}

/// The lengths of all records, and those around them.
fn other_length(r: &mut Random) -> usize {
    let kiosks = [OLD, WIDE, NEW].map(|players| players.kiosk_words());
    let records = [&kiosks[..], &[OLD.keeper_words(), NEW.keeper_words()]].concat();
    let near = r.one_of(&records) + 1 - r.below(3) as usize;
    let any = r.below(530) as usize;
    r.one_of(&[0, 1, near, near, near, any])
}

/// Damages a few words, mostly near the front; swaps two places; puts another pair in a place, or in words 2 and 3, a
/// keeper's owner; or makes it too short or too long.
pub fn damage_record(r: &mut Random, record: &mut Vec<u32>) {
    // Two words to a place: only a kiosk's record that says what was seen has six words in front of them.
    let head = if record.len() % 2 == 0 { NEW.kiosk_head() } else { WIDE.kiosk_head() };
    let places = (record.len() - head) as u64 / 2;
    match r.below(8) {
        0 => record.resize(other_length(r), 0),
        1 | 2 => {
            let (a, b) = (head + 2 * r.below(places) as usize, head + 2 * r.below(places.min(4)) as usize);
            record.swap(a, b);
            record.swap(a + 1, b + 1);
        }
        3 => {
            let at = if r.below(3) == 0 { 2 } else { head + 2 * r.below(places) as usize };
            let any = 1 + r.below(40) as u32;
            let other = r.one_of(&[[0, 0], [record[2], record[4]], [record[2], record[3]], [any, 3]]);
            record[at..at + 2].copy_from_slice(&other);
        }
        _ => {
            for _ in 0..=r.below(2) {
                let within = r.one_of(&[5, 6, 12, record.len() as u64]);
                let at = r.below(within) as usize;
                record[at] = damage(r, record[at]);
            }
        }
    }
}
