//! The index beside the table: document 02, L2, "per receiver, the kept message numbers in ascending order, with waiting or
//! taken", made afresh from what is kept, and its words. The order of the words is the library's own; no paper has it.

use crate::gallery::{Kept, GALLERY, KEEPERS, KIOSKS};
use crate::model::{Message, CHECK, INQUIRY, REQUEST, RESPONSE};
use std::fmt;

/// Whom a message goes to. Keepers have places 0 to 30, kiosks 31 to 46.
#[derive(Clone, Copy, Debug, PartialEq, Eq, PartialOrd, Ord)]
pub enum Receiver {
    Keeper(u32),
    Kiosk(u32),
}

/// As many as the largest setting has.
pub const RECEIVERS: usize = (KEEPERS + KIOSKS) as usize;

impl Receiver {
    /// Document 01: kinds 1 to 4 go to the keeper, 5 and 6 to the kiosk. None where no gallery has such a party.
    pub fn of(message: &Message) -> Option<Receiver> {
        match message.kind {
            REQUEST..=INQUIRY => (1..=KEEPERS).contains(&message.keeper).then_some(Receiver::Keeper(message.keeper)),
            RESPONSE..=CHECK => (1..=KIOSKS).contains(&message.kiosk).then_some(Receiver::Kiosk(message.kiosk)),
            _ => None,
        }
    }

    /// In the order of their places.
    pub fn all() -> impl Iterator<Item = Receiver> {
        (1..=KEEPERS).map(Receiver::Keeper).chain((1..=KIOSKS).map(Receiver::Kiosk))
    }

    pub fn place(self) -> usize {
        match self {
            Receiver::Keeper(j) => j as usize - 1,
            Receiver::Kiosk(k) => (KEEPERS + k) as usize - 1,
        }
    }
}

impl fmt::Display for Receiver {
    fn fmt(&self, out: &mut fmt::Formatter) -> fmt::Result {
        match self {
            Receiver::Keeper(j) => write!(out, "keeper {j}"),
            Receiver::Kiosk(k) => write!(out, "kiosk {k}"),
        }
    }
}

/// What is kept for one receiver: each message's number, and whether it is taken.
pub type List = Vec<(u32, bool)>;

/// The list of every receiver by its place; of a party beyond the setting it is empty, as it gets no message. The messages are
/// kept in the order of their numbers, and so they are listed.
pub fn lists(kept: &[Kept]) -> Vec<List> {
    let mut lists = vec![List::new(); RECEIVERS];
    for Kept { number, message, taken } in kept {
        if let Some(receiver) = Receiver::of(message) {
            lists[receiver.place()].push((*number as u32, *taken));
        }
    }
    lists
}

/// At each receiver's place how many messages go to it. Behind these words the numbers begin, list by list, and behind them, beside
/// each number, the marks: 1 if the message is taken.
pub const NUMBERS: usize = RECEIVERS;
pub const MARKS: usize = NUMBERS + GALLERY.places;
pub const WORDS: usize = MARKS + GALLERY.places;

pub fn words(lists: &[List]) -> Vec<u32> {
    let mut words = vec![0; WORDS];
    let mut end = 0;
    for (place, list) in lists.iter().enumerate() {
        for &(number, taken) in list {
            words[NUMBERS + end] = number;
            words[MARKS + end] = taken.into();
            end += 1;
        }
        words[place] = list.len() as u32;
    }
    words
}

/// The lists in an index's words. None where they pass the end, or a mark is neither 0 nor 1.
pub fn read(words: &[u32]) -> Option<Vec<List>> {
    let entry = |at: usize| (words[MARKS + at] <= 1).then_some((words[NUMBERS + at], words[MARKS + at] == 1));
    let mut end = 0;
    let list = |&count: &u32| {
        let start = end;
        end += count as usize;
        (end <= GALLERY.places).then_some(start..end)?.map(entry).collect()
    };
    words[..RECEIVERS].iter().map(list).collect()
}
