//! What the records of kiosk and keeper have in common: pairs, places, and how a step hands its messages over.
//! A refusal is the error of a `Result`; where a call may be refused, its caller works on a copy of the record.

use crate::model::{length_of, put, Message};

/// A kiosk with one of its tickets. The derived order is the document's: lower ticket first, then lower kiosk.
#[derive(Clone, Copy, Debug, PartialEq, Eq, PartialOrd, Ord)]
pub struct Pair {
    pub ticket: u32,
    pub kiosk: u32,
}

pub fn pair(kiosk: u32, ticket: u32) -> Pair {
    Pair { ticket, kiosk }
}

/// An owner, or a place of a line or of the answers: both numbers are 0, or neither is.
pub fn place(kiosk: u32, ticket: u32) -> Result<Option<Pair>, u32> {
    match (kiosk, ticket) {
        (0, 0) => Ok(None),
        (1..=65_535, 1..) => Ok(Some(pair(kiosk, ticket))),
        _ => Err(21),
    }
}

pub fn places(words: &[u32]) -> Result<Vec<Option<Pair>>, u32> {
    words.chunks(2).map(|p| place(p[0], p[1])).collect()
}

pub fn words_of(place: Option<Pair>) -> [u32; 2] {
    place.map_or([0, 0], |p| [p.kiosk, p.ticket])
}

/// Writes the messages one after another, and their number and bytes; the room is judged for all of them at once.
pub fn hand_over(messages: &[Message], out: &mut [u8], sent: &mut [u32]) -> Result<(), u32> {
    let bytes: usize = messages.iter().map(|m| length_of(m.kind)).sum();
    if sent.len() < 2 || out.len() < bytes {
        return Err(6);
    }
    let mut at = 0;
    for m in messages {
        at += put(m, &mut out[at..]);
    }
    sent[..2].copy_from_slice(&[messages.len() as u32, bytes as u32]);
    Ok(())
}

pub fn number_of(answer: Result<(), u32>) -> u32 {
    answer.err().unwrap_or(0)
}
