//! The message format of document 01, 'Messages', and the rows 'read' and 'write' of its refusal table.

use crate::players::{Players, NEW};

/// A message's numbers. `owner` is 0 where the kind has none.
#[derive(Clone, Copy, Debug, PartialEq, Eq)]
pub struct Message {
    pub kind: u32,
    pub kiosk: u32,
    pub keeper: u32,
    pub ticket: u32,
    pub owner: u32,
}

pub const REQUEST: u32 = 1;
pub const YIELD: u32 = 2;
pub const RELEASE: u32 = 3;
pub const INQUIRY: u32 = 4;
pub const RESPONSE: u32 = 5;
pub const CHECK: u32 = 6;

fn u16_at(bytes: &[u8], at: usize) -> u32 {
    u32::from(u16::from_le_bytes([bytes[at], bytes[at + 1]]))
}

pub fn length_of(kind: u32) -> usize {
    if kind == RESPONSE {
        14
    } else {
        12
    }
}

/// Writes a message in range to a buffer that has room for it; the bytes written.
#[inline(always)]
pub fn put(m: &Message, out: &mut [u8]) -> usize {
    let length = length_of(m.kind);
    out[0..2].copy_from_slice(&(length as u16).to_le_bytes());
    out[2..4].copy_from_slice(&(m.kind as u16).to_le_bytes());
    out[4..6].copy_from_slice(&(m.kiosk as u16).to_le_bytes());
    out[6..8].copy_from_slice(&(m.keeper as u16).to_le_bytes());
    out[8..12].copy_from_slice(&m.ticket.to_le_bytes());
    if m.kind == RESPONSE {
        out[12..14].copy_from_slice(&(m.owner as u16).to_le_bytes());
    }
    length
}

impl Players {
    pub fn in_range(self, m: &Message) -> bool {
        let parties = (1..=65_535).contains(&m.kiosk) && (1..=self.named).contains(&m.keeper);
        let rest = if m.kind == RESPONSE {
            m.owner <= 65_535 && (m.owner == 0) == (m.ticket == 0)
        } else {
            m.owner == 0 && m.ticket != 0
        };
        (1..=6).contains(&m.kind) && parties && rest
    }

    /// The message of five words.
    pub fn message_of(self, words: &[u32]) -> Result<Message, u32> {
        let &[kind, kiosk, keeper, ticket, owner] = words else {
            return Err(5);
        };
        let m = Message { kind, kiosk, keeper, ticket, owner };
        if self.in_range(&m) {
            Ok(m)
        } else {
            Err(5)
        }
    }

    /// The message and the bytes used, or the refusal.
    pub fn parse(self, bytes: &[u8]) -> Result<(Message, usize), u32> {
        if bytes.len() < 4 {
            return Err(1);
        }
        let kind = u16_at(bytes, 2);
        if !(1..=6).contains(&kind) {
            return Err(2);
        }
        let length = length_of(kind);
        if u16_at(bytes, 0) as usize != length {
            return Err(3);
        }
        if bytes.len() < length {
            return Err(4);
        }
        let ticket = u32::from_le_bytes([bytes[8], bytes[9], bytes[10], bytes[11]]);
        let owner = if kind == RESPONSE { u16_at(bytes, 12) } else { 0 };
        let m = Message { kind, kiosk: u16_at(bytes, 4), keeper: u16_at(bytes, 6), ticket, owner };
        if self.in_range(&m) {
            Ok((m, length))
        } else {
            Err(5)
        }
    }

    /// `parse`, with the answer in six words: the message's five and the bytes used.
    pub fn read(self, bytes: &[u8], words: &mut [u32]) -> u32 {
        match self.parse(bytes) {
            Err(refusal) => refusal,
            Ok(_) if words.len() < 6 => 6,
            Ok((m, used)) => {
                words[..6].copy_from_slice(&[m.kind, m.kiosk, m.keeper, m.ticket, m.owner, used as u32]);
                0
            }
        }
    }

    /// The message of five words, written at the start of the buffer.
    pub fn write(self, words: &[u32], out: &mut [u8]) -> u32 {
        match self.message_of(words) {
            Err(refusal) => refusal,
            Ok(m) if out.len() < length_of(m.kind) => 6,
            Ok(m) => {
                put(&m, out);
                0
            }
        }
    }
}

#[inline(never)]
pub fn read(bytes: &[u8], words: &mut [u32]) -> u32 {
    NEW.read(bytes, words)
}

#[inline(never)]
pub fn write(words: &[u32], out: &mut [u8]) -> u32 {
    NEW.write(words, out)
}
