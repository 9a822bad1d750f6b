//! Packets: document 02, L1. A two-byte total length, then messages one after another; places are counted in the packet.

use crate::players::{Players, NEW};
use crate::records::number_of;

/// The bytes of the total, so the place of the first message.
pub const FIRST: usize = 2;

/// A little-endian number of two bytes at the start, if there are two.
fn number(bytes: &[u8]) -> Option<usize> {
    bytes.first_chunk().map(|&two| usize::from(u16::from_le_bytes(two)))
}

/// The part that the first of these messages takes, by a length field of at least 4; else 22.
fn first(messages: &[u8]) -> Result<&[u8], u32> {
    let length = number(messages).filter(|&length| length >= 4).ok_or(22u32)?;
    messages.get(..length).ok_or(22)
}

impl Players {
    /// 22 unless the messages, walked by their length fields, end exactly where the bytes do; then the first bad message's own
    /// number.
    fn judge(self, messages: &[u8]) -> Result<(), u32> {
        let (mut rest, mut first_bad) = (messages, Ok(()));
        while !rest.is_empty() {
            let part = first(rest)?;
            first_bad = first_bad.and_then(|()| self.parse(part).map(drop));
            rest = &rest[part.len()..];
        }
        first_bad
    }

    /// The bytes that the total counts, which are judged whole, whatever is asked of them.
    fn accepted(self, lent: &[u8]) -> Result<&[u8], u32> {
        let total = number(lent).filter(|&total| total >= FIRST).ok_or(22u32)?;
        let packet = lent.get(..total).ok_or(22u32)?;
        self.judge(&packet[FIRST..])?;
        Ok(packet)
    }

    /// The message at this place and its bytes, or six times 0 where the packet ends.
    fn message_at(self, lent: &[u8], at: usize) -> Result<[u32; 6], u32> {
        let packet = self.accepted(lent)?;
        let mut place = FIRST;
        while place < at && place < packet.len() {
            place += first(&packet[place..])?.len();
        }
        if place != at {
            return Err(22);
        }
        if at == packet.len() {
            return Ok([0; 6]);
        }
        let (m, used) = self.parse(first(&packet[at..])?)?;
        Ok([m.kind, m.kiosk, m.keeper, m.ticket, m.owner, used as u32])
    }

    /// The reader's call: `message_at`, then 6 if fewer than six words are lent.
    pub fn packet_next(self, packet: &[u8], at: usize, words: &mut [u32]) -> u32 {
        number_of(self.message_at(packet, at).and_then(|message| {
            words.get_mut(..6).ok_or(6u32)?.copy_from_slice(&message);
            Ok(())
        }))
    }

    /// The packing call: the total, then the bytes that a step wrote. Refused as the reader would, then 6.
    pub fn packet_pack(self, bytes: &[u8], out: &mut [u8]) -> u32 {
        let packed = |out: &mut [u8]| {
            let total = u16::try_from(FIRST + bytes.len()).map_err(|_| 22u32)?;
            self.judge(bytes)?;
            let packet = out.get_mut(..FIRST + bytes.len()).ok_or(6u32)?;
            packet[..FIRST].copy_from_slice(&total.to_le_bytes());
            packet[FIRST..].copy_from_slice(bytes);
            Ok(())
        };
        number_of(packed(out))
    }
}

#[inline(never)]
pub fn next(packet: &[u8], at: usize, words: &mut [u32]) -> u32 {
    NEW.packet_next(packet, at, words)
}

#[inline(never)]
pub fn pack(bytes: &[u8], out: &mut [u8]) -> u32 {
    NEW.packet_pack(bytes, out)
}
