//! Messages to try: at random, and their bytes by the model.

use crate::model::{length_of, write, RESPONSE};
use crate::random::Random;

/// The bytes of words that are a message.
pub fn bytes_of(words: &[u32; 5]) -> Vec<u8> {
    let mut out = [0u8; 14];
    assert_eq!(write(words, &mut out), 0, "{words:?} is a message");
    out[..length_of(words[0])].to_vec()
}

pub fn random_message(r: &mut Random) -> [u32; 5] {
    let kind = 1 + r.below(6) as u32;
    let kiosk = 1 + r.below(65_535) as u32;
    let keeper = 1 + r.below(255) as u32;
    let ticket = if r.below(8) == 0 { u32::MAX } else { 1 + r.below(1 << 20) as u32 };
    if kind != RESPONSE {
        return [kind, kiosk, keeper, ticket, 0];
    }
    if r.below(4) == 0 {
        return [kind, kiosk, keeper, 0, 0];
    }
    [kind, kiosk, keeper, ticket, 1 + r.below(65_535) as u32]
}
