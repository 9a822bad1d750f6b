//! The three generations of players, kiosks and keepers alike: document 01's, those of document 02, L3, and those of L4. A record
//! means the same to all; how many places its words have, and whether a kiosk's has a word for what it has seen, is the generation's.

/// What a generation's messages, settings and records are held to.
#[derive(Clone, Copy, Debug, PartialEq, Eq)]
pub struct Players {
    /// The largest number that is in range in a message's own keeper field, whatever n is.
    pub named: u32,
    /// The largest n, and so the places for answers in a kiosk's record.
    pub keepers: u32,
    /// The places of a keeper's waiting line.
    pub line: usize,
    /// Whether a kiosk has a logical clock: it notes the largest ticket that it has seen, and a try takes one above that too.
    pub clock: bool,
}

/// Document 01.
pub const OLD: Players = Players { named: 31, keepers: 31, line: 16, clock: false };
/// Document 02, L3: more keepers, and still last plus one at each try.
pub const WIDE: Players = Players { named: 255, keepers: 255, line: 32, clock: false };
/// Document 02, L4. Calls are made by these unless others are named.
pub const NEW: Players = Players { clock: true, ..WIDE };

/// All of them, each before those that take its records over.
pub const GENERATIONS: [Players; 3] = [OLD, WIDE, NEW];

impl Players {
    /// The words of a kiosk's record in front of its places: five, and one for what it has seen.
    pub const fn kiosk_head(self) -> usize {
        5 + self.clock as usize
    }

    /// The words of a kiosk's record: two for each place behind these.
    pub const fn kiosk_words(self) -> usize {
        self.kiosk_head() + 2 * self.keepers as usize
    }

    pub const fn keeper_words(self) -> usize {
        5 + 2 * self.line
    }

    /// Saved words by the rules of their own time: the first generation up to this one whose records have so many, or 21.
    pub fn saved_by(self, words: &[u32], record: fn(Players) -> usize) -> Result<Players, u32> {
        let this = GENERATIONS.iter().position(|&players| players == self).expect("one of them");
        GENERATIONS[..=this].iter().copied().find(|&players| record(players) == words.len()).ok_or(21)
    }
}
