//! The kiosk: document 01, 'The kiosk', and Figure 1, lines 1 to 25; its tickets, document 02, L4; and its saved record, L3 and L4.

use crate::fault::Fault;
use crate::model::{Message, CHECK, INQUIRY, RELEASE, REQUEST, RESPONSE, YIELD};
use crate::players::{Players, NEW};
use crate::records::{self, hand_over, number_of, pair, place, words_of, Pair};

/// n, m, the kiosk's number, section, ticket, the largest ticket seen, then kiosk and ticket of the answer in each keeper's place.
pub const WORDS: usize = NEW.kiosk_words();

pub const REMAINDER: u32 = 0;
pub const TRYING: u32 = 1;
pub const HOLDING: u32 = 2;

#[derive(Clone, Debug, PartialEq, Eq)]
pub struct Kiosk {
    pub n: u32,
    pub m: u32,
    pub id: u32,
    pub section: u32,
    pub ticket: u32,
    /// "the largest ticket it has seen in any accepted RESPONSE or CHECK", 0 at the start; of players without a clock, nothing.
    pub seen: Option<u32>,
    /// The places of keepers 1 to n.
    pub answers: Vec<Option<Pair>>,
}

fn empty(n: u32) -> Vec<Option<Pair>> {
    vec![None; n as usize]
}

impl Kiosk {
    pub fn new(players: Players, n: u32, m: u32, id: u32) -> Result<Kiosk, u32> {
        if (1..=players.keepers).contains(&n) && (1..=n).contains(&m) && (1..=65_535).contains(&id) {
            let seen = players.clock.then_some(0);
            Ok(Kiosk { n, m, id, section: REMAINDER, ticket: 0, seen, answers: empty(n) })
        } else {
            Err(7)
        }
    }

    /// The record in these words, or 21 if they are broken. What was seen may be any word.
    pub fn read(players: Players, words: &[u32]) -> Result<Kiosk, u32> {
        if words.len() != players.kiosk_words() {
            return Err(21);
        }
        let new = Kiosk::new(players, words[0], words[1], words[2]).map_err(|_| 21u32)?;
        let (head, places) = words.split_at(players.kiosk_head());
        let (answers, past) = places.split_at(2 * new.n as usize);
        let kiosk =
            Kiosk { section: head[3], ticket: head[4], seen: head.get(5).copied(), answers: records::places(answers)?, ..new };
        let past = past.iter().any(|&word| word != 0);
        let old = kiosk.answers.iter().flatten().any(|p| p.kiosk == kiosk.id && p.ticket != kiosk.ticket);
        let ticket = (1..u32::MAX).contains(&kiosk.ticket);
        let fits = match kiosk.section {
            REMAINDER => kiosk.filled() == 0,
            TRYING => ticket && kiosk.filled() < kiosk.m,
            HOLDING => ticket && kiosk.filled() == kiosk.m && kiosk.own() == kiosk.m,
            _ => false,
        };
        if fits && !past && !old {
            Ok(kiosk)
        } else {
            Err(21)
        }
    }

    /// The answers stand in front, and the places past keeper n are empty.
    pub fn put(&self, words: &mut [u32]) {
        words[..5].copy_from_slice(&[self.n, self.m, self.id, self.section, self.ticket]);
        let places = match self.seen {
            Some(seen) => {
                words[5] = seen;
                &mut words[6..]
            }
            None => &mut words[5..],
        };
        let (answers, past) = places.split_at_mut(2 * self.answers.len());
        for (place, &p) in answers.chunks_mut(2).zip(&self.answers) {
            place.copy_from_slice(&words_of(p));
        }
        past.fill(0);
    }

    pub fn words(&self, players: Players) -> Vec<u32> {
        let mut words = vec![0; players.kiosk_words()];
        self.put(&mut words);
        words
    }

    pub fn pair(&self) -> Pair {
        pair(self.id, self.ticket)
    }

    pub fn filled(&self) -> u32 {
        self.answers.iter().flatten().count() as u32
    }

    /// The answers that name this kiosk with its ticket.
    fn own(&self) -> u32 {
        self.answers.iter().flatten().filter(|p| **p == self.pair()).count() as u32
    }

    fn to(&self, kind: u32, keeper: u32, ticket: u32) -> Message {
        Message { kind, kiosk: self.id, keeper, ticket, owner: 0 }
    }

    fn to_all(&self, kind: u32, ticket: u32) -> Vec<Message> {
        (1..=self.n).map(|keeper| self.to(kind, keeper, ticket)).collect()
    }

    /// The document's try: "one more than the larger of the kiosk's last ticket and the largest ticket it has seen".
    pub fn try_wall(&mut self) -> Result<Vec<Message>, u32> {
        if self.section != REMAINDER {
            return Err(10);
        }
        let larger = self.ticket.max(self.seen.unwrap_or(0));
        if larger > 4_294_967_293 {
            return Err(11);
        }
        self.ticket = larger + 1;
        self.answers = empty(self.n);
        self.section = TRYING;
        Ok(self.to_all(REQUEST, self.ticket))
    }

    /// "the exit still takes last plus one", whatever was seen.
    pub fn exit(&mut self) -> Result<Vec<Message>, u32> {
        if self.section != HOLDING {
            return Err(10);
        }
        let old = self.ticket;
        self.ticket += 1;
        self.answers = empty(self.n);
        self.section = REMAINDER;
        Ok(self.to_all(RELEASE, old))
    }

    pub fn message(&mut self, m: &Message) -> Result<Vec<Message>, u32> {
        self.message_with(m, Fault::None)
    }

    pub fn message_with(&mut self, m: &Message, fault: Fault) -> Result<Vec<Message>, u32> {
        if ![RESPONSE, CHECK].contains(&m.kind) || m.kiosk != self.id || m.keeper > self.n {
            return Err(12);
        }
        // In any section, and whatever becomes of it.
        self.seen = self.seen.map(|seen| seen.max(m.ticket));
        if m.kind == CHECK {
            let over = m.ticket != self.ticket;
            return Ok(over.then(|| self.to(RELEASE, m.keeper, m.ticket)).into_iter().collect());
        }
        if self.section == TRYING {
            self.answer(m.keeper, place(m.owner, m.ticket)?, fault);
            if self.own() >= self.m {
                self.section = HOLDING;
            } else if self.filled() >= self.m {
                return Ok(self.round(fault));
            }
        }
        Ok(vec![])
    }

    /// Keeps the answer, unless the place already shows this kiosk with its ticket or the owner is this kiosk with another.
    fn answer(&mut self, keeper: u32, owner: Option<Pair>, fault: Fault) {
        let (own, me) = (self.pair(), self.id);
        let counted = fault == Fault::CountsOldTicket && owner.is_some_and(|p| p.kiosk == me);
        let owner = if counted { Some(own) } else { owner };
        let place = &mut self.answers[keeper as usize - 1];
        if *place != Some(own) && !owner.is_some_and(|p| p.kiosk == me && p != own) {
            *place = owner;
        }
    }

    /// Writes to every keeper whose place is filled, and empties those places.
    fn round(&mut self, fault: Fault) -> Vec<Message> {
        let answers = self.answers.clone();
        if fault != Fault::KeepsAnswers {
            self.answers = empty(self.n);
        }
        let filled = answers.iter().zip(1..).filter_map(|(place, keeper)| place.map(|p| (p, keeper)));
        filled
            .map(|(p, keeper)| {
                let kind = if p.kiosk == self.id {
                    YIELD
                } else if self.pair() < p {
                    REQUEST
                } else {
                    INQUIRY
                };
                self.to(kind, keeper, self.ticket)
            })
            .collect()
    }
}

// The same steps over lent words, as the library offers them.

impl Players {
    fn kiosk_step<F>(self, record: &mut [u32], out: &mut [u8], sent: &mut [u32], event: F) -> u32
    where
        F: FnOnce(&mut Kiosk) -> Result<Vec<Message>, u32>,
    {
        number_of(Kiosk::read(self, record).and_then(|mut kiosk| {
            let messages = event(&mut kiosk)?;
            hand_over(&messages, out, sent)?;
            kiosk.put(record);
            Ok(())
        }))
    }

    pub fn kiosk_new(self, n: u32, m: u32, id: u32, record: &mut [u32]) -> u32 {
        number_of(Kiosk::new(self, n, m, id).and_then(|kiosk| {
            kiosk.put(record.get_mut(..self.kiosk_words()).ok_or(7u32)?);
            Ok(())
        }))
    }

    pub fn kiosk_tries(self, record: &mut [u32], out: &mut [u8], sent: &mut [u32]) -> u32 {
        self.kiosk_step(record, out, sent, Kiosk::try_wall)
    }

    pub fn kiosk_exits(self, record: &mut [u32], out: &mut [u8], sent: &mut [u32]) -> u32 {
        self.kiosk_step(record, out, sent, Kiosk::exit)
    }

    pub fn kiosk_upgrade(self, saved: &[u32], record: &mut [u32]) -> u32 {
        let kiosk = self.saved_by(saved, Players::kiosk_words).and_then(|players| Kiosk::read(players, saved));
        number_of(kiosk.and_then(|kiosk| {
            kiosk.taken_over(self).put(record.get_mut(..self.kiosk_words()).ok_or(6u32)?);
            Ok(())
        }))
    }

    pub fn kiosk_takes(self, record: &mut [u32], message: &[u32], out: &mut [u8], sent: &mut [u32]) -> u32 {
        self.kiosk_step(record, out, sent, |kiosk| kiosk.message(&self.message_of(message)?))
    }
}

pub fn new(n: u32, m: u32, id: u32, record: &mut [u32]) -> u32 {
    NEW.kiosk_new(n, m, id, record)
}

pub fn try_wall(record: &mut [u32], out: &mut [u8], sent: &mut [u32]) -> u32 {
    NEW.kiosk_tries(record, out, sent)
}

pub fn exit(record: &mut [u32], out: &mut [u8], sent: &mut [u32]) -> u32 {
    NEW.kiosk_exits(record, out, sent)
}

pub fn message(record: &mut [u32], message: &[u32], out: &mut [u8], sent: &mut [u32]) -> u32 {
    NEW.kiosk_takes(record, message, out, sent)
}

impl Kiosk {
    /// The kiosk as these players have it: its answers in front; what has seen nothing before has seen 0.
    pub fn taken_over(self, players: Players) -> Kiosk {
        Kiosk { seen: players.clock.then_some(self.seen.unwrap_or(0)), ..self }
    }
}

/// "A saved record, unless broken (21), is taken over with its .. answers in front, the other places empty." Then 6 without room.
pub fn upgrade(saved: &[u32], record: &mut [u32]) -> u32 {
    NEW.kiosk_upgrade(saved, record)
}
