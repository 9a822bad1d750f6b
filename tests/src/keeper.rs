//! The keeper: document 01, 'The keeper', and Figure 1, lines 26 to 56; and its saved record, document 02, L3.

use crate::fault::Fault;
use crate::model::{Message, CHECK, INQUIRY, RELEASE, REQUEST, RESPONSE, YIELD};
use crate::players::{Players, NEW};
use crate::records::{hand_over, number_of, pair, place, places, words_of, Pair};

/// n, the keeper's number, owner, the owner's ticket, the line's length, then kiosk and ticket of each place.
pub const WORDS: usize = NEW.keeper_words();

#[derive(Clone, Debug, PartialEq, Eq)]
pub struct Keeper {
    pub n: u32,
    pub id: u32,
    pub owner: Option<Pair>,
    pub line: Vec<Pair>,
}

impl Keeper {
    pub fn new(players: Players, n: u32, id: u32) -> Result<Keeper, u32> {
        if (1..=players.keepers).contains(&n) && (1..=n).contains(&id) {
            Ok(Keeper { n, id, owner: None, line: vec![] })
        } else {
            Err(7)
        }
    }

    /// The record in these words, or 21 if they are broken.
    pub fn read(players: Players, words: &[u32]) -> Result<Keeper, u32> {
        if words.len() != players.keeper_words() {
            return Err(21);
        }
        let length = words[4] as usize;
        let owner = place(words[2], words[3])?;
        let places = places(&words[5..])?;
        let line: Vec<Pair> = places.iter().copied().flatten().collect();
        let in_front = length <= players.line && places.iter().enumerate().all(|(i, p)| p.is_some() == (i < length));
        let in_order = line.windows(2).all(|two| two[0] < two[1]);
        let everyone: Vec<&Pair> = owner.iter().chain(&line).collect();
        let twice = (0..everyone.len()).any(|i| everyone[..i].iter().any(|p| p.kiosk == everyone[i].kiosk));
        if !in_front || !in_order || twice || (owner.is_none() && length > 0) {
            return Err(21);
        }
        let new = Keeper::new(players, words[0], words[1]).map_err(|_| 21u32)?;
        Ok(Keeper { owner, line, ..new })
    }

    /// The line stands in front, and the other places are empty.
    pub fn put(&self, words: &mut [u32]) {
        words[..2].copy_from_slice(&[self.n, self.id]);
        words[2..4].copy_from_slice(&words_of(self.owner));
        words[4] = self.line.len() as u32;
        let (line, behind) = words[5..].split_at_mut(2 * self.line.len());
        for (place, &p) in line.chunks_mut(2).zip(&self.line) {
            place.copy_from_slice(&words_of(Some(p)));
        }
        behind.fill(0);
    }

    pub fn words(&self, players: Players) -> Vec<u32> {
        let mut words = vec![0; players.keeper_words()];
        self.put(&mut words);
        words
    }

    pub fn owned_by(&self, kiosk: u32) -> bool {
        self.owner.is_some_and(|p| p.kiosk == kiosk)
    }

    /// RESPONSE with the owner, or with none.
    fn response(&self, kiosk: u32) -> Message {
        let [owner, ticket] = words_of(self.owner);
        Message { kind: RESPONSE, kiosk, keeper: self.id, ticket, owner }
    }

    fn join(&mut self, pair: Pair) {
        self.line.push(pair);
        self.line.sort();
    }

    /// The head of the line moves up in the owner's place and is told; without a line there is no owner.
    fn move_up(&mut self) -> Option<Message> {
        self.owner = if self.line.is_empty() { None } else { Some(self.line.remove(0)) };
        self.owner.map(|head| self.response(head.kiosk))
    }

    fn remove(&mut self, pair: Pair) -> Option<Message> {
        if self.owner == Some(pair) {
            return self.move_up();
        }
        self.line.retain(|p| *p != pair);
        None
    }

    /// With a line of so many places.
    pub fn message(&mut self, m: &Message, places: usize) -> Result<Vec<Message>, u32> {
        self.message_with(m, places, Fault::None)
    }

    pub fn message_with(&mut self, m: &Message, places: usize, fault: Fault) -> Result<Vec<Message>, u32> {
        if !(REQUEST..=INQUIRY).contains(&m.kind) || m.keeper != self.id {
            return Err(13);
        }
        let sender = pair(m.kiosk, m.ticket);
        let mut sent = vec![];
        if let Some(&known) = self.owner.iter().chain(&self.line).find(|p| p.kiosk == m.kiosk) {
            if m.ticket < known.ticket {
                return Ok(sent);
            }
            if m.ticket > known.ticket {
                sent.extend(self.remove(known));
            }
        }
        match m.kind {
            REQUEST if self.owned_by(m.kiosk) => {
                if fault == Fault::AnswersOwner {
                    sent.push(self.response(m.kiosk));
                }
            }
            REQUEST => {
                if self.owner.is_none() {
                    self.owner = Some(sender);
                } else if !self.line.contains(&sender) {
                    if self.line.len() == places {
                        return Err(14);
                    }
                    self.join(sender);
                }
                sent.push(self.response(m.kiosk));
            }
            YIELD => {
                if self.owner == Some(sender) {
                    self.join(sender);
                    sent.extend(self.move_up());
                }
                if !self.owned_by(m.kiosk) {
                    sent.push(self.response(m.kiosk));
                }
            }
            RELEASE => sent.extend(self.remove(sender)),
            _ => {
                if self.owner.is_some() && !self.owned_by(m.kiosk) {
                    sent.push(self.response(m.kiosk));
                }
            }
        }
        Ok(sent)
    }

    pub fn missing(&mut self) -> Result<Vec<Message>, u32> {
        if self.owner.is_none() {
            return Err(15);
        }
        Ok(self.move_up().into_iter().collect())
    }

    pub fn check(&self) -> Vec<Message> {
        let to = |p: Pair| Message { kind: CHECK, kiosk: p.kiosk, keeper: self.id, ticket: p.ticket, owner: 0 };
        self.owner.map(to).into_iter().collect()
    }
}

// The same steps over lent words, as the library offers them.

impl Players {
    fn keeper_step<F>(self, record: &mut [u32], out: &mut [u8], sent: &mut [u32], event: F) -> u32
    where
        F: FnOnce(&mut Keeper) -> Result<Vec<Message>, u32>,
    {
        number_of(Keeper::read(self, record).and_then(|mut keeper| {
            let messages = event(&mut keeper)?;
            hand_over(&messages, out, sent)?;
            keeper.put(record);
            Ok(())
        }))
    }

    pub fn keeper_new(self, n: u32, id: u32, record: &mut [u32]) -> u32 {
        number_of(Keeper::new(self, n, id).and_then(|keeper| {
            keeper.put(record.get_mut(..self.keeper_words()).ok_or(7u32)?);
            Ok(())
        }))
    }

    pub fn keeper_takes(self, record: &mut [u32], message: &[u32], out: &mut [u8], sent: &mut [u32]) -> u32 {
        self.keeper_step(record, out, sent, |keeper| keeper.message(&self.message_of(message)?, self.line))
    }

    pub fn keeper_misses(self, record: &mut [u32], out: &mut [u8], sent: &mut [u32]) -> u32 {
        self.keeper_step(record, out, sent, Keeper::missing)
    }

    pub fn keeper_checks(self, record: &mut [u32], out: &mut [u8], sent: &mut [u32]) -> u32 {
        self.keeper_step(record, out, sent, |keeper| Ok(keeper.check()))
    }
}

pub fn new(n: u32, id: u32, record: &mut [u32]) -> u32 {
    NEW.keeper_new(n, id, record)
}

pub fn message(record: &mut [u32], message: &[u32], out: &mut [u8], sent: &mut [u32]) -> u32 {
    NEW.keeper_takes(record, message, out, sent)
}

pub fn missing(record: &mut [u32], out: &mut [u8], sent: &mut [u32]) -> u32 {
    NEW.keeper_misses(record, out, sent)
}

pub fn check(record: &mut [u32], out: &mut [u8], sent: &mut [u32]) -> u32 {
    NEW.keeper_checks(record, out, sent)
}

/// "A saved record, unless broken (21), is taken over with its line .. in front, the other places empty." Then 6 without room.
pub fn upgrade(saved: &[u32], record: &mut [u32]) -> u32 {
    let keeper = NEW.saved_by(saved, Players::keeper_words).and_then(|players| Keeper::read(players, saved));
    number_of(keeper.and_then(|keeper| {
        keeper.put(record.get_mut(..WORDS).ok_or(6u32)?);
        Ok(())
    }))
}
