//! The gallery: document 01, 'The gallery script' and the row 'gallery event' of its refusal table. The same step is
//! that of a run, which has any n in range and no refusal 19: there the limits are out of reach.

use crate::fault::Fault;
use crate::keeper::Keeper;
use crate::kiosk::{Kiosk, HOLDING};
use crate::model::{Message, RESPONSE};
use crate::players::{Players, NEW};
use crate::setting::Setting;
use std::collections::BTreeSet;

/// The kinds of events, in the script's order.
#[derive(Clone, Copy, Debug, PartialEq, Eq, PartialOrd, Ord)]
pub enum Kind {
    Try = 1,
    Exit,
    Fall,
    Down,
    Up,
    Take,
    Drop,
    Miss,
    Check,
}

/// A kind with the number of a kiosk, a keeper or a message.
#[derive(Clone, Copy, Debug, PartialEq, Eq)]
pub struct Event {
    pub kind: Kind,
    pub number: u64,
}

/// The keepers, which 7 goes by, and what refusal 19 goes by: the messages kept at once, and the largest message number.
#[derive(Clone, Copy, Debug, PartialEq, Eq)]
pub struct Limits {
    pub keepers: u32,
    pub places: usize,
    pub numbers: u64,
}

pub const GALLERY: Limits = Limits { keepers: KEEPERS, places: 512, numbers: 4_294_967_295 };
pub const RUN: Limits = Limits { keepers: u32::MAX, places: usize::MAX, numbers: u64::MAX };

/// Document 02, L3: a gallery keeps its 31 keepers, whatever n its players could have.
pub const KEEPERS: u32 = 31;
pub const KIOSKS: u32 = 16;

/// A kiosk, and while its epoch is open the keepers ever down in it.
#[derive(Clone, Debug, PartialEq, Eq)]
pub struct Client {
    pub living: bool,
    pub record: Kiosk,
    pub epoch: Option<BTreeSet<u32>>,
}

#[derive(Clone, Debug, PartialEq, Eq)]
pub struct Server {
    pub up: bool,
    pub record: Keeper,
}

/// A message that is kept: it waits, or a keeper has taken it.
#[derive(Clone, Copy, Debug, PartialEq, Eq)]
pub struct Kept {
    pub number: u64,
    pub message: Message,
    pub taken: bool,
}

#[derive(Clone, Debug, PartialEq, Eq)]
pub struct Gallery {
    pub setting: Setting,
    pub clients: Vec<Client>,
    pub servers: Vec<Server>,
    /// In the order of their numbers.
    pub kept: Vec<Kept>,
    /// The number of the message sent last.
    pub last: u64,
    pub accepted: u64,
    pub most_holders: usize,
    /// The most different keepers ever down within one epoch.
    pub most_down: usize,
    limits: Limits,
    fault: Fault,
}

/// The place of party `number` of `count`.
fn place(number: u64, count: usize) -> Result<usize, u32> {
    if (1..=count as u64).contains(&number) {
        Ok(number as usize - 1)
    } else {
        Err(17)
    }
}

impl Gallery {
    /// All kiosks live, in remainder, and have never tried; all keepers are up and have no owner.
    pub fn new(setting: Setting, kiosks: u32, limits: Limits) -> Result<Gallery, u32> {
        Gallery::of(NEW, setting, kiosks, limits)
    }

    /// The same with kiosks of these players, which may be without a clock.
    pub fn of(players: Players, setting: Setting, kiosks: u32, limits: Limits) -> Result<Gallery, u32> {
        if !(1..=KIOSKS).contains(&kiosks) || setting.n > limits.keepers {
            return Err(7);
        }
        let client = |k| Ok(Client { living: true, record: Kiosk::new(players, setting.n, setting.m, k)?, epoch: None });
        let server = |j| Ok(Server { up: true, record: Keeper::new(NEW, setting.n, j)? });
        Ok(Gallery {
            setting,
            clients: (1..=kiosks).map(client).collect::<Result<_, u32>>()?,
            servers: (1..=setting.n).map(server).collect::<Result<_, u32>>()?,
            kept: vec![],
            last: 0,
            accepted: 0,
            most_holders: 0,
            most_down: 0,
            limits,
            fault: Fault::None,
        })
    }

    pub fn with(self, fault: Fault) -> Gallery {
        Gallery { fault, ..self }
    }

    /// The messages sent, or the refusal; a refused event changes nothing.
    pub fn event(&mut self, event: Event) -> Result<usize, u32> {
        let sent = match event.kind {
            Kind::Try => self.try_wall(event.number),
            Kind::Exit => self.exit(event.number),
            Kind::Fall => self.fall(event.number),
            Kind::Down => self.down(event.number),
            Kind::Up => self.up(event.number),
            Kind::Take => self.take(event.number),
            Kind::Drop => self.drop(event.number),
            Kind::Miss => self.miss(event.number),
            Kind::Check => self.check(event.number),
        }?;
        self.accepted += 1;
        self.most_holders = self.most_holders.max(self.holders());
        let downs = self.clients.iter().flat_map(|c| &c.epoch).map(|down| down.len()).max();
        self.most_down = self.most_down.max(downs.unwrap_or(0));
        Ok(sent)
    }

    /// The kiosks that live and hold.
    pub fn holders(&self) -> usize {
        self.clients.iter().filter(|c| c.living && c.record.section == HOLDING).count()
    }

    pub fn down_now(&self) -> BTreeSet<u32> {
        self.servers.iter().filter(|s| !s.up).map(|s| s.record.id).collect()
    }

    fn living(&self, k: u64) -> Result<usize, u32> {
        let at = place(k, self.clients.len())?;
        if self.clients[at].living {
            Ok(at)
        } else {
            Err(18)
        }
    }

    fn standing(&self, j: u64) -> Result<usize, u32> {
        let at = place(j, self.servers.len())?;
        if self.servers[at].up {
            Ok(at)
        } else {
            Err(18)
        }
    }

    fn kept(&self, number: u64) -> Result<usize, u32> {
        self.kept.binary_search_by_key(&number, |kept| kept.number).map_err(|_| 17)
    }

    /// Keeps all the messages or, where there is no place or number for each of them, none.
    fn send(&mut self, messages: &[Message], freed: usize) -> Result<usize, u32> {
        let sent = messages.len();
        let placed = self.kept.len() - freed + sent <= self.limits.places;
        let numbered = sent as u64 <= self.limits.numbers - self.last;
        if sent > 0 && !(placed && numbered) {
            return Err(19);
        }
        for &message in messages {
            self.last += 1;
            self.kept.push(Kept { number: self.last, message, taken: false });
        }
        Ok(sent)
    }

    fn try_wall(&mut self, k: u64) -> Result<usize, u32> {
        let at = self.living(k)?;
        let mut record = self.clients[at].record.clone();
        let sent = self.send(&record.try_wall()?, 0)?;
        self.clients[at] = Client { living: true, record, epoch: Some(self.down_now()) };
        Ok(sent)
    }

    fn exit(&mut self, k: u64) -> Result<usize, u32> {
        let at = self.living(k)?;
        let mut record = self.clients[at].record.clone();
        let sent = self.send(&record.exit()?, 0)?;
        self.clients[at] = Client { living: true, record, epoch: None };
        Ok(sent)
    }

    fn fall(&mut self, k: u64) -> Result<usize, u32> {
        let at = self.living(k)?;
        self.clients[at].living = false;
        self.clients[at].epoch = None;
        Ok(0)
    }

    /// The keeper forgets all, and what it had taken waits again; a message from it to a kiosk was not taken by it.
    fn down(&mut self, j: u64) -> Result<usize, u32> {
        let at = self.standing(j)?;
        let id = self.servers[at].record.id;
        self.servers[at] = Server { up: false, record: Keeper::new(NEW, self.setting.n, id)? };
        for kept in self.kept.iter_mut().filter(|kept| kept.message.kind < RESPONSE && kept.message.keeper == id) {
            kept.taken = false;
        }
        self.clients.iter_mut().flat_map(|c| &mut c.epoch).for_each(|down| {
            down.insert(id);
        });
        Ok(0)
    }

    fn up(&mut self, j: u64) -> Result<usize, u32> {
        let at = place(j, self.servers.len())?;
        if self.servers[at].up {
            return Err(18);
        }
        self.servers[at].up = true;
        Ok(0)
    }

    fn take(&mut self, i: u64) -> Result<usize, u32> {
        let at = self.kept(i)?;
        let Kept { message, taken, .. } = self.kept[at];
        if taken {
            return Err(17);
        }
        if message.kind >= RESPONSE {
            self.client_takes(at, &message)
        } else {
            self.server_takes(at, &message)
        }
    }

    /// A message taken by a kiosk is gone, and its place is free for what the kiosk sends.
    fn client_takes(&mut self, at: usize, message: &Message) -> Result<usize, u32> {
        let k = self.living(u64::from(message.kiosk))?;
        let mut record = self.clients[k].record.clone();
        let sent = self.send(&record.message_with(message, self.fault)?, 1)?;
        self.clients[k].record = record;
        if self.fault != Fault::ComesTwice {
            self.kept.remove(at);
        }
        Ok(sent)
    }

    fn server_takes(&mut self, at: usize, message: &Message) -> Result<usize, u32> {
        let j = self.standing(u64::from(message.keeper))?;
        let mut record = self.servers[j].record.clone();
        // With 16 kiosks no line is full: "In a gallery 14 never occurs."
        let sent = self.send(&record.message_with(message, NEW.line, self.fault)?, 0)?;
        self.servers[j].record = record;
        self.kept[at].taken = self.fault != Fault::ComesTwice;
        Ok(sent)
    }

    fn drop(&mut self, i: u64) -> Result<usize, u32> {
        let at = self.kept(i)?;
        self.kept.remove(at);
        Ok(0)
    }

    fn miss(&mut self, j: u64) -> Result<usize, u32> {
        let at = self.standing(j)?;
        let mut record = self.servers[at].record.clone();
        let owner = record.owner.ok_or(15u32)?;
        if self.clients[owner.kiosk as usize - 1].living {
            return Err(20);
        }
        let sent = self.send(&record.missing()?, 0)?;
        self.servers[at].record = record;
        Ok(sent)
    }

    fn check(&mut self, j: u64) -> Result<usize, u32> {
        let at = self.standing(j)?;
        let messages = self.servers[at].record.check();
        self.send(&messages, 0)
    }
}
