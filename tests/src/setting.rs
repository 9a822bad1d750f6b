//! The setting: document 01, 'The setting' and the row 'setting, usual threshold' of its refusal table, with document 02's n.

use crate::gallery::{Event, Kind};
use crate::players::NEW;

/// n keepers, threshold m, losses f.
#[derive(Clone, Copy, Debug, PartialEq, Eq)]
pub struct Setting {
    pub n: u32,
    pub m: u32,
    pub f: u32,
}

/// What the check says of a setting in range.
#[derive(Clone, Copy, Debug, PartialEq, Eq)]
pub enum Verdict {
    Accepted,
    /// The run that ends with two holders has this many events.
    Unsafe(u32),
    Stalls,
}

impl Setting {
    pub fn new(n: u32, m: u32, f: u32) -> Result<Setting, u32> {
        if (1..=NEW.keepers).contains(&n) && (1..=n).contains(&m) && f <= n {
            Ok(Setting { n, m, f })
        } else {
            Err(7)
        }
    }

    /// Every setting with 1 to `most` keepers.
    pub fn all(most: u32) -> Vec<Setting> {
        let mut all = vec![];
        for n in 1..=most {
            for m in 1..=n {
                all.extend((0..=n).map(|f| Setting { n, m, f }));
            }
        }
        all
    }

    /// 2 times m, minus n, minus f.
    pub fn margin(self) -> i32 {
        2 * self.m as i32 - self.n as i32 - self.f as i32
    }

    /// Accepted, or refused 8 or 9.
    fn judged(self) -> Result<(), u32> {
        if self.margin() <= 0 {
            Err(8)
        } else if self.m + self.f > self.n {
            Err(9)
        } else {
            Ok(())
        }
    }

    pub fn verdict(self) -> Verdict {
        match self.judged() {
            Ok(()) => Verdict::Accepted,
            Err(8) => Verdict::Unsafe(self.run().len() as u32),
            Err(_) => Verdict::Stalls,
        }
    }

    /// The keepers that go down and come up again in the unsafe run: 1 to 2m - n, if that is above 0.
    pub fn restarted(self) -> u32 {
        (2 * self.m).saturating_sub(self.n)
    }

    /// The unsafe run, sentence by sentence. Messages are numbered from 1 as sent: kiosk 1's requests, their m answers,
    /// kiosk 2's requests, their m answers.
    fn run(self) -> Vec<Event> {
        let Setting { n, m, .. } = self;
        let mut run = vec![];
        let mut all = |kind, numbers: &mut dyn Iterator<Item = u32>| {
            run.extend(numbers.map(|i| Event { kind, number: u64::from(i) }));
        };
        all(Kind::Try, &mut (1..=1));
        all(Kind::Take, &mut (1..=m));
        all(Kind::Take, &mut (n + 1..=n + m));
        all(Kind::Down, &mut (1..=self.restarted()));
        all(Kind::Up, &mut (1..=self.restarted()));
        all(Kind::Try, &mut (2..=2));
        let keepers = (1..=self.restarted()).chain(m + 1..=n).take(m as usize);
        all(Kind::Take, &mut keepers.map(|j| n + m + j));
        all(Kind::Take, &mut (2 * n + m + 1..=2 * n + 2 * m));
        run
    }

    /// The events of the run that an unsafe setting is refused with; of another setting there are none.
    pub fn unsafe_run(self) -> Vec<Event> {
        match self.verdict() {
            Verdict::Unsafe(_) => self.run(),
            _ => vec![],
        }
    }
}

/// Two thirds of n, rounded up.
pub fn usual_threshold(n: u32) -> Result<u32, u32> {
    if (1..=NEW.keepers).contains(&n) {
        Ok((2 * n).div_ceil(3))
    } else {
        Err(7)
    }
}

/// The losses with which the usual threshold is accepted, by the verdict on each of 0 to n.
pub fn usual_losses(n: u32) -> Result<Vec<u32>, u32> {
    let m = usual_threshold(n)?;
    Ok((0..=n).filter(|&f| Setting { n, m, f }.judged().is_ok()).collect())
}

/// The thresholds with which n keepers and losses f are accepted, ascending, by the verdict on each of 1 to n.
pub fn thresholds(n: u32, f: u32) -> Result<Vec<u32>, u32> {
    Setting::new(n, n, f)?;
    Ok((1..=n).filter(|&m| Setting { n, m, f }.judged().is_ok()).collect())
}

// The same over lent words, as the library offers it. Only the words of the answer are written; too few for it are
// refused 6, last.

fn answer<const W: usize>(number: u32, answer: [u32; W], words: &mut [u32]) -> u32 {
    match words.get_mut(..W) {
        None => 6,
        Some(words) => {
            words.copy_from_slice(&answer);
            number
        }
    }
}

/// The margin and the events of the run. An unsafe (8) or stalling (9) setting has them too, so without room for them
/// the answer is 6 whatever the verdict is.
pub fn setting(n: u32, m: u32, f: u32, words: &mut [u32]) -> u32 {
    let Ok(setting) = Setting::new(n, m, f) else {
        return 7;
    };
    let (number, events) = match setting.verdict() {
        Verdict::Accepted => (0, 0),
        Verdict::Unsafe(events) => (8, events),
        Verdict::Stalls => (9, 0),
    };
    answer(number, [setting.margin() as u32, events], words)
}

/// The kind and number of event i of the unsafe run.
pub fn run_event(n: u32, m: u32, f: u32, i: u32, words: &mut [u32]) -> u32 {
    let Ok(setting) = Setting::new(n, m, f) else {
        return 7;
    };
    event_of(&setting.unsafe_run(), i, words)
}

/// Event i of a run, from 1.
pub fn event_of(run: &[Event], i: u32, words: &mut [u32]) -> u32 {
    match (i as usize).checked_sub(1).and_then(|at| run.get(at)) {
        None => 17,
        Some(event) => answer(0, [event.kind as u32, event.number as u32], words),
    }
}

pub fn default_threshold(n: u32, words: &mut [u32]) -> u32 {
    match usual_threshold(n) {
        Err(refusal) => refusal,
        Ok(m) => answer(0, [m], words),
    }
}
