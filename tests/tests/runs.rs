//! A random search over the model's runs: where the margin is above 0, no run has two living holders, and its records stay
//! valid; elsewhere, and with any one of the faults that document 01 tells of, it finds two. SIGMA_LONG=1 makes it long.

use sigma_tests::fault::Fault;
use sigma_tests::gallery::{Event, Gallery, Kind, RUN};
use sigma_tests::keeper::Keeper;
use sigma_tests::kiosk::{Kiosk, HOLDING, REMAINDER};
use sigma_tests::model::INQUIRY;
use sigma_tests::players::{NEW, WIDE};
use sigma_tests::random::Random;
use sigma_tests::setting::Setting;
use std::collections::{BTreeMap, BTreeSet};
use std::time::Instant;

/// Events that a gallery is given before a new one starts.
const LENGTH: usize = 500;

/// How one gallery's events are drawn. Each gallery has its own, so that calm ones, where many come to the wall, stand
/// beside wild ones.
struct Bias {
    /// A holder leaves once in so many times that it could.
    stay: u64,
    /// Of a thousand draws: tries and exits, restarts, messages lost or kiosks fallen.
    tries: u64,
    restarts: u64,
    losses: u64,
    /// Messages are taken from among so many of the last ones, mostly.
    recent: usize,
    /// An INQUIRY is left where it is all but once in so many times: a kiosk that waits sends one after the other.
    patience: u64,
}

impl Bias {
    fn draw(r: &mut Random) -> Bias {
        Bias {
            stay: r.one_of(&[1, 2, 6]),
            tries: r.one_of(&[20, 60, 150]),
            restarts: r.one_of(&[0, 10, 30, 100]),
            losses: r.one_of(&[0, 0, 4, 20]),
            recent: r.one_of(&[4, 12, 40, 1000]),
            patience: r.one_of(&[1, 4, 20]),
        }
    }
}

/// A kiosk in remainder tries, unless more than f keepers are down, and one that holds leaves.
fn try_or_exit(gallery: &Gallery, k: usize, bias: &Bias, r: &mut Random) -> Option<Kind> {
    match gallery.clients[k].record.section {
        REMAINDER if gallery.down_now().len() as u32 <= gallery.setting.f => Some(Kind::Try),
        HOLDING if r.below(bias.stay) == 0 => Some(Kind::Exit),
        _ => None,
    }
}

/// A keeper that is down comes up; one that is up goes down unless an open epoch then had more than f.
fn restart(gallery: &Gallery, j: usize) -> Option<Kind> {
    if !gallery.servers[j].up {
        return Some(Kind::Up);
    }
    let (id, f) = (j as u32 + 1, gallery.setting.f);
    let spent = |down: &BTreeSet<u32>| !down.contains(&id) && down.len() as u32 == f;
    let kept_up = gallery.clients.iter().flat_map(|c| &c.epoch).any(spent);
    (!kept_up).then_some(Kind::Down)
}

/// A message that waits: the first one from a random place on.
fn waiting(gallery: &Gallery, bias: &Bias, r: &mut Random) -> Option<u64> {
    let count = gallery.kept.len();
    let among = if r.below(4) == 0 { count } else { count.min(bias.recent) };
    let from = count - among + r.below(among.max(1) as u64) as usize;
    let (front, back) = gallery.kept.split_at(from.min(count));
    let drawn = back.iter().chain(front).find(|kept| !kept.taken)?;
    (drawn.message.kind != INQUIRY || r.below(bias.patience) == 0).then_some(drawn.number)
}

fn lose(gallery: &Gallery, k: usize, bias: &Bias, r: &mut Random) -> Option<Event> {
    if r.below(5) == 0 {
        return gallery.clients[k].living.then_some(Event { kind: Kind::Fall, number: k as u64 + 1 });
    }
    waiting(gallery, bias, r).map(|number| Event { kind: Kind::Drop, number })
}

/// The next event, or none if what was drawn does not fit.
fn draw(gallery: &Gallery, bias: &Bias, r: &mut Random) -> Option<Event> {
    let k = r.below(gallery.clients.len() as u64) as usize;
    let j = r.below(gallery.servers.len() as u64) as usize;
    let client = |kind| Event { kind, number: k as u64 + 1 };
    let server = |kind| Event { kind, number: j as u64 + 1 };
    let (tries, restarts) = (30 + bias.tries, 30 + bias.tries + bias.restarts);
    match r.below(1000) {
        0..20 => gallery.servers[j].record.owner.map(|_| server(Kind::Miss)),
        20..30 => Some(server(Kind::Check)),
        draw if draw < tries => try_or_exit(gallery, k, bias, r).map(client),
        draw if draw < restarts => restart(gallery, j).map(server),
        draw if draw < restarts + bias.losses => lose(gallery, k, bias, r),
        _ => waiting(gallery, bias, r).map(|number| Event { kind: Kind::Take, number }),
    }
}

/// What a search met: accepted events, times that a kiosk came to the wall, and that one without a clock did, tries above what was seen
/// and not above the last ticket alone, accepted events of each kind.
#[derive(Default)]
struct Met {
    steps: u64,
    entries: u64,
    old_entries: u64,
    jumps: u64,
    kinds: BTreeMap<Kind, u64>,
}

/// The kiosks without a clock that hold.
fn old_holders(gallery: &Gallery) -> usize {
    let holds = |record: &Kiosk| record.seen.is_none() && record.section == HOLDING;
    gallery.clients.iter().filter(|c| c.living && holds(&c.record)).count()
}

/// The sum of all kiosks' tickets: only a try takes it further than the next.
fn tickets(gallery: &Gallery) -> u64 {
    gallery.clients.iter().map(|c| u64::from(c.record.ticket)).sum()
}

/// One gallery's run; true as soon as two living kiosks hold.
fn run(gallery: &mut Gallery, r: &mut Random, met: &mut Met) -> bool {
    let bias = Bias::draw(r);
    for _ in 0..LENGTH {
        let Some(event) = draw(gallery, &bias, r) else { continue };
        let (before, old, sum) = (gallery.holders(), old_holders(gallery), tickets(gallery));
        if gallery.event(event).is_err() {
            continue;
        }
        met.steps += 1;
        *met.kinds.entry(event.kind).or_insert(0) += 1;
        met.entries += u64::from(gallery.holders() > before);
        met.old_entries += u64::from(old_holders(gallery) > old);
        met.jumps += u64::from(tickets(gallery) > sum + 1);
        if gallery.holders() > 1 {
            return true;
        }
    }
    false
}

fn valid(gallery: &Gallery) -> bool {
    let players = |record: &Kiosk| if record.seen.is_some() { NEW } else { WIDE };
    let read = |record: &Kiosk| Kiosk::read(players(record), &record.words(players(record)));
    let clients = gallery.clients.iter().all(|c| read(&c.record).as_ref() == Ok(&c.record));
    let servers = gallery.servers.iter().all(|s| Keeper::read(NEW, &s.record.words(NEW)).as_ref() == Ok(&s.record));
    clients && servers
}

/// A gallery with 2 to 4 kiosks, the setting taken in turn. In one of four, kiosks without a clock are among the others.
fn gallery(settings: &[Setting], turn: usize, r: &mut Random) -> Gallery {
    let kiosks = 2 + r.below(3) as u32;
    let mut gallery = Gallery::new(settings[turn % settings.len()], kiosks, RUN).expect("in range");
    if r.below(4) == 0 {
        let old = 1 + r.below(kiosks.into()) as usize;
        gallery.clients[..old].iter_mut().for_each(|client| client.record.seen = None);
    }
    gallery
}

/// The steps until two kiosks hold, with the gallery where they do, or nothing after `steps`.
fn search(settings: &[Setting], fault: Fault, steps: u64) -> (Option<Gallery>, Met) {
    let mut r = Random::new(58);
    let mut met = Met::default();
    let mut turn = 0;
    while met.steps < steps {
        let mut gallery = gallery(settings, turn, &mut r).with(fault);
        if run(&mut gallery, &mut r, &mut met) {
            return (Some(gallery), met);
        }
        assert!(gallery.most_down as u32 <= gallery.setting.f, "the search left the runs of {:?}", gallery.setting);
        assert!(fault != Fault::None || valid(&gallery), "a run led to a broken record: {gallery:?}");
        turn += 1;
    }
    (None, met)
}

fn settings(safe: bool) -> Vec<Setting> {
    Setting::all(4).into_iter().filter(|s| (s.margin() > 0) == safe).collect()
}

fn long() -> bool {
    std::env::var("SIGMA_LONG").is_ok_and(|v| v == "1")
}

fn no_two_holders(settings: &[Setting], steps: u64) {
    let start = Instant::now();
    let (found, met) = search(settings, Fault::None, steps);
    assert!(found.is_none(), "two holders after {} steps: {found:?}", met.steps);
    let speed = met.steps as f64 / start.elapsed().as_secs_f64() / 1e6;
    println!("{} steps, {speed:.1} million a second, {} entries, {:?}", met.steps, met.entries, met.kinds);
    println!("{} entries without a clock, {} tries above what was seen", met.old_entries, met.jumps);
    assert!(met.entries > met.steps / 200, "only {} entries in {} steps", met.entries, met.steps);
    assert!(met.old_entries > met.steps / 2000 && met.jumps > met.steps / 5000, "{} {}", met.old_entries, met.jumps);
    assert_eq!(met.kinds.len(), 9, "{:?}", met.kinds);
}

#[test]
fn one_holder_where_the_margin_is_above_0() {
    let safe = settings(true);
    assert_eq!(safe.len(), 13);
    no_two_holders(&safe, if long() { 50_000_000 } else { 5_000_000 });
}

#[test]
fn one_holder_in_larger_galleries() {
    let larger = [(5, 4, 1), (5, 4, 2), (7, 5, 2)].map(|(n, m, f)| Setting { n, m, f });
    no_two_holders(&larger, if long() { 5_000_000 } else { 500_000 });
}

/// More than a gallery has; an entry then takes a hundred events and more.
#[test]
fn one_holder_with_many_keepers() {
    let many = [(33, 22, 10), (64, 43, 21)].map(|(n, m, f)| Setting { n, m, f });
    for setting in many {
        let (found, met) = search(&[setting], Fault::None, if long() { 3_000_000 } else { 150_000 });
        println!("{setting:?}: {} entries, {:?}", met.entries, met.kinds);
        assert!(found.is_none(), "{setting:?}: two holders after {} steps", met.steps);
        assert!(met.entries > 50, "{setting:?}: only {} entries in {} steps", met.entries, met.steps);
    }
}

#[test]
fn two_holders_where_the_margin_is_not_above_0() {
    let margin_0_or_less = settings(false);
    assert_eq!(margin_0_or_less.len(), 27);
    for setting in margin_0_or_less {
        let (found, met) = search(&[setting], Fault::None, 3_000_000);
        assert!(found.is_some(), "{setting:?} shows nothing in {} steps", met.steps);
    }
}

/// In the setting 4,3,1, which is accepted, but for 'more than half', which is the setting 3,2,1. As a control, the same
/// search without a fault makes as many steps as the slowest of them took, and more.
#[test]
fn each_fault_brings_two_holders() {
    let (accepted, half) = (Setting { n: 4, m: 3, f: 1 }, Setting { n: 3, m: 2, f: 1 });
    let faults = [
        (Fault::AnswersOwner, accepted),
        (Fault::KeepsAnswers, accepted),
        (Fault::CountsOldTicket, accepted),
        (Fault::MoreThanHalf, half),
        (Fault::ComesTwice, accepted),
    ];
    let steps = 3_000_000;
    for (fault, setting) in faults {
        let (found, met) = search(&[setting], fault, steps);
        let gallery = found.unwrap_or_else(|| panic!("{fault:?} is not found in {} steps", met.steps));
        println!("{fault:?}: two holders after {} steps, {setting:?}, {} kiosks", met.steps, gallery.clients.len());
        assert!(gallery.most_down as u32 <= setting.f, "{fault:?}: this list is no run");
    }
    assert!(search(&[accepted], Fault::None, steps).0.is_none());
}
