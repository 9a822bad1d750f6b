//! A gallery as the words that the library keeps of it, and the library's two ways to give it an event. The order of the
//! words is the library's own; no paper has it.

use crate::gallery::{Client, Event, Gallery, Kept, Server, GALLERY, KEEPERS, KIOSKS};
use crate::keeper::Keeper;
use crate::kiosk::{Kiosk, REMAINDER};
use crate::model::Message;
use crate::players::{Players, OLD};
use crate::script::line_of;
use crate::setting::Setting;
use crate::{index, library};

/// How records stand in these words: with places for a gallery's keepers and kiosks, as before document 02, L3, and a kiosk's clock.
pub const FORM: Players = Players { clock: true, ..OLD };
/// n, m, f, the kiosks, the messages kept, the last message's number, the most keepers down within an epoch.
pub const HEAD: usize = 7;
/// 1 for a kiosk that lives, its record, and for each keeper 1 if it was ever down in the epoch.
pub const CLIENT: usize = 1 + FORM.kiosk_words() + KEEPERS as usize;
/// 1 for a keeper that is up, and its record.
pub const SERVER: usize = 1 + FORM.keeper_words();
/// The message's number, 1 if it is taken, and its five words.
pub const SLOT: usize = 7;
/// Where the index begins, behind the last slot.
pub const INDEX: usize = slot_at(GALLERY.places);
pub const WORDS: usize = INDEX + index::WORDS;

/// Where the block of the kiosk in this place, counted from 0, begins.
pub const fn client_at(place: usize) -> usize {
    HEAD + CLIENT * place
}

pub const fn server_at(place: usize) -> usize {
    client_at(KIOSKS as usize) + SERVER * place
}

pub const fn slot_at(place: usize) -> usize {
    server_at(KEEPERS as usize) + SLOT * place
}

/// Where the flags of the kiosk in this place begin.
pub const fn flags_at(place: usize) -> usize {
    client_at(place) + 1 + FORM.kiosk_words()
}

pub fn words_of(gallery: &Gallery) -> Vec<u32> {
    let Setting { n, m, f } = gallery.setting;
    let counts = [gallery.clients.len(), gallery.kept.len(), gallery.last as usize, gallery.most_down].map(|count| count as u32);
    let mut words = vec![0; WORDS];
    words[..3].copy_from_slice(&[n, m, f]);
    words[3..HEAD].copy_from_slice(&counts);
    for (i, client) in gallery.clients.iter().enumerate() {
        words[client_at(i)] = client.living.into();
        client.record.put(&mut words[client_at(i) + 1..flags_at(i)]);
        for &down in client.epoch.iter().flatten() {
            words[flags_at(i) + down as usize - 1] = 1;
        }
    }
    for (i, server) in gallery.servers.iter().enumerate() {
        words[server_at(i)] = server.up.into();
        server.record.put(&mut words[server_at(i) + 1..server_at(i + 1)]);
    }
    for (i, Kept { number, message, taken }) in gallery.kept.iter().enumerate() {
        let Message { kind, kiosk, keeper, ticket, owner } = *message;
        let slot = [*number as u32, u32::from(*taken), kind, kiosk, keeper, ticket, owner];
        words[slot_at(i)..slot_at(i + 1)].copy_from_slice(&slot);
    }
    words[INDEX..].copy_from_slice(&index::words(&index::lists(&gallery.kept)));
    words
}

/// The messages in the slots, as they stand there.
fn kept_in(words: &[u32]) -> Vec<Kept> {
    let kept = |i: usize| {
        let slot = &words[slot_at(i)..slot_at(i + 1)];
        let message = Message { kind: slot[2], kiosk: slot[3], keeper: slot[4], ticket: slot[5], owner: slot[6] };
        Kept { number: slot[0].into(), message, taken: slot[1] == 1 }
    };
    (0..GALLERY.places.min(words[4] as usize)).map(kept).collect()
}

/// The words of the index made afresh from the slots. Where these are broken it still has all that can be listed.
pub fn index_of(words: &[u32]) -> Vec<u32> {
    index::words(&index::lists(&kept_in(words)))
}

/// The gallery in words that are not broken. An epoch runs while a kiosk lives and is not in remainder.
pub fn gallery_of(words: &[u32]) -> Result<Gallery, u32> {
    let client = |i: usize| {
        let record = Kiosk::read(FORM, &words[client_at(i) + 1..flags_at(i)])?;
        let living = words[client_at(i)] == 1;
        let down = (1..=KEEPERS).filter(|j| words[flags_at(i) + *j as usize - 1] == 1).collect();
        let epoch = (living && record.section != REMAINDER).then_some(down);
        Ok(Client { living, record, epoch })
    };
    let server = |i: usize| {
        let record = Keeper::read(FORM, &words[server_at(i) + 1..server_at(i + 1)])?;
        Ok(Server { up: words[server_at(i)] == 1, record })
    };
    let mut gallery = Gallery::new(Setting::new(words[0], words[1], words[2])?, words[3], GALLERY)?;
    gallery.clients = (0..words[3] as usize).map(client).collect::<Result<_, u32>>()?;
    gallery.servers = (0..words[0] as usize).map(server).collect::<Result<_, u32>>()?;
    gallery.kept = kept_in(words);
    gallery.last = words[5].into();
    gallery.most_down = words[6] as usize;
    Ok(gallery)
}

/// The messages sent and the living holders, or the refusal.
pub type Answer = Result<[u32; 2], u32>;

pub fn by_model(gallery: &mut Gallery, event: Event) -> Answer {
    let sent = gallery.event(event)?;
    Ok([sent as u32, gallery.holders() as u32])
}

/// What stands beside each slice that a call is lent, and must stay.
const EDGE: usize = 3;
const FILLER: u32 = 0x5A5A_5A5A;

fn edged(words: &[u32]) -> Vec<u32> {
    [&[FILLER; EDGE], words, &[FILLER; EDGE]].concat()
}

/// What stands between the edges, once the call is over.
fn inside(edged: &[u32]) -> &[u32] {
    let (front, rest) = edged.split_at(EDGE);
    let (words, back) = rest.split_at(rest.len() - EDGE);
    assert!(front == [FILLER; EDGE] && back == [FILLER; EDGE], "a word beside the slice was changed");
    words
}

/// A new simulation by `sigma_simulation_new`, with so many words lent. A refused call leaves them.
pub fn new_by_call(n: u32, m: u32, f: u32, kiosks: u32, room: usize) -> Result<Vec<u32>, u32> {
    let mut lent = edged(&vec![FILLER; room]);
    let refusal = library::simulation_new(n, m, f, kiosks, &mut lent[EDGE..EDGE + room]);
    let words = inside(&lent);
    if refusal != 0 {
        assert!(words.iter().all(|&word| word == FILLER), "{refusal} changed something: {n} {m} {f} {kiosks}");
        return Err(refusal);
    }
    Ok(words.to_vec())
}

/// The event by `sigma_simulation_event`, with so many words lent for the answer. A refused call leaves all it was lent.
pub fn by_call(words: &mut [u32], kind: u32, number: u32, room: usize) -> Answer {
    let (mut lent, mut answer) = (edged(words), edged(&vec![FILLER; room]));
    let last = EDGE + words.len();
    let refusal = library::simulation_event(&mut lent[EDGE..last], kind, number, &mut answer[EDGE..EDGE + room]);
    let (after, answer) = (inside(&lent), inside(&answer));
    if refusal != 0 {
        assert!(after == words && answer.iter().all(|&word| word == FILLER), "{refusal} changed something: {kind} {number}");
        return Err(refusal);
    }
    words.copy_from_slice(after);
    assert!(room >= 2, "{kind} {number} is accepted without room for its answer");
    assert!(answer[2..].iter().all(|&word| word == FILLER), "the words behind the answer stay");
    Ok([answer[0], answer[1]])
}

/// The state of a script that has answered so many lines, before its simulation: none is begun, and the most holders at once
/// are as many as there can be.
const ANSWERED: u32 = 500;
/// A script's own words, in front of its simulation's.
pub const STATE: usize = 46;

fn state_head() -> [u32; STATE] {
    let mut head = [0; STATE];
    head[..4].copy_from_slice(&[1, ANSWERED, 100, KIOSKS]);
    head
}

/// The event by `sigma_script_feed`, as the line that asks for it. 21 leaves all it was lent, another refusal the simulation.
pub fn by_script(words: &mut [u32], event: Event) -> Answer {
    let mut state = state_head().to_vec();
    state.extend_from_slice(words);
    let (mut out, mut counts) = ([FILLER as u8; 52], [usize::MAX; 2]);
    let line = line_of(event) + "\n";
    let refusal = library::script_feed(&mut state, line.as_bytes(), &mut out, &mut counts);
    let (head, after) = state.split_at(STATE);
    if refusal != 0 {
        let left = head == state_head() && out == [FILLER as u8; 52] && counts == [usize::MAX; 2];
        assert!(left && after == words, "{refusal} changed something: {line}");
        return Err(refusal);
    }
    assert_eq!(counts[0], line.len(), "the line is taken in");
    let printed = String::from_utf8_lossy(&out[..counts[1]]).into_owned();
    let answer = match printed.trim_end().split(' ').collect::<Vec<_>>()[..] {
        [_, "ok", sent, holders] => Ok([sent, holders].map(number)),
        [_, "no", refusal] => Err(number(refusal)),
        _ => panic!("{printed}"),
    };
    assert!(printed.starts_with(&format!("{} ", ANSWERED + 1)), "{printed}");
    assert!(answer.is_ok() || after == words, "{answer:?} changed the simulation: {line}");
    words.copy_from_slice(after);
    answer
}

fn number(word: &str) -> u32 {
    word.parse().expect("a number")
}
