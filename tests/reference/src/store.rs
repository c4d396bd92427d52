//! The key store (01, "The key store", "What each request does", "Key search"; 02, change requests 4, 5 and 7).
//!
//! A store is decoded to a list of entries, the list is edited, and encoded again.

use crate::authentication::KEY_LENGTH;
use crate::reader::Reader;
use crate::refusal::{H1, H11, H12};
use crate::Identity;

pub const KEYS_AT: usize = 12;
pub const RECORD_LENGTH: usize = 44;
const PEER_LENGTH: usize = 4;
/// Where the KMAC stands in a record: behind issuer and serial.
const KMAC_IN_RECORD: usize = 8;

/// An edition of the store: its number and its limits, which give places and length.
#[derive(Clone, Copy, PartialEq, Eq, Debug)]
pub struct Edition {
    pub number: u16,
    pub keys_max: usize,
    pub peers_max: usize,
}

pub const EDITION_1: Edition = Edition {
    number: 1,
    keys_max: 64,
    peers_max: 256,
};

pub const EDITION_2: Edition = Edition {
    number: 2,
    keys_max: 500,
    peers_max: 4000,
};

pub const EDITIONS: [Edition; 2] = [EDITION_1, EDITION_2];

impl Edition {
    pub const fn peers_at(&self) -> usize {
        KEYS_AT + self.keys_max * RECORD_LENGTH
    }

    pub const fn length(&self) -> usize {
        self.peers_at() + self.peers_max * PEER_LENGTH
    }

    /// The edition that has stores of this length.
    pub fn of_length(length: usize) -> Option<Edition> {
        EDITIONS
            .into_iter()
            .find(|edition| edition.length() == length)
    }

    fn header_numbers(&self, key_count: usize, peer_count: usize) -> [u16; 6] {
        [
            self.number,
            key_count as u16,
            KEYS_AT as u16,
            peer_count as u16,
            self.peers_at() as u16,
            self.length() as u16,
        ]
    }
}

/// Issuer and serial number, which name a key (000, 5.3.4.2).
#[derive(Clone, Copy, PartialEq, Eq, Debug)]
pub struct KeyIdentifier {
    pub issuer: Identity,
    pub serial: [u8; 4],
}

#[derive(Clone, PartialEq, Eq, Debug)]
pub struct Entry {
    pub key: KeyIdentifier,
    pub kmac: [u8; 24],
    pub start: u32,
    pub end: u32,
    pub peers: Vec<Identity>,
}

impl Entry {
    /// The rule in force (02, change request 4): both ends belong to the period.
    pub fn fits(&self, t: u32) -> bool {
        self.start <= t && t <= self.end
    }
}

/// One request of a command message.
#[derive(Clone, PartialEq, Eq, Debug)]
pub enum Request {
    Add {
        recipient: Identity,
        entry: Entry,
    },
    Delete(KeyIdentifier),
    UpdateValidity {
        key: KeyIdentifier,
        start: u32,
        end: u32,
    },
    UpdateEntities {
        key: KeyIdentifier,
        peers: Vec<Identity>,
    },
}

/// The RESULT numbers in use (000, 5.3.15.1).
pub mod result {
    pub const DONE: u8 = 0;
    pub const UNKNOWN_KEY: u8 = 1;
    pub const TOO_MANY_KEYS: u8 = 2;
    pub const ALREADY_INSTALLED: u8 = 3;
    pub const CORRUPTED: u8 = 4;
    pub const RECIPIENT_MISMATCH: u8 = 5;
    pub const OTHER_ERROR: u8 = 255;
}

/// The entries of a sound store of the edition that has its length; `None` for any other.
pub fn decode(store: &[u8]) -> Option<Vec<Entry>> {
    let edition = Edition::of_length(store.len())?;
    let (key_count, peer_count) = counts(edition, store)?;
    let keys_end = KEYS_AT + key_count * RECORD_LENGTH;
    let peers_at = edition.peers_at();
    let peers_end = peers_at + peer_count * PEER_LENGTH;
    let mut records = Reader(&store[KEYS_AT..keys_end]);
    let mut peers = Reader(&store[peers_at..peers_end]);
    let mut entries = Vec::new();
    let mut used = 0;
    while !records.is_at_end() {
        let entry = entry(&mut records, &mut peers, used)?;
        used += entry.peers.len();
        entries.push(entry);
    }
    let unused = [&store[keys_end..peers_at], &store[peers_end..]].concat();
    let sound = peers.is_at_end()
        && identifiers_differ(&entries)
        && entries.iter().all(|entry| has_odd_parity(&entry.kmac))
        && unused.iter().all(|&byte| byte == 0);
    sound.then_some(entries)
}

/// The two counts, where they are in their limits and the four fixed numbers hold.
fn counts(edition: Edition, store: &[u8]) -> Option<(usize, usize)> {
    let numbers: [u16; 6] =
        std::array::from_fn(|i| u16::from_be_bytes([store[2 * i], store[2 * i + 1]]));
    let key_count = usize::from(numbers[1]);
    let peer_count = usize::from(numbers[3]);
    let right = numbers == edition.header_numbers(key_count, peer_count)
        && key_count <= edition.keys_max
        && peer_count <= edition.peers_max;
    right.then_some((key_count, peer_count))
}

/// The next record with its peers. Its first index must be `used`, the sum before it.
fn entry(records: &mut Reader, peers: &mut Reader, used: usize) -> Option<Entry> {
    let key = KeyIdentifier {
        issuer: records.bytes()?,
        serial: records.bytes()?,
    };
    let kmac = records.bytes()?;
    let start = records.u32()?;
    let end = records.u32()?;
    if usize::from(records.u16()?) != used {
        return None;
    }
    let count = records.u16()?;
    let peers = (0..count).map(|_| peers.bytes()).collect::<Option<_>>()?;
    Some(Entry {
        key,
        kmac,
        start,
        end,
        peers,
    })
}

/// Each is compared with all before it, as the sentence of 01 stands.
fn identifiers_differ(entries: &[Entry]) -> bool {
    let is_first = |(i, entry): (usize, &Entry)| place(entries, &entry.key) == Some(i);
    entries.iter().enumerate().all(is_first)
}

fn has_odd_parity(kmac: &[u8; 24]) -> bool {
    kmac.iter().all(|byte| byte.count_ones() % 2 == 1)
}

/// The one store of a list within the edition's limits.
pub fn encode(edition: Edition, entries: &[Entry]) -> Vec<u8> {
    let mut store = Vec::new();
    for number in edition.header_numbers(entries.len(), peer_sum(entries)) {
        store.extend(number.to_be_bytes());
    }
    let mut first = 0;
    for entry in entries {
        store.extend(entry.key.issuer);
        store.extend(entry.key.serial);
        store.extend(entry.kmac);
        store.extend(entry.start.to_be_bytes());
        store.extend(entry.end.to_be_bytes());
        store.extend((first as u16).to_be_bytes());
        store.extend((entry.peers.len() as u16).to_be_bytes());
        first += entry.peers.len();
    }
    store.resize(edition.peers_at(), 0);
    for entry in entries {
        store.extend(entry.peers.concat());
    }
    store.resize(edition.length(), 0);
    store
}

/// Works one request on the list. Gives its RESULT; the list changes only with RESULT 0.
pub fn work(edition: Edition, entries: &mut Vec<Entry>, own: &Identity, request: Request) -> u8 {
    match request {
        Request::Add { recipient, entry } => add(edition, entries, own, recipient, entry),
        Request::Delete(key) => on_held(entries, &key, |entries, i| {
            entries.remove(i);
            result::DONE
        }),
        Request::UpdateValidity { key, start, end } => on_held(entries, &key, |entries, i| {
            entries[i].start = start;
            entries[i].end = end;
            result::DONE
        }),
        Request::UpdateEntities { key, peers } => on_held(entries, &key, |entries, i| {
            if peer_sum(entries) - entries[i].peers.len() + peers.len() > edition.peers_max {
                return result::OTHER_ERROR;
            }
            entries[i].peers = peers;
            result::DONE
        }),
    }
}

/// The first reason that applies, in 01's order.
fn add(
    edition: Edition,
    entries: &mut Vec<Entry>,
    own: &Identity,
    recipient: Identity,
    entry: Entry,
) -> u8 {
    if recipient != *own {
        return result::RECIPIENT_MISMATCH;
    }
    if !has_odd_parity(&entry.kmac) {
        return result::CORRUPTED;
    }
    if place(entries, &entry.key).is_some() {
        return result::ALREADY_INSTALLED;
    }
    if entries.len() >= edition.keys_max {
        return result::TOO_MANY_KEYS;
    }
    if peer_sum(entries) + entry.peers.len() > edition.peers_max {
        return result::OTHER_ERROR;
    }
    entries.push(entry);
    result::DONE
}

/// Does `change` at the place of a held key; RESULT 1 where the key is not held.
fn on_held(
    entries: &mut Vec<Entry>,
    key: &KeyIdentifier,
    change: impl FnOnce(&mut Vec<Entry>, usize) -> u8,
) -> u8 {
    match place(entries, key) {
        Some(i) => change(entries, i),
        None => result::UNKNOWN_KEY,
    }
}

fn place(entries: &[Entry], key: &KeyIdentifier) -> Option<usize> {
    entries.iter().position(|entry| entry.key == *key)
}

/// The peers of all entries together.
pub fn peer_sum(entries: &[Entry]) -> usize {
    entries.iter().map(|entry| entry.peers.len()).sum()
}

/// The record that a search takes: its place, the first being 1, and its end.
#[derive(Clone, Copy, PartialEq, Eq, Debug)]
pub struct Found {
    pub place: usize,
    pub end: u32,
}

/// Of the records for `peer` with start <= t <= end (02, change request 4) the one with the latest end,
/// the first of them where several have it (change request 7).
pub fn find(store: &[u8], peer: &Identity, t: u32) -> Result<Found, u8> {
    if Edition::of_length(store.len()).is_none() {
        return Err(H1);
    }
    let entries = decode(store).ok_or(H12)?;
    let fits = |entry: &Entry| entry.peers.contains(peer) && entry.fits(t);
    let fitting: Vec<Found> = (1..)
        .zip(entries)
        .filter(|(_, entry)| fits(entry))
        .map(|(place, Entry { end, .. })| Found { place, end })
        .collect();
    let latest = fitting.iter().map(|found| found.end).max().ok_or(H11)?;
    let first = fitting.into_iter().find(|found| found.end == latest);
    Ok(first.expect("a fitting record has the latest end"))
}

/// The second call of a search: the KMAC of the record that `find` takes, as a part of the store; empty
/// where `find` refuses.
pub fn key<'a>(store: &'a [u8], peer: &Identity, t: u32) -> &'a [u8] {
    let Ok(Found { place, .. }) = find(store, peer, t) else {
        return &[];
    };
    let record = &store[KEYS_AT + (place - 1) * RECORD_LENGTH..];
    &record[KMAC_IN_RECORD..][..KEY_LENGTH]
}
