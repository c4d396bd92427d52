//! Stores of each edition that are unsound in each way that document 01 tells, with the header of
//! the other edition among them, and bits of stores flipped.

use reference::message::kind;
use reference::session::OPEN;
use reference::store::{encode, Edition, Entry, EDITIONS, EDITION_1, EDITION_2};

use crate::both::{Both, Step, World};
use crate::faults::{unsound, FAULTS};
use crate::layout::{other, record_at, IDENTIFIER, KEYS_AT, LENGTHS, PEER, RECORD};
use crate::scene::{Scene, OUTPUT};
use crate::wire;

pub fn all(both: &mut Both, seed: u64) -> Step {
    for edition in EDITIONS {
        every_fault(both, edition, seed)?;
        other_headers(both, edition, seed)?;
        chosen_bits(both, edition, seed)?;
        every_pair_shares(both, edition, seed)?;
        garbage(both, edition, seed)?;
    }
    every_bit(both, seed)?;
    every_byte(both, seed)?;
    empty_stores(both, seed)
}

/// A store before each message and a search.
fn meet(both: &mut Both, scene: &mut Scene, store: &[u8]) -> Step {
    for message in scene.messages() {
        let mut world = scene.world(OPEN);
        world.store = store.to_vec();
        both.receive(&mut world, &message, &OUTPUT)?;
    }
    let peer = u32::from_be_bytes(scene.names.peer(&mut scene.random));
    let t = scene.names.moment(&mut scene.random);
    both.find(store, peer, t)?;
    Ok(())
}

/// Each fault in stores of every size.
fn every_fault(both: &mut Both, edition: Edition, seed: u64) -> Step {
    let turns = if edition == EDITION_1 { 40 } else { 20 };
    for turn in 0..turns {
        let mut scene = Scene::new(edition, seed ^ (200 + turn));
        let entries = scene.names.sound(&mut scene.random);
        for fault in FAULTS {
            let store = unsound(&mut scene.random, edition, &entries, fault);
            meet(both, &mut scene, &store)?;
        }
    }
    // The counts alone are wrong only where keys or peers fill the store.
    let mut scene = Scene::new(edition, seed ^ 25);
    for keys in [1, edition.keys_max] {
        let entries = scene.names.filled(&mut scene.random, keys, 0);
        for fault in FAULTS {
            let store = unsound(&mut scene.random, edition, &entries, fault);
            meet(both, &mut scene, &store)?;
        }
    }
    Ok(())
}

/// Buffers of one edition's length: a store of the other, cut or grown, and its header over the
/// records and peers of this one.
fn other_headers(both: &mut Both, edition: Edition, seed: u64) -> Step {
    let other = other(edition);
    for keys in [0, 1, 5, other.keys_max.min(64)] {
        let mut scene = Scene::new(other, seed ^ (26 + keys as u64));
        let entries = scene.names.entries(&mut scene.random, keys, 4);
        for store in with_other_header(edition, &entries) {
            meet(both, &mut scene, &store)?;
        }
    }
    Ok(())
}

/// The other edition's store of the entries in this one's length, and its header over this one's.
pub fn with_other_header(edition: Edition, entries: &[Entry]) -> [Vec<u8>; 2] {
    let theirs = encode(other(edition), entries);
    let mut resized = theirs.clone();
    resized.resize(edition.length(), 0);
    let mut store = encode(edition, entries);
    store[..KEYS_AT].copy_from_slice(&theirs[..KEYS_AT]);
    [resized, store]
}

/// A store with a held record, and a search and an update that reach it.
struct Target {
    sound: World,
    peer: u32,
    t: u32,
    update: Vec<u8>,
}

impl Target {
    fn new(scene: &Scene, entries: &[Entry], place: usize) -> Target {
        let entry = &entries[place];
        let request = wire::k_validity(&entry.key, 1, 2);
        Target {
            sound: scene.over(entries),
            peer: entry
                .peers
                .first()
                .map_or(0, |&peer| u32::from_be_bytes(peer)),
            t: entry.start,
            update: scene.message(kind::UPDATE_KEY_VALIDITIES, &wire::body(&[request])),
        }
    }

    /// A search and an update with one bit of the store flipped.
    fn flip(&self, both: &mut Both, at: usize, bit: usize) -> Step {
        let mut world = self.sound.clone();
        world.store[at] ^= 1 << bit;
        both.find(&world.store, self.peer, self.t)?;
        both.receive(&mut world, &self.update, &OUTPUT)?;
        Ok(())
    }
}

/// Each bit of a store of five records of edition 1.
fn every_bit(both: &mut Both, seed: u64) -> Step {
    let scene = Scene::new(EDITION_1, seed ^ 21);
    let target = Target::new(&scene, &scene.entries, 4);
    for at in 0..EDITION_1.length() {
        for bit in 0..8 {
            target.flip(both, at, bit)?;
        }
    }
    Ok(())
}

/// One bit of each byte of a store of five records of edition 2, which has too many to flip all.
fn every_byte(both: &mut Both, seed: u64) -> Step {
    let mut scene = Scene::new(EDITION_2, seed ^ 27);
    let target = Target::new(&scene, &scene.entries, 4);
    for at in 0..EDITION_2.length() {
        target.flip(both, at, scene.random.below(8))?;
    }
    Ok(())
}

/// Each bit of the header, of three records, of the peers at both ends and of the ends of the
/// unused parts, and some bits anywhere: in full stores, in one that has room for one key and one
/// peer, and in one that has room for many.
fn chosen_bits(both: &mut Both, edition: Edition, seed: u64) -> Step {
    let (most, half) = (edition.keys_max, edition.keys_max / 2);
    for (keys, free) in [(most, 0), (most - 1, 1), (half, edition.peers_max / 2)] {
        let mut scene = Scene::new(edition, seed ^ (500 + keys as u64));
        let entries = scene.names.filled(&mut scene.random, keys, free);
        let target = Target::new(&scene, &entries, keys - 1);
        for at in chosen_bytes(edition, &entries) {
            for bit in 0..8 {
                target.flip(both, at, bit)?;
            }
        }
        for _ in 0..2000 {
            let at = scene.random.below(edition.length());
            target.flip(both, at, scene.random.below(8))?;
        }
    }
    Ok(())
}

pub fn chosen_bytes(edition: Edition, entries: &[Entry]) -> Vec<usize> {
    let peers: usize = entries.iter().map(|entry| entry.peers.len()).sum();
    let last = entries.len() - 1;
    let keys_end = record_at(entries.len());
    let (peers_at, end) = (edition.peers_at(), edition.length());
    let peers_end = peers_at + PEER * peers;
    let mut bytes: Vec<usize> = (0..KEYS_AT).collect();
    for place in [0, last / 2, last] {
        bytes.extend(record_at(place)..record_at(place) + RECORD);
    }
    bytes.extend((peers_at..peers_at + PEER).chain(peers_end - PEER..peers_end));
    for unused in [keys_end..peers_at, peers_end..end] {
        bytes.extend(unused.clone().take(1).chain(unused.last()));
    }
    bytes
}

/// Each two records of a full store with one issuer and serial, and some with all of it but one
/// bit.
fn every_pair_shares(both: &mut Both, edition: Edition, seed: u64) -> Step {
    let mut scene = Scene::new(edition, seed ^ 22);
    let entries = scene.names.entries(&mut scene.random, edition.keys_max, 4);
    let store = scene.store(&entries);
    let peer = u32::from_be_bytes(scene.names.peer(&mut scene.random));
    for second in 1..entries.len() {
        for first in 0..second {
            let mut shared = store.clone();
            let (from, to) = (record_at(first), record_at(second));
            shared.copy_within(from..from + IDENTIFIER, to);
            both.find(&shared, peer, 0)?;
            if edition == EDITION_1 || scene.random.one_in(32) {
                let at = to + scene.random.below(IDENTIFIER);
                shared[at] ^= 1 << scene.random.below(8);
                both.find(&shared, peer, 0)?;
            }
        }
    }
    Ok(())
}

/// Buffers of any bytes, with and without a right header.
fn garbage(both: &mut Both, edition: Edition, seed: u64) -> Step {
    let mut scene = Scene::new(edition, seed ^ 24);
    for turn in 0..100 {
        let mut store = scene.random.bytes(edition.length());
        if turn % 2 == 0 {
            store[..KEYS_AT].copy_from_slice(&scene.store(&scene.entries)[..KEYS_AT]);
        }
        meet(both, &mut scene, &store)?;
    }
    Ok(())
}

/// The empty store, over buffers of any contents and of lengths around the right ones, and over
/// stores of either edition.
fn empty_stores(both: &mut Both, seed: u64) -> Step {
    let mut scene = Scene::new(EDITION_1, seed ^ 23);
    for length in LENGTHS {
        for _ in 0..20 {
            let store = scene.random.bytes(length);
            both.empty_store(&store)?;
        }
        for edition in EDITIONS {
            let scene = Scene::new(edition, seed ^ 28);
            let mut store = scene.store(&scene.entries);
            store.resize(length, 0);
            both.empty_store(&store)?;
        }
    }
    Ok(())
}
