//! The setting of the systematic tests: an open session over a small store of an edition, and a
//! right message of each type for it.

use reference::message::kind;
use reference::session::{Session, OPEN};
use reference::store::{encode, Edition, Entry};

use crate::both::World;
use crate::model::bytes_of;
use crate::stores::Names;
use crate::wire::{self, Header};
use reference::random::Random;

pub const OUTPUT: [u8; 1032] = [0xee; 1032];

/// The number that a scene's session expects.
const EXPECTED: u16 = 300;

/// The transaction number of a scene's message: another for each sequence number, so that a chain
/// of messages repeats none.
fn transaction(sequence: u16) -> u32 {
    0x89ab_0000 | u32::from(sequence)
}

pub struct Scene {
    pub random: Random,
    pub names: Names,
    pub entries: Vec<Entry>,
}

impl Scene {
    /// Five records with one to four peers each.
    pub fn new(edition: Edition, seed: u64) -> Scene {
        let mut random = Random::new(seed);
        let names = Names::new(edition, &mut random);
        let mut entries = names.entries(&mut random, 5, 0);
        for entry in &mut entries {
            let count = random.between(1, 4);
            entry.peers = names.peers(&mut random, count);
        }
        Scene {
            random,
            names,
            entries,
        }
    }

    /// It remembers the transaction number of the message before.
    pub fn session(&self, state: u8) -> Session {
        Session {
            state,
            own: self.names.own,
            peer: self.names.centre,
            next: 700,
            expected: EXPECTED,
            remembered: true,
            transaction: transaction(EXPECTED - 1),
        }
    }

    pub fn world(&self, state: u8) -> World {
        World {
            session: bytes_of(&self.session(state)),
            store: self.store(&self.entries),
        }
    }

    /// An open session over the store of other entries.
    pub fn over(&self, entries: &[Entry]) -> World {
        World {
            session: bytes_of(&self.session(OPEN)),
            store: self.store(entries),
        }
    }

    /// The store of the entries in the scene's edition.
    pub fn store(&self, entries: &[Entry]) -> Vec<u8> {
        encode(self.names.edition, entries)
    }

    pub fn header(&self) -> Header {
        self.header_with(EXPECTED)
    }

    pub fn header_with(&self, sequence: u16) -> Header {
        Header {
            receiver: self.names.own,
            sender: self.names.centre,
            transaction: transaction(sequence),
            sequence,
        }
    }

    pub fn message(&self, kind: u8, body: &[u8]) -> Vec<u8> {
        wire::message(&self.header(), kind, body)
    }

    /// An entry that the store does not hold.
    pub fn fresh(&mut self, peer_count: usize) -> Entry {
        let mut entry = self.names.entry(&mut self.random, peer_count);
        entry.key.serial = (0x00f0_0001 + self.random.below(0xffff) as u32).to_be_bytes();
        entry
    }

    pub fn k_struct(&mut self, peer_count: usize) -> Vec<u8> {
        let entry = self.fresh(peer_count);
        wire::k_struct(&self.names.own, &entry)
    }

    /// An add of a fresh key and of one that is held.
    pub fn add(&mut self) -> Vec<u8> {
        let held = wire::k_struct(&self.names.own, &self.entries[1]);
        let requests = [self.k_struct(2), held, self.k_struct(1)];
        self.message(kind::ADD_KEYS, &wire::body(&requests))
    }

    /// A right message of each type that the module works on.
    pub fn commands(&mut self) -> Vec<Vec<u8>> {
        let key = self.entries[2].key;
        let last = self.entries[4].key;
        let peers = self.names.peers(&mut self.random, 3);
        let deletes = [wire::k_identifier(&key), wire::k_identifier(&last)];
        let validities = [wire::k_validity(&key, 5, 9), wire::k_validity(&last, 9, 5)];
        let entities = [
            wire::k_entities(&key, &peers),
            wire::k_entities(&last, &peers[..1]),
        ];
        vec![
            self.add(),
            self.message(kind::DELETE_KEYS, &wire::body(&deletes)),
            self.message(kind::DELETE_ALL_KEYS, &[]),
            self.message(kind::UPDATE_KEY_VALIDITIES, &wire::body(&validities)),
            self.message(kind::UPDATE_KEY_ENTITIES, &wire::body(&entities)),
            self.message(kind::END_OF_UPDATE, &[]),
        ]
    }

    /// The commands, session inits and messages of types that are not supported.
    pub fn messages(&mut self) -> Vec<Vec<u8>> {
        let mut messages = self.commands();
        messages.push(self.message(kind::SESSION_INIT, &wire::init_body(&[2], 255)));
        messages.push(self.message(kind::SESSION_INIT, &wire::init_body(&[1, 2, 3], 5)));
        messages.push(self.message(kind::SESSION_INIT, &wire::init_body(&[1], 5)));
        messages.push(self.message(kind::RESPONSE, &[0, 0, 0]));
        messages
    }
}
