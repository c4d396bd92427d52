//! Two sides that share a key, with a store of each, and connections in every state between them.

use reference::authentication::session_keys;
use reference::setup::{Connection, WFTC};
use reference::store::{encode, key, Edition, Entry, KeyIdentifier};
use reference::Identity;

use crate::incoming::{ConnectionBytes, Indication, Request};
use crate::stores::{odd_kmac, other_digit, Names};
use crate::table::STATES;
use reference::random::Random;

pub struct Parties {
    pub random: Random,
    /// The caller and the called side.
    pub identities: [Identity; 2],
    /// What each searches.
    pub stores: [Vec<u8>; 2],
    /// A moment at which a key fits.
    pub t: u32,
    pub ra: [u8; 8],
    pub rb: [u8; 8],
}

impl Parties {
    /// Stores of these editions that give both sides the same key.
    pub fn new(editions: [Edition; 2], seed: u64) -> Parties {
        let mut random = Random::new(seed);
        let caller = identity(&mut random);
        let called = neighbour(&mut random, caller);
        let identities = [caller, called];
        let shared = Shared::new(&mut random, &identities);
        let stores = editions.map(|edition| shared.store(&mut random, edition));
        Parties {
            identities,
            stores,
            t: shared.t,
            ra: random.array(),
            rb: random.array(),
            random,
        }
    }

    pub fn request(&self) -> Request<'_> {
        let [caller, called] = self.identities.map(u32::from_be_bytes);
        Request {
            acceptable: 1,
            own: caller,
            peer: called,
            t: self.t,
            rb: self.rb,
            store: &self.stores[0],
        }
    }

    pub fn indication<'a>(&'a self, unit: &'a [u8]) -> Indication<'a> {
        Indication {
            acceptable: 1,
            own: u32::from_be_bytes(self.identities[1]),
            t: self.t,
            ra: self.ra,
            unit,
            store: &self.stores[1],
        }
    }

    fn kmac(&self) -> [u8; 24] {
        let found = key(&self.stores[0], &self.identities[1], self.t);
        found.try_into().expect("a key fits")
    }

    /// A connection in this state. Each state has both roles, though set-up gives most of them one.
    pub fn connection(&self, state: u8, responder: bool) -> Connection {
        let [caller, called] = self.identities;
        let (own, peer) = match responder {
            true => (called, caller),
            false => (caller, called),
        };
        let kmac = self.kmac();
        let session_key = session_keys(&kmac, &self.ra, &self.rb).expect("a KMAC has 24 bytes");
        let (ra, key) = match state {
            WFTC => ([0; 8], kmac),
            _ => (self.ra, session_key),
        };
        Connection {
            state,
            responder,
            own,
            peer,
            ra,
            rb: self.rb,
            key,
        }
    }

    /// In every state and role, and where there is none.
    pub fn connections(&self) -> Vec<ConnectionBytes> {
        let both_roles = |state| [false, true].map(|role| self.connection(state, role));
        let all = STATES.into_iter().flat_map(both_roles);
        all.chain([Connection::NONE])
            .map(|connection| connection.to_bytes())
            .collect()
    }
}

/// A type that an ETY can name, 7 often.
fn identity(random: &mut Random) -> Identity {
    let mut identity: Identity = random.array();
    identity[0] = random.pick(&[0, 1, 2, 3, 4, 5, 6, 7, 7]);
    identity
}

/// Another identity, or one unlike in the type only, in a digit only, or not at all.
fn neighbour(random: &mut Random, identity: Identity) -> Identity {
    let mut other = match random.below(8) {
        0 => identity,
        1 => [identity[0] ^ 1, identity[1], identity[2], identity[3]],
        2 | 3 => other_digit(random, identity),
        _ => self::identity(random),
    };
    other[0] &= 7;
    other
}

/// The records that both stores have: those of the two sides.
struct Shared {
    entries: Vec<Entry>,
    t: u32,
}

impl Shared {
    /// One record that is taken at `t`, and at times others of the same peers: one before it that ends
    /// earlier, one behind it that ends with it, one that has ended, one that has not begun.
    fn new(random: &mut Random, identities: &[Identity; 2]) -> Shared {
        let t = random.pick(&[0x1000, 0x7fff_ffff, 0xffff_fff0]) + random.below(9) as u32;
        let room = random.pick(&[0, 0, 1, 5]);
        let mut entries = vec![record(random, identities, 1, [t - 5, t + room])];
        if room > 0 {
            entries.insert(0, record(random, identities, 2, [t - 9, t + room - 1]));
        }
        if random.one_in(2) {
            entries.push(record(random, identities, 3, [t - 3, t + room]));
        }
        if random.one_in(2) {
            entries.insert(0, record(random, identities, 4, [0, t - 1]));
        }
        if random.one_in(2) {
            entries.push(record(random, identities, 5, [t + 1, t + room + 1]));
        }
        Shared { entries, t }
    }

    /// Them with a few of other peers before and behind.
    fn store(&self, random: &mut Random, edition: Edition) -> Vec<u8> {
        let names = Names::new(edition, random);
        let mut before = random.below(3);
        if random.one_in(20) {
            before = edition.keys_max - self.entries.len() - 3;
        }
        let others = names.entries(random, before + 3, 2);
        let (first, last) = others.split_at(before);
        encode(edition, &[first, &self.entries, last].concat())
    }
}

/// A record of both sides and another peer.
fn record(
    random: &mut Random,
    identities: &[Identity; 2],
    serial: u32,
    [start, end]: [u32; 2],
) -> Entry {
    Entry {
        key: KeyIdentifier {
            issuer: random.array(),
            serial: (0x00e0_0000 + serial).to_be_bytes(),
        },
        kmac: odd_kmac(random),
        start,
        end,
        peers: [&[random.array()], &identities[..]].concat(),
    }
}
