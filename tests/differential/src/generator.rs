//! The next call of a random sequence: most often a right one, so that deep states are reached,
//! and else one with a fault.

use reference::message::kind;
use reference::session::{Session, OPEN, WAITING};
use reference::store::{Edition, KeyIdentifier, EDITION_1, EDITION_2};

use crate::both::World;
use crate::damage::damage;
use crate::layout::{entry_at, held};
use crate::library::REMEMBERED_AT;
use crate::model::session_of;
use crate::stores::{other_digit, Names};
use crate::wire::{self, Header, HEADER, LENGTH_MAX, PEER_NUM_MAX};
use reference::random::Random;

pub enum Action {
    Begin { identities: (u32, u32), number: u16 },
    Message(Vec<u8>),
    Find { peer: u32, t: u32 },
}

pub struct Generator {
    pub random: Random,
    pub names: Names,
    /// The most peers of a usual request.
    most_peers: usize,
    /// Where many keys were deleted, a large store would take most of a round to fill again.
    deletes_few: bool,
    /// The transaction number of the last command, whatever was answered.
    last: u32,
}

/// Sequence numbers, with those around the wrap often.
fn number(random: &mut Random) -> u16 {
    match random.below(3) {
        0 => random.u16(),
        1 => random.pick(&[0, 1, 255, 256, 32767, 32768]),
        _ => random.pick(&[65530, 65533, 65534, 65535]),
    }
}

impl Generator {
    /// Two rounds of three are over edition 1, whose calls take a fraction of the time.
    pub fn new(seed: u64) -> Generator {
        let mut random = Random::new(seed);
        let edition = random.pick(&[EDITION_1, EDITION_1, EDITION_2]);
        let names = Names::new(edition, &mut random);
        let most_peers = random.pick(&[2, 4, 9, 40]);
        let deletes_few = edition == EDITION_2 && !random.one_in(4);
        Generator {
            random,
            names,
            most_peers,
            deletes_few,
            last: 0,
        }
    }

    pub fn edition(&self) -> Edition {
        self.names.edition
    }

    /// A buffer of random bytes for the call to write to; 1,032 bytes or more most often.
    pub fn output(&mut self) -> Vec<u8> {
        let length = match self.random.below(40) {
            0 => self.random.pick(&[0, 1, 23, 523, 1031]),
            1 => 1033,
            2 => 5000,
            _ => 1032,
        };
        let fill = self.random.u8();
        (0..length)
            .map(|i| (i as u8).wrapping_mul(7) ^ fill)
            .collect()
    }

    pub fn action(&mut self, world: &World) -> Action {
        if self.random.one_in(8) {
            return self.search(world);
        }
        let session = session_of(&world.session);
        let begins = match session.state {
            OPEN | WAITING => self.random.one_in(60),
            _ => !self.random.one_in(4),
        };
        if begins {
            return self.begin();
        }
        let mut message = match session.state {
            WAITING => self.init(&session),
            _ => self.command(&session, world),
        };
        if self.random.one_in(7) {
            damage(&mut self.random, &mut message);
        }
        Action::Message(message)
    }

    fn begin(&mut self) -> Action {
        let own = u32::from_be_bytes(self.names.own);
        let centre = u32::from_be_bytes(self.names.centre);
        let other = u32::from_be_bytes(other_digit(&mut self.random, self.names.own));
        let identities = match self.random.below(12) {
            0 => (own, own),
            1 => (own, other),
            2 => (centre, own),
            _ => (own, centre),
        };
        let number = number(&mut self.random);
        Action::Begin { identities, number }
    }

    /// A moment around the start or the end of a held record, or any one: at those several
    /// fit more often.
    fn search(&mut self, world: &World) -> Action {
        let peer = u32::from_be_bytes(self.names.peer(&mut self.random));
        let any = self.names.moment(&mut self.random);
        let held = held(&world.store);
        if held == 0 || self.random.one_in(4) {
            return Action::Find { peer, t: any };
        }
        let entry = entry_at(&world.store, self.random.below(held));
        let edge = self.random.pick(&[entry.start, entry.end, any]);
        let t = edge
            .wrapping_add(self.random.below(3) as u32)
            .wrapping_sub(1);
        if entry.peers.is_empty() || self.random.one_in(3) {
            return Action::Find { peer, t };
        }
        let mut identity = self.random.pick(&entry.peers);
        if self.random.one_in(4) {
            identity = other_digit(&mut self.random, identity);
        }
        let peer = u32::from_be_bytes(identity);
        Action::Find { peer, t }
    }

    fn header(&self, session: &Session, transaction: u32) -> Header {
        Header {
            receiver: session.own,
            sender: session.peer,
            transaction,
            sequence: session.expected,
        }
    }

    /// The transaction number of a command. One that is repeated closes the session, so few are;
    /// but where none is remembered the last one is often taken. The number that stands in the
    /// session is taken one time in two where the flag is over 1, or is 0 beside a number but 0.
    fn transaction(&mut self, session: &Session, flag: u8) -> u32 {
        let held = session.transaction;
        let again = match (flag, held) {
            (0, 0) => 4,
            (1, _) => 100,
            _ => 2,
        };
        if self.random.one_in(again) {
            return self.random.pick(&[held, held, self.last]);
        }
        match self.random.below(40) {
            0 => 0,
            1 => held ^ 1 << self.random.below(32),
            2 => held.swap_bytes(),
            3 => self.random.pick(&[1, u32::MAX, self.last.wrapping_add(1)]),
            _ => self.random.u32(),
        }
    }

    /// A session init, with version 2 in its list most often.
    fn init(&mut self, session: &Session) -> Vec<u8> {
        let any = self.random.u32();
        let transaction = self.random.pick(&[0, self.last, session.transaction, any]);
        let header = Header {
            sequence: number(&mut self.random),
            ..self.header(session, transaction)
        };
        let versions = match self.random.below(10) {
            0 => vec![1, 3],
            1 => vec![],
            2 => vec![1, 2, 3],
            3 => vec![3; 254].into_iter().chain([2]).collect(),
            _ => vec![2],
        };
        let body = wire::init_body(&versions, self.random.u8());
        wire::message(&header, kind::SESSION_INIT, &body)
    }

    /// A command, end of update or a type that is not supported, with a right header.
    fn command(&mut self, session: &Session, world: &World) -> Vec<u8> {
        self.last = self.transaction(session, world.session[REMEMBERED_AT]);
        let header = self.header(session, self.last);
        let kind = match self.random.below(100) {
            0..=46 => kind::ADD_KEYS,
            47..=62 => kind::DELETE_KEYS,
            63..=74 => kind::UPDATE_KEY_VALIDITIES,
            75..=90 => kind::UPDATE_KEY_ENTITIES,
            91 if self.deletes_few && !self.random.one_in(10) => kind::ADD_KEYS,
            91 => kind::DELETE_ALL_KEYS,
            92..=93 => kind::END_OF_UPDATE,
            _ => self.random.pick(&[5, 6, 7, 8, 9, 11, 12, 13, 14, 200, 255]),
        };
        let body = match kind {
            0 | 1 | 3 | 4 => self.requests(session, kind, &world.store),
            kind::SESSION_INIT => wire::init_body(&[2], 255),
            _ => Vec::new(),
        };
        wire::message(&header, kind, &body)
    }

    /// A few requests, or as many as a message has room for.
    fn requests(&mut self, session: &Session, kind: u8, store: &[u8]) -> Vec<u8> {
        let count = match self.random.below(20) {
            0 | 1 if self.deletes_few && kind == kind::DELETE_KEYS => 2,
            0 => 500,
            1 => 250,
            2..=6 => 1,
            _ => self.random.between(1, 12),
        };
        let most = if kind == kind::DELETE_KEYS { 500 } else { 250 };
        let mut room = LENGTH_MAX - HEADER - 2;
        let mut requests = Vec::new();
        while requests.len() < count.min(most) {
            let request = self.request(session, kind, store);
            if request.len() > room {
                break;
            }
            room -= request.len();
            requests.push(request);
        }
        wire::body(&requests)
    }

    fn request(&mut self, session: &Session, kind: u8, store: &[u8]) -> Vec<u8> {
        let key = self.key(store);
        match kind {
            kind::ADD_KEYS => self.add(session, store),
            kind::DELETE_KEYS => wire::k_identifier(&key),
            kind::UPDATE_KEY_VALIDITIES => {
                let [start, end] = self.names.period(&mut self.random);
                wire::k_validity(&key, start, end)
            }
            _ => {
                let count = self.peer_count();
                wire::k_entities(&key, &self.names.peers(&mut self.random, count))
            }
        }
    }

    /// A held key most often; else one that is close to a held one, or any.
    fn key(&mut self, store: &[u8]) -> KeyIdentifier {
        let held = held(store);
        if held == 0 || self.random.one_in(3) {
            return self.names.identifier(&mut self.random);
        }
        let mut key = entry_at(store, self.random.below(held)).key;
        match self.random.below(10) {
            0 => key.issuer = other_digit(&mut self.random, key.issuer),
            1 => key.serial = other_digit(&mut self.random, key.serial),
            _ => {}
        }
        key
    }

    fn add(&mut self, session: &Session, store: &[u8]) -> Vec<u8> {
        let count = self.peer_count();
        let mut entry = self.names.entry(&mut self.random, count);
        let mut recipient = session.own;
        match self.random.below(16) {
            0 => recipient = other_digit(&mut self.random, recipient),
            1 => {
                let at = self.random.below(24);
                entry.kmac[at] ^= 1 << self.random.below(8);
            }
            2 => entry.kmac = self.random.array(),
            3 => entry.key = self.key(store),
            _ => {}
        }
        wire::k_struct(&recipient, &entry)
    }

    /// Few peers most often, else about as many as a store or a list holds, or more.
    fn peer_count(&mut self) -> usize {
        let most = self.edition().peers_max.min(PEER_NUM_MAX);
        match self.random.below(60) {
            0 => self.random.between(most - 6, most),
            1 => self.random.between(1, most),
            2 => self.random.pick(&[256, 257, 1000, 1001]),
            _ => self.random.between(1, self.most_peers),
        }
    }
}
