//! Unit tests, with the messages and stores they share. Messages are written here byte
//! by byte and not with the library, so that a slip of the library shows.

mod authentication;
mod conversion;
mod des;
mod numbers;
mod report;
mod runs;
mod search;
mod self_test;
mod session;
mod setup;
mod slips;
mod soundness;
mod store;
mod transactions;

use crate::message::kind;
use crate::session::{receive, Answer, Session, OPEN};
use crate::store::{decode, encode, find, Edition, Entry, Found, KeyIdentifier, EDITIONS};
use crate::Identity;

const OWN: Identity = [0x02, 0xe6, 0xa5, 0x4b];
const CENTRE: Identity = [0x05, 0x11, 0x22, 0x33];
const ISSUER: Identity = [0x05, 0x44, 0x55, 0x66];

/// Lengths of a store of neither edition.
const WRONG_LENGTHS: [usize; 6] = [0, 12, 3851, 3853, 38011, 38013];

/// Where the fields of a header start (000, 5.3.3).
const VERSION_AT: usize = 4;
const RECEIVER_AT: usize = 5;
const SENDER_AT: usize = 9;
const TRANSACTION_AT: usize = 13;
const SEQUENCE_AT: usize = 17;
const TYPE_AT: usize = 19;

/// n bytes, byte i being (seed + 37 i) mod 256.
fn pattern<const N: usize>(seed: usize) -> [u8; N] {
    std::array::from_fn(|i| (seed + 37 * i) as u8)
}

fn identifier(number: u32) -> KeyIdentifier {
    KeyIdentifier {
        issuer: ISSUER,
        serial: number.to_be_bytes(),
    }
}

/// `count` peers that no other number has.
fn peers(number: u32, count: usize) -> Vec<Identity> {
    let [_, _, upper, lower] = number.to_be_bytes();
    (0..count)
        .map(|i| [0x01 + upper, lower, (i >> 8) as u8, i as u8])
        .collect()
}

/// A KMAC of odd parity.
fn kmac(number: u32) -> [u8; 24] {
    std::array::from_fn(|i| {
        let upper = (number as u8).wrapping_mul(14).wrapping_add(6 * i as u8) & 0xfe;
        upper | ((upper.count_ones() as u8 + 1) % 2)
    })
}

fn entry(number: u32, peer_count: usize) -> Entry {
    Entry {
        key: identifier(number),
        kmac: kmac(number),
        start: 0x1000 + number,
        end: 0x2000 + number,
        peers: peers(number, peer_count),
    }
}

/// One entry for each number of peers, numbered from 1.
fn entries(peer_counts: &[usize]) -> Vec<Entry> {
    (1..)
        .zip(peer_counts)
        .map(|(n, &count)| entry(n, count))
        .collect()
}

/// As many entries as the edition takes, and with them as many peers: 64 by 4, or 500 by 8.
fn full(edition: Edition) -> Vec<Entry> {
    let peers_each = edition.peers_max / edition.keys_max;
    entries(&vec![peers_each; edition.keys_max])
}

fn unsound(edition: Edition) -> Vec<u8> {
    let mut store = encode(edition, &entries(&[1]));
    store[edition.length() - 1] = 1;
    store
}

/// The answer of a search that takes the record of this place and end.
fn found(place: usize, end: u32) -> Result<Found, u8> {
    Ok(Found { place, end })
}

/// Asserts that a record with this period, alone in a store, is found at the first moments and not at
/// the others.
fn assert_fits([start, end]: [u32; 2], at: &[u32], not_at: &[u32]) {
    let alone = [Entry {
        start,
        end,
        ..entry(1, 1)
    }];
    let peer = alone[0].peers[0];
    for edition in EDITIONS {
        let store = encode(edition, &alone);
        for &t in at {
            assert_eq!(find(&store, &peer, t), found(1, end), "{t:08x}");
        }
        for &t in not_at {
            assert_eq!(find(&store, &peer, t), Err(11), "{t:08x}");
        }
    }
}

/// K-IDENTIFIER (000, 5.3.4.2).
fn k_identifier(number: u32) -> Vec<u8> {
    [ISSUER, number.to_be_bytes()].concat()
}

/// PEER-NUM and the peers.
fn peer_list(peers: &[Identity]) -> Vec<u8> {
    [&(peers.len() as u16).to_be_bytes()[..], &peers.concat()].concat()
}

/// K-STRUCT (000, 5.3.4.1).
fn k_struct_for(recipient: Identity, entry: &Entry) -> Vec<u8> {
    [
        &[24][..],
        &entry.key.issuer,
        &entry.key.serial,
        &recipient,
        &entry.kmac,
        &peer_list(&entry.peers),
        &entry.start.to_be_bytes(),
        &entry.end.to_be_bytes(),
    ]
    .concat()
}

fn k_struct(entry: &Entry) -> Vec<u8> {
    k_struct_for(OWN, entry)
}

/// K-VALIDITY (000, 5.3.7.1).
fn k_validity(number: u32, start: u32, end: u32) -> Vec<u8> {
    let period = [start.to_be_bytes(), end.to_be_bytes()].concat();
    [k_identifier(number), period].concat()
}

/// K-ENTITIES (000, 5.3.8.1).
fn k_entities(number: u32, peers: &[Identity]) -> Vec<u8> {
    [k_identifier(number), peer_list(peers)].concat()
}

/// REQ-NUM and the requests.
fn requests(structures: &[Vec<u8>]) -> Vec<u8> {
    let count = (structures.len() as u16).to_be_bytes();
    [&count[..], &structures.concat()].concat()
}

/// The transaction number of a message where the test does not say another. It differs from that of the
/// message before.
fn transaction(sequence: u16) -> u32 {
    0x89ab_0000 + u32::from(sequence)
}

/// A message from the centre with a right header.
fn message(kind: u8, sequence: u16, body: &[u8]) -> Vec<u8> {
    numbered(transaction(sequence), kind, sequence, body)
}

/// The same with this transaction number.
fn numbered(transaction: u32, kind: u8, sequence: u16, body: &[u8]) -> Vec<u8> {
    let length = 20 + body.len() as u32;
    [
        &length.to_be_bytes()[..],
        &[2],
        &OWN,
        &CENTRE,
        &transaction.to_be_bytes(),
        &sequence.to_be_bytes(),
        &[kind],
        body,
    ]
    .concat()
}

/// The transaction number that a message has.
fn number_of(message: &[u8]) -> u32 {
    u32::from_be_bytes(message[TRANSACTION_AT..SEQUENCE_AT].try_into().unwrap())
}

/// The reply that the centre should get to its message: with the transaction number received.
fn reply(message: &[u8], sequence: u16, response: u8, results: &[u8]) -> Vec<u8> {
    let length = 23 + results.len() as u32;
    [
        &length.to_be_bytes()[..],
        &[2],
        &CENTRE,
        &OWN,
        &message[TRANSACTION_AT..SEQUENCE_AT],
        &sequence.to_be_bytes(),
        &[11, response],
        &(results.len() as u16).to_be_bytes(),
        results,
    ]
    .concat()
}

fn open_session() -> Session {
    Session {
        state: OPEN,
        own: OWN,
        peer: CENTRE,
        next: 700,
        expected: 300,
        remembered: false,
        transaction: 0,
    }
}

/// A session that remembers this transaction number.
fn remembering(transaction: u32, session: Session) -> Session {
    Session {
        remembered: true,
        transaction,
        ..session
    }
}

/// A session with a store and an output buffer lent to each of its calls.
struct Bench {
    session: Session,
    store: Vec<u8>,
    out: Vec<u8>,
}

impl Bench {
    fn new(edition: Edition, entries: &[Entry]) -> Bench {
        Bench {
            session: open_session(),
            store: encode(edition, entries),
            out: vec![0xee; 1032],
        }
    }

    fn receive(&mut self, message: &[u8]) -> Answer {
        let (session, answer) = receive(self.session, message, &mut self.store, &mut self.out);
        self.session = session;
        answer
    }

    fn entries(&self) -> Vec<Entry> {
        decode(&self.store).expect("the store is sound")
    }

    /// Asserts the exact reply and that the bytes past it are as before.
    fn assert_reply(&mut self, message: &[u8], expected: &[u8]) {
        let before = self.out.clone();
        assert_eq!(self.receive(message), Answer::Reply(expected.len()));
        assert_eq!(self.out[..expected.len()], *expected);
        assert_eq!(self.out[expected.len()..], before[expected.len()..]);
    }

    /// Sends a command with the expected number. Asserts RESPONSE 0 and gives the RESULTs.
    fn work(&mut self, kind: u8, structures: &[Vec<u8>]) -> Vec<u8> {
        let message = message(kind, self.session.expected, &requests(structures));
        let before = self.session;
        let answer = self.receive(&message);
        let results = self.out[23..23 + structures.len()].to_vec();
        assert_eq!(answer, Answer::Reply(23 + structures.len()));
        assert_eq!(
            self.out[..23 + structures.len()],
            reply(&message, before.next, 0, &results)
        );
        results
    }

    fn add(&mut self, entries: &[Entry]) -> Vec<u8> {
        let structures: Vec<Vec<u8>> = entries.iter().map(k_struct).collect();
        self.work(kind::ADD_KEYS, &structures)
    }

    fn delete(&mut self, numbers: &[u32]) -> Vec<u8> {
        let structures: Vec<Vec<u8>> = numbers.iter().map(|&n| k_identifier(n)).collect();
        self.work(kind::DELETE_KEYS, &structures)
    }

    fn replace_peers(&mut self, number: u32, peers: &[Identity]) -> Vec<u8> {
        self.work(kind::UPDATE_KEY_ENTITIES, &[k_entities(number, peers)])
    }
}
