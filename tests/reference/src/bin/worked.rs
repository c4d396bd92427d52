//! Prints the worked numbers of sessions and the store (01, and 02, change requests 3, 4, 5 and 7) as WORKED.md asks,
//! for comparison line by line.

use reference::message::{assemble, kind, response, session_init, HEADER_LENGTH};
use reference::session::{begin, receive, Answer, Session, OPEN, WAITING};
use reference::store::{decode, encode, find, key, Edition, Entry, Found, KeyIdentifier};
use reference::store::{EDITION_1, EDITION_2};
use reference::{Identity, OUTPUT_LENGTH};

const OWN: Identity = [0, 0, 0, 7];
const CENTRE: Identity = [0, 0, 0, 6];
const STRANGER: Identity = [0, 0, 0, 8];
const ISSUER: Identity = [1, 2, 3, 4];
const PEER: Identity = [0x11, 0x22, 0x33, 0x44];
const OTHER: Identity = [0x55, 0x66, 0x77, 0x88];

/// Any starting number of the module would do.
const OWN_START: u16 = 9;
/// The number of the centre's session init; a command's is the next.
const CENTRE_START: u16 = 40;

/// The transaction number that is remembered where a session is handed in.
const REMEMBERED: u32 = 0x89ab_cdef;
/// A type that is neither a command nor end of update.
const OTHER_TYPE: u8 = 200;

/// Where the low byte of the length and the receiver stand in a header (000, 5.3.3).
const LENGTH_LOW: usize = 3;
const RECEIVER_AT: usize = 5;

/// Byte of the edition's low half in the store's header, and the header's length.
const EDITION_LOW: usize = 1;
const STORE_HEADER: usize = 12;

/// The cases of an edition work on one buffer, each on what the one before left.
fn main() {
    let small = &mut [0; EDITION_1.length()];
    let large = &mut [0; EDITION_2.length()];
    edition_1(small);
    edition_2(large);
    header_of(EDITION_2, small);
}

fn edition_1(store: &mut [u8]) {
    one_key(store);
    full_of_keys(store);
    full_of_peers(store);
    replaced_peers(store);
    bad_adds(store);
    moments(store);
    near_misses(store);
    other_periods(store);
    several_records(store);
    all_deleted(store);
    latest_end(store);
    equal_ends(store);
    other_ends(store);
    refused_searches(store);
    delete_all_of_unsound(store);
    last_number(store);
    wrong_header(store);
    transaction_numbers(store);
}

fn edition_2(store: &mut [u8]) {
    full_of_500_keys(store);
    full_of_4000_peers(store);
    moments_of_many(store);
    transaction_numbers(store);
    header_of(EDITION_1, store);
    not_zero(store);
    parts_of(store);
}

fn one_key(store: &mut [u8]) {
    clear(store);
    request(store, "empty store, delete", delete(1));
    request(store, "one key", add(1, 1));
    request(store, "the same key", add(1, 1));
    let twice = [k_struct(OWN, &entry(2, 1)), k_struct(OWN, &entry(2, 1))];
    command(store, "one key twice in a message", kind::ADD_KEYS, &twice);
}

fn full_of_keys(store: &mut [u8]) {
    clear(store);
    let keys: Vec<_> = (1..=64)
        .map(|serial| k_struct(OWN, &entry(serial, 1)))
        .collect();
    command(store, "64 keys", kind::ADD_KEYS, &keys);
    request(store, "64 keys, add", add(65, 1));
    request(store, "64 keys, add a held one", add(5, 1));
    request(store, "delete the tenth", delete(10));
    request(store, "add", add(65, 1));
    records(store);
}

fn full_of_peers(store: &mut [u8]) {
    clear(store);
    request(store, "253 peers", add(1, 253));
    request(store, "253 peers, add with 4", add(2, 4));
    request(store, "253 peers, add with 3", add(2, 3));
    counts(store);
}

fn replaced_peers(store: &mut [u8]) {
    clear(store);
    request(store, "246 peers", add(1, 246));
    request(store, "10 peers", add(2, 10));
    request(store, "256 peers, 10 by 10", entities(2, PEER, 10));
    request(store, "256 peers, 10 by 11", entities(2, PEER, 11));
    counts(store);
}

fn bad_adds(store: &mut [u8]) {
    clear(store);
    let bad = Entry {
        kmac: [0; 24],
        ..entry(1, 1)
    };
    request(store, "byte 00", add_for(OWN, &bad));
    let elsewhere = add_for(STRANGER, &bad);
    request(store, "wrong recipient and byte 00", elsewhere);
    counts(store);
}

fn moments(store: &mut [u8]) {
    request(store, "from 5 to 9", add(1, 1));
    search(store, "T is 4", PEER, 4);
    search(store, "T is start", PEER, 5);
    search(store, "T is 8", PEER, 8);
    search(store, "T is end", PEER, 9);
    kmac(store, "T is end, the KMAC", PEER, 9);
    search(store, "T is 10", PEER, 10);
    kmac(store, "T is 10, the KMAC", PEER, 10);
}

/// Identities that differ from the right ones in one byte.
fn near_misses(store: &mut [u8]) {
    let last = [0x11, 0x22, 0x33, 0x45];
    let first = [0x12, 0x22, 0x33, 0x44];
    search(store, "last byte of the peer", last, 5);
    search(store, "first byte of the peer", first, 5);
    request(store, "last byte of the serial", delete(2));
    let key = KeyIdentifier {
        issuer: [2, 2, 3, 4],
        ..identifier(1)
    };
    let other_issuer = (kind::DELETE_KEYS, k_identifier(key));
    request(store, "first byte of the issuer", other_issuer);
}

/// Of one moment, up to the last moment of all, and with the start after the end.
fn other_periods(store: &mut [u8]) {
    request(store, "from 5 to 5", validity(1, 5, 5));
    search(store, "start is end, T is 4", PEER, 4);
    search(store, "start is end", PEER, 5);
    search(store, "start is end, T is 6", PEER, 6);
    request(store, "from 9 to FFFFFFFF", validity(1, 9, u32::MAX));
    search(store, "without end, T is 8", PEER, 8);
    search(store, "without end, T is FFFFFFFF", PEER, u32::MAX);
    request(store, "from 6 to 5", validity(1, 6, 5));
    search(store, "start after end, T is 5", PEER, 5);
    search(store, "start after end, T is 6", PEER, 6);
}

fn several_records(store: &mut [u8]) {
    request(store, "a second for the peer", add(2, 3));
    let for_other = Entry {
        kmac: [2; 24],
        peers: vec![OTHER],
        ..entry(3, 1)
    };
    request(store, "a third for another", add_for(OWN, &for_other));
    search(store, "the peer", PEER, 5);
    search(store, "the other", OTHER, 5);
    kmac(store, "the other's KMAC", OTHER, 5);
    let two_of_other = entities(2, OTHER, 2);
    request(store, "the second for two of the other", two_of_other);
    search(store, "the other now", OTHER, 5);
    counts(store);
}

fn all_deleted(store: &mut [u8]) {
    request(store, "delete the first", delete(1));
    records(store);
    search(store, "the other then", OTHER, 5);
    request(store, "delete the third", delete(3));
    request(store, "delete the second", delete(2));
    not_zero(store);
}

fn latest_end(store: &mut [u8]) {
    clear(store);
    request(store, "until 8", add_one(1, PEER, 5, 8));
    request(store, "until 9", add_one(2, PEER, 5, 9));
    request(store, "until 20 for another", add_one(3, OTHER, 5, 20));
    request(store, "until 9 again", add_one(4, PEER, 6, 9));
    request(store, "from 10 until 30", add_one(5, PEER, 10, 30));
    search(store, "the latest end", PEER, 7);
    kmac(store, "the latest end, the KMAC", PEER, 7);
    search(store, "the latest end, T is 8", PEER, 8);
    search(store, "the latest end, T is 10", PEER, 10);
}

fn equal_ends(store: &mut [u8]) {
    request(store, "delete the first of equal ends", delete(2));
    search(store, "the second of equal ends", PEER, 7);
    kmac(store, "the second of equal ends, the KMAC", PEER, 7);
}

/// The last and the first end of all.
fn other_ends(store: &mut [u8]) {
    request(store, "the first without end", validity(1, 5, u32::MAX));
    search(store, "without end, T is 10", PEER, 10);
    request(store, "from 0 to 0", validity(5, 0, 0));
    search(store, "until 0", PEER, 0);
    kmac(store, "until 0, the KMAC", PEER, 0);
}

fn refused_searches(store: &mut [u8]) {
    search(&store[1..], "short store", PEER, 5);
    store[EDITION_LOW] = 2;
    search(store, "unsound store", PEER, 5);
}

fn delete_all_of_unsound(store: &mut [u8]) {
    delete_all(store);
    search(store, "delete all, the peer", PEER, 5);
}

fn last_number(store: &mut [u8]) {
    let session = opened(65534, store);
    let last = message(65535, kind::DELETE_ALL_KEYS, &[]);
    let session = deliver(session, store, "expected 65535, received 65535", &last);
    let zero = message(0, kind::DELETE_ALL_KEYS, &[]);
    deliver(session, store, "then received 0", &zero);
}

fn wrong_header(store: &mut [u8]) {
    let session = opened(CENTRE_START, store);
    let mut wrong = message(CENTRE_START + 1, kind::DELETE_ALL_KEYS, &[]);
    wrong[LENGTH_LOW] += 1;
    wrong[RECEIVER_AT..][..4].copy_from_slice(&STRANGER);
    deliver(session, store, "length and receiver both wrong", &wrong);
}

/// Repeated transaction numbers, and what a session remembers (02, change request 3).
fn transaction_numbers(store: &mut [u8]) {
    two_deletes(store);
    number_zero(store);
    handed_in(store);
    place_of_the_test(store);
    opening(store);
    ends_of_update(store);
    after_other_responses(store);
    after_an_unsound_store(store);
}

fn two_deletes(store: &mut [u8]) {
    two_keys(store);
    let mut centre = Centre::opened(store);
    centre.send(store, "one number", 7, one(delete(1)));
    centre.send(store, "the same number", 7, one(delete(2)));
    centre.session();
    records(store);
    two_keys(store);
    let mut centre = Centre::opened(store);
    centre.send(store, "one number", 7, one(delete(1)));
    centre.send(store, "another number", 8, one(delete(2)));
    centre.session();
    records(store);
    centre.send(store, "the first number again", 7, one(add(1, 1)));
    centre.session();
}

fn number_zero(store: &mut [u8]) {
    two_keys(store);
    let mut centre = Centre::opened(store);
    centre.session();
    centre.send(store, "number 0 first", 0, one(delete(1)));
    centre.session();
    centre.send(store, "number 0 again", 0, one(delete(2)));
    centre.session();
    records(store);
}

/// Sessions that are handed in with a number, remembered or not.
fn handed_in(store: &mut [u8]) {
    two_keys(store);
    let mut centre = Centre::of(remembering());
    centre.session();
    centre.send(store, "the remembered number", REMEMBERED, one(delete(1)));
    centre.session();
    let mut centre = Centre::of(remembering());
    let other = REMEMBERED - 1;
    centre.send(store, "not the remembered number", other, one(delete(1)));
    centre.session();
    let mut centre = Centre::of(Session {
        remembered: false,
        ..remembering()
    });
    centre.session();
    let name = "the number, but none remembered";
    centre.send(store, name, REMEMBERED, one(delete(2)));
    centre.session();
}

/// Behind the test of the sequence number, and before that of the type.
fn place_of_the_test(store: &mut [u8]) {
    for (name, transaction) in [
        ("sequence and transaction number wrong", REMEMBERED),
        ("sequence number wrong", 7),
    ] {
        let mut centre = Centre::of(remembering());
        centre.number += 1;
        centre.send(store, name, transaction, empty(kind::DELETE_ALL_KEYS));
        centre.session();
    }
    let mut centre = Centre::of(remembering());
    let name = "transaction number and type wrong";
    centre.send(store, name, REMEMBERED, empty(OTHER_TYPE));
    centre.session();
}

/// A session init with the remembered number opens, and what it opens remembers none.
fn opening(store: &mut [u8]) {
    let waiting = Session {
        state: WAITING,
        ..remembering()
    };
    let mut centre = Centre::of(waiting);
    centre.session();
    let init = (kind::SESSION_INIT, vec![1, 2, 255]);
    centre.send(store, "session init", REMEMBERED, init);
    centre.session();
    let first = empty(kind::DELETE_ALL_KEYS);
    centre.send(store, "its number again", REMEMBERED, first);
    centre.session();
    let mut centre = Centre::of(waiting);
    let other = empty(kind::DELETE_ALL_KEYS);
    centre.send(store, "no session init", 7, other);
    centre.session();
}

fn ends_of_update(store: &mut [u8]) {
    for (name, transaction) in [
        ("end of update, the same number", 7),
        ("end of update, another number", 8),
    ] {
        let mut centre = Centre::opened(store);
        centre.send(store, "delete all", 7, empty(kind::DELETE_ALL_KEYS));
        centre.send(store, name, transaction, empty(kind::END_OF_UPDATE));
        centre.session();
    }
    let mut centre = Centre::opened(store);
    let first = empty(kind::END_OF_UPDATE);
    centre.send(store, "end of update first, number 0", 0, first);
    centre.session();
}

/// RESPONSE 1, and RESPONSE 11, which closes.
fn after_other_responses(store: &mut [u8]) {
    for (name, transaction) in [
        ("type 200, the same number", 7),
        ("type 200, another number", 8),
    ] {
        let mut centre = Centre::opened(store);
        centre.send(store, "type 200", 7, empty(OTHER_TYPE));
        centre.session();
        centre.send(store, name, transaction, empty(kind::DELETE_ALL_KEYS));
        centre.session();
    }
    let mut centre = Centre::opened(store);
    let too_long = (kind::DELETE_ALL_KEYS, vec![0]);
    centre.send(store, "format error", 7, too_long);
    centre.session();
}

/// RESPONSE 6; delete all does not ask whether the store is sound.
fn after_an_unsound_store(store: &mut [u8]) {
    store[EDITION_LOW] = 3;
    for (name, transaction) in [
        ("unsound store, the same number", 7),
        ("unsound store, another number", 8),
    ] {
        let mut centre = Centre::opened(store);
        centre.send(store, "unsound store, delete", 7, one(delete(1)));
        centre.session();
        centre.send(store, name, transaction, empty(kind::DELETE_ALL_KEYS));
        centre.session();
        header(store);
    }
}

fn full_of_500_keys(store: &mut [u8]) {
    clear(store);
    let keys: Vec<_> = (1..=500)
        .map(|serial| k_struct(OWN, &entry(serial, 8)))
        .collect();
    for fifty in keys[..450].chunks(50) {
        command(store, "450 keys", kind::ADD_KEYS, fifty);
    }
    command(store, "500 keys", kind::ADD_KEYS, &keys[450..]);
    counts(store);
    request(store, "500 keys, add", add(501, 8));
    request(store, "500 keys, add a held one", add(5, 8));
    search(store, "the peer", PEER, 8);
    request(store, "the last from 5 to 10", validity(500, 5, 10));
    search(store, "the peer then", PEER, 8);
    request(store, "delete the tenth", delete(10));
    let for_other = Entry {
        peers: vec![OTHER; 8],
        ..entry(501, 8)
    };
    request(store, "add for another", add_for(OWN, &for_other));
    search(store, "the other", OTHER, 8);
    counts(store);
}

fn full_of_4000_peers(store: &mut [u8]) {
    clear(store);
    for serial in 1..=3 {
        request(store, "3000 peers", add(serial, 1000));
    }
    request(store, "3997 peers", add(4, 997));
    request(store, "3997 peers, add with 4", add(5, 4));
    request(store, "3997 peers, add with 3", add(5, 3));
    counts(store);
    request(store, "the fourth by 987", entities(4, PEER, 987));
    request(store, "10 peers", add(6, 10));
    request(store, "4000 peers, 10 by 10", entities(6, PEER, 10));
    request(store, "4000 peers, 10 by 11", entities(6, PEER, 11));
    counts(store);
}

fn moments_of_many(store: &mut [u8]) {
    search(store, "T is 8", PEER, 8);
    search(store, "last byte of the peer", [0x11, 0x22, 0x33, 0x45], 8);
}

/// The header of another edition than the length's, until delete all writes the right one.
fn header_of(edition: Edition, store: &mut [u8]) {
    let name = format!("header of edition {}", edition.number);
    clear(store);
    store[..STORE_HEADER].copy_from_slice(&encode(edition, &[])[..STORE_HEADER]);
    request(store, &name, delete(1));
    search(store, &format!("{name}, search"), PEER, 5);
    delete_all(store);
    header(store);
}

fn parts_of(store: &[u8]) {
    for length in [3851, 3852, 3853, 38011] {
        search(&store[..length], &format!("{length} bytes"), PEER, 5);
    }
}

fn identifier(serial: u32) -> KeyIdentifier {
    KeyIdentifier {
        issuer: ISSUER,
        serial: serial.to_be_bytes(),
    }
}

/// Valid from 5 to 9 for so many peers, each of them PEER.
fn entry(serial: u32, peers: usize) -> Entry {
    Entry {
        key: identifier(serial),
        kmac: [1; 24],
        start: 5,
        end: 9,
        peers: vec![PEER; peers],
    }
}

/// A message type with one request for it.
type Command = (u8, Vec<u8>);

/// A message type with its body.
type Content = (u8, Vec<u8>);

/// REQ-NUM 1 and the request.
fn one((kind, request): Command) -> Content {
    (kind, [vec![0, 1], request].concat())
}

fn empty(kind: u8) -> Content {
    (kind, Vec::new())
}

/// The new store with the keys 1 and 2.
fn two_keys(store: &mut [u8]) {
    clear(store);
    let keys = [k_struct(OWN, &entry(1, 1)), k_struct(OWN, &entry(2, 1))];
    command(store, "two keys", kind::ADD_KEYS, &keys);
}

fn add(serial: u32, peers: usize) -> Command {
    add_for(OWN, &entry(serial, peers))
}

/// A key of its own KMAC for one peer: a byte is 2^(serial - 1), which has odd parity.
fn add_one(serial: u32, peer: Identity, start: u32, end: u32) -> Command {
    let entry = Entry {
        key: identifier(serial),
        kmac: [1 << (serial - 1); 24],
        start,
        end,
        peers: vec![peer],
    };
    add_for(OWN, &entry)
}

fn add_for(recipient: Identity, entry: &Entry) -> Command {
    (kind::ADD_KEYS, k_struct(recipient, entry))
}

fn delete(serial: u32) -> Command {
    (kind::DELETE_KEYS, k_identifier(identifier(serial)))
}

/// K-VALIDITY (000, 5.3.7.1).
fn validity(serial: u32, start: u32, end: u32) -> Command {
    let mut bytes = k_identifier(identifier(serial));
    bytes.extend(start.to_be_bytes());
    bytes.extend(end.to_be_bytes());
    (kind::UPDATE_KEY_VALIDITIES, bytes)
}

/// K-ENTITIES (000, 5.3.8.1): so many peers, each the same.
fn entities(serial: u32, peer: Identity, count: usize) -> Command {
    let mut bytes = k_identifier(identifier(serial));
    bytes.extend(peer_list(&vec![peer; count]));
    (kind::UPDATE_KEY_ENTITIES, bytes)
}

/// K-IDENTIFIER (000, 5.3.4.2).
fn k_identifier(key: KeyIdentifier) -> Vec<u8> {
    [key.issuer, key.serial].concat()
}

/// PEER-NUM and the peers.
fn peer_list(peers: &[Identity]) -> Vec<u8> {
    let mut bytes = (peers.len() as u16).to_be_bytes().to_vec();
    bytes.extend(peers.concat());
    bytes
}

/// K-STRUCT (000, 5.3.4.1).
fn k_struct(recipient: Identity, entry: &Entry) -> Vec<u8> {
    let mut bytes = vec![entry.kmac.len() as u8];
    bytes.extend(k_identifier(entry.key));
    bytes.extend(recipient);
    bytes.extend(entry.kmac);
    bytes.extend(peer_list(&entry.peers));
    bytes.extend(entry.start.to_be_bytes());
    bytes.extend(entry.end.to_be_bytes());
    bytes
}

/// A message of the centre with a right header. Its transaction number is its sequence number.
fn message(number: u16, kind: u8, body: &[u8]) -> Vec<u8> {
    assemble(OWN, CENTRE, number.into(), number, kind, body)
}

/// Makes the buffer the empty store of its length.
fn clear(store: &mut [u8]) {
    let edition = Edition::of_length(store.len()).expect("the buffer has an edition's length");
    store.copy_from_slice(&encode(edition, &[]));
}

fn entries(store: &[u8]) -> Vec<Entry> {
    decode(store).expect("the store is sound")
}

/// A session that the centre's session init with this number opens.
fn opened(number: u16, store: &mut [u8]) -> Session {
    let out = &mut [0; OUTPUT_LENGTH];
    let (session, _) = begin(OWN, CENTRE, OWN_START, out).expect("a session is begun");
    let (session, answer) = receive(session, &session_init(OWN, CENTRE, number), store, out);
    assert_eq!(answer, Answer::Opened);
    session
}

/// An open session that is handed in with a number: it expects the number that a command has.
fn remembering() -> Session {
    Session {
        state: OPEN,
        own: OWN,
        peer: CENTRE,
        next: OWN_START + 1,
        expected: CENTRE_START + 1,
        remembered: true,
        transaction: REMEMBERED,
    }
}

/// The centre's side of a session whose messages have transaction numbers of their own.
struct Centre {
    module: Session,
    number: u16,
}

impl Centre {
    fn of(module: Session) -> Centre {
        Centre {
            module,
            number: CENTRE_START + 1,
        }
    }

    fn opened(store: &mut [u8]) -> Centre {
        Centre::of(opened(CENTRE_START, store))
    }

    /// Sends a message with this transaction number and the next sequence number.
    fn send(&mut self, store: &mut [u8], name: &str, transaction: u32, (kind, body): Content) {
        let message = assemble(OWN, CENTRE, transaction, self.number, kind, &body);
        self.module = deliver(self.module, store, name, &message);
        self.number += 1;
    }

    /// State and remembered number of the module's session.
    fn session(&self) {
        let state = match self.module.state {
            WAITING => "waiting",
            OPEN => "open",
            _ => "closed",
        };
        print!("session: {state}, last transaction ");
        if self.module.remembered {
            println!("{}", self.module.transaction);
        } else {
            println!("none");
        }
    }
}

/// Delivers a message, prints what is answered, and gives the session for the next.
fn deliver(session: Session, store: &mut [u8], name: &str, message: &[u8]) -> Session {
    let out = &mut [0; OUTPUT_LENGTH];
    let (session, answer) = receive(session, message, store, out);
    match answer {
        Answer::Reply(length) => println!("{name}: {}", said(&out[HEADER_LENGTH..length])),
        Answer::Opened => println!("{name}: opened"),
        Answer::Ended => println!("{name}: ended"),
        Answer::Refused(refusal) => println!("{name}: H{refusal}"),
    }
    session
}

/// The RESULTs of a reply's body; where it has none, RESPONSE and REQ-NUM (000, 5.3.15).
fn said(body: &[u8]) -> String {
    let (response, count) = (body[0], u16::from_be_bytes([body[1], body[2]]));
    let results: Vec<_> = body[3..].iter().map(u8::to_string).collect();
    if response == response::DONE && count > 0 {
        results.join(" ")
    } else {
        format!("RESPONSE {response}, REQ-NUM {count}")
    }
}

/// A command with these requests, in a session of its own.
fn command(store: &mut [u8], name: &str, kind: u8, requests: &[Vec<u8>]) {
    let mut body = (requests.len() as u16).to_be_bytes().to_vec();
    body.extend(requests.concat());
    let session = opened(CENTRE_START, store);
    let message = message(CENTRE_START + 1, kind, &body);
    deliver(session, store, name, &message);
}

fn request(store: &mut [u8], name: &str, (kind, request): Command) {
    command(store, name, kind, &[request]);
}

fn delete_all(store: &mut [u8]) {
    let session = opened(CENTRE_START, store);
    let message = message(CENTRE_START + 1, kind::DELETE_ALL_KEYS, &[]);
    deliver(session, store, "delete all", &message);
}

/// NAME: PLACE until END.
fn search(store: &[u8], name: &str, peer: Identity, t: u32) {
    match find(store, &peer, t) {
        Ok(Found { place, end }) => println!("{name}: {place} until {end}"),
        Err(refusal) => println!("{name}: H{refusal}"),
    }
}

/// NAME: the bytes of the KMAC that the search hands back, none where it refuses.
fn kmac(store: &[u8], name: &str, peer: Identity, t: u32) {
    print!("{name}:");
    for byte in key(store, &peer, t) {
        print!(" {byte}");
    }
    println!();
}

/// The serials of all records in store order.
fn records(store: &[u8]) {
    print!("records:");
    for entry in entries(store) {
        print!(" {}", u32::from_be_bytes(entry.key.serial));
    }
    println!();
}

/// Key count and peer count, as the header has them.
fn counts(store: &[u8]) {
    let number = |at: usize| u16::from_be_bytes([store[at], store[at + 1]]);
    println!("counts: {} {}", number(2), number(6));
}

fn not_zero(store: &[u8]) {
    let count = store.iter().filter(|&&byte| byte != 0).count();
    println!("bytes not zero: {count}");
}

fn header(store: &[u8]) {
    print!("header:");
    for byte in &store[..STORE_HEADER] {
        print!(" {byte}");
    }
    println!();
}
