//! Messages of SUBSET-137 (000, 5.3), written byte by byte and not with the second program.

use reference::store::{Entry, KeyIdentifier};
use reference::Identity;

pub const HEADER: usize = 20;
pub const LENGTH_MAX: usize = 5000;
/// The most peers of one list.
pub const PEER_NUM_MAX: usize = 1000;

/// Where the fields of a header start (000, 5.3.3).
pub const VERSION_AT: usize = 4;
pub const RECEIVER_AT: usize = 5;
pub const SENDER_AT: usize = 9;
pub const TRANSACTION_AT: usize = 13;
pub const SEQUENCE_AT: usize = 17;
pub const TYPE_AT: usize = 19;

/// Where a reply has its RESPONSE and its RESULTs (000, 5.3.15).
pub const RESPONSE_AT: usize = 20;
pub const RESULTS_AT: usize = 23;

/// Where fields stand in a K-STRUCT with its KMAC (000, 5.3.4.1).
pub const KMAC_IN_STRUCT: usize = 13;
pub const KMAC_LENGTH: usize = 24;
const PEER_NUM_IN_STRUCT: usize = 37;
const STRUCT_WITHOUT_PEERS: usize = 47;

/// The fields of a header but length and version.
#[derive(Clone, Copy, Debug)]
pub struct Header {
    pub receiver: Identity,
    pub sender: Identity,
    pub transaction: u32,
    pub sequence: u16,
}

/// A message with a right length field and version 2.
pub fn message(header: &Header, kind: u8, body: &[u8]) -> Vec<u8> {
    let length = (HEADER + body.len()) as u32;
    [
        &length.to_be_bytes()[..],
        &[2],
        &header.receiver,
        &header.sender,
        &header.transaction.to_be_bytes(),
        &header.sequence.to_be_bytes(),
        &[kind],
        body,
    ]
    .concat()
}

/// Makes the length field that of the bytes delivered.
pub fn set_length(message: &mut [u8]) {
    let length = (message.len() as u32).to_be_bytes();
    message[..4].copy_from_slice(&length);
}

/// REQ-NUM and the requests.
pub fn body(requests: &[Vec<u8>]) -> Vec<u8> {
    counted(requests.len() as u16, requests)
}

/// A REQ-NUM of any value before the requests.
pub fn counted(count: u16, requests: &[Vec<u8>]) -> Vec<u8> {
    [&count.to_be_bytes()[..], &requests.concat()].concat()
}

/// K-IDENTIFIER.
pub fn k_identifier(key: &KeyIdentifier) -> Vec<u8> {
    [key.issuer, key.serial].concat()
}

/// PEER-NUM and the peers.
pub fn peer_list(peers: &[Identity]) -> Vec<u8> {
    let count = (peers.len() as u16).to_be_bytes();
    [&count[..], &peers.concat()].concat()
}

/// K-STRUCT.
pub fn k_struct(recipient: &Identity, entry: &Entry) -> Vec<u8> {
    [
        &[KMAC_LENGTH as u8][..],
        &k_identifier(&entry.key),
        recipient,
        &entry.kmac,
        &peer_list(&entry.peers),
        &entry.start.to_be_bytes(),
        &entry.end.to_be_bytes(),
    ]
    .concat()
}

/// K-VALIDITY.
pub fn k_validity(key: &KeyIdentifier, start: u32, end: u32) -> Vec<u8> {
    let period = [start.to_be_bytes(), end.to_be_bytes()].concat();
    [k_identifier(key), period].concat()
}

/// K-ENTITIES.
pub fn k_entities(key: &KeyIdentifier, peers: &[Identity]) -> Vec<u8> {
    [k_identifier(key), peer_list(peers)].concat()
}

/// The body of a session init.
pub fn init_body(versions: &[u8], time_out: u8) -> Vec<u8> {
    [&[versions.len() as u8][..], versions, &[time_out]].concat()
}

/// Where the K-STRUCTs of an add command start. Its body must be exactly its fields.
pub fn structs_at(message: &[u8]) -> Vec<usize> {
    let count = u16::from_be_bytes([message[HEADER], message[HEADER + 1]]);
    let mut at = HEADER + 2;
    (0..count)
        .map(|_| {
            let start = at;
            let peers = at + PEER_NUM_IN_STRUCT;
            let peer_count = u16::from_be_bytes([message[peers], message[peers + 1]]);
            at += STRUCT_WITHOUT_PEERS + 4 * usize::from(peer_count);
            start
        })
        .collect()
}
