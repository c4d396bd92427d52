//! Messages: header, bodies and replies (000, 5.3).

use crate::reader::Reader;
use crate::store::{Entry, KeyIdentifier, Request};
use crate::Identity;

/// The one interface version (000, 5.3.3).
pub const VERSION: u8 = 2;
pub const HEADER_LENGTH: usize = 20;
/// No message is longer (000, 5.3.2.4).
pub const LENGTH_MAX: usize = 5000;

const KMAC_LENGTH: u8 = 24;
const PEERS_MAX: u16 = 1000;
/// The time-out is defined by the peer (000, 5.3.13).
const TIME_OUT_OF_PEER: u8 = 255;
/// The transaction number of a session init (000, 5.3.3).
const NO_TRANSACTION: u32 = 0;

/// The message types in use (000, 5.3.3).
pub mod kind {
    pub const ADD_KEYS: u8 = 0;
    pub const DELETE_KEYS: u8 = 1;
    pub const DELETE_ALL_KEYS: u8 = 2;
    pub const UPDATE_KEY_VALIDITIES: u8 = 3;
    pub const UPDATE_KEY_ENTITIES: u8 = 4;
    pub const SESSION_INIT: u8 = 9;
    pub const END_OF_UPDATE: u8 = 10;
    pub const RESPONSE: u8 = 11;
}

/// The RESPONSE numbers in use (000, 5.3.15).
pub mod response {
    pub const DONE: u8 = 0;
    pub const NOT_SUPPORTED: u8 = 1;
    pub const LENGTH_ERROR: u8 = 2;
    pub const SENDER_MISMATCH: u8 = 3;
    pub const RECEIVER_MISMATCH: u8 = 4;
    pub const UNSUPPORTED_VERSION: u8 = 5;
    pub const UNRECOVERABLE_DATABASE: u8 = 6;
    pub const SEQUENCE_MISMATCH: u8 = 9;
    pub const TRANSACTION_MISMATCH: u8 = 10;
    pub const FORMAT_ERROR: u8 = 11;
}

/// The header's fields in their order (000, 5.3.3).
pub struct Header {
    pub length: u32,
    pub version: u8,
    pub receiver: Identity,
    pub sender: Identity,
    pub transaction: u32,
    pub sequence: u16,
    pub kind: u8,
}

impl Header {
    /// `None` where the message is shorter than its header.
    pub fn read(message: &[u8]) -> Option<Header> {
        let mut reader = Reader(message);
        Some(Header {
            length: reader.u32()?,
            version: reader.u8()?,
            receiver: reader.bytes()?,
            sender: reader.bytes()?,
            transaction: reader.u32()?,
            sequence: reader.u16()?,
            kind: reader.u8()?,
        })
    }

    /// Whether the length field is the length delivered, at most 5,000.
    pub fn has_length(&self, delivered: usize) -> bool {
        self.length as usize == delivered && delivered <= LENGTH_MAX
    }
}

/// The body of a message that the module works on.
pub enum Body {
    Requests(Vec<Request>),
    DeleteAll,
    EndOfUpdate,
}

/// Whether the type is one of the five commands or end of update.
pub fn is_supported(kind: u8) -> bool {
    kind <= kind::UPDATE_KEY_ENTITIES || kind == kind::END_OF_UPDATE
}

/// The body where it is exactly its fields, each in its range; `None` for any other.
pub fn body(kind: u8, bytes: &[u8]) -> Option<Body> {
    let mut reader = Reader(bytes);
    let body = match kind {
        kind::ADD_KEYS => requests(&mut reader, 100, add),
        kind::DELETE_KEYS => requests(&mut reader, 500, delete),
        kind::DELETE_ALL_KEYS => Some(Body::DeleteAll),
        kind::UPDATE_KEY_VALIDITIES => requests(&mut reader, 250, update_validity),
        kind::UPDATE_KEY_ENTITIES => requests(&mut reader, 250, update_entities),
        kind::END_OF_UPDATE => Some(Body::EndOfUpdate),
        _ => None,
    };
    body.filter(|_| reader.is_at_end())
}

/// REQ-NUM from 1 to `most`, then as many requests.
fn requests(
    reader: &mut Reader,
    most: u16,
    request: fn(&mut Reader) -> Option<Request>,
) -> Option<Body> {
    let count = in_range(reader.u16()?, most)?;
    let requests = (0..count).map(|_| request(reader)).collect::<Option<_>>()?;
    Some(Body::Requests(requests))
}

/// K-STRUCT (000, 5.3.4.1).
fn add(reader: &mut Reader) -> Option<Request> {
    if reader.u8()? != KMAC_LENGTH {
        return None;
    }
    let key = identifier(reader)?;
    let recipient = reader.bytes()?;
    let kmac = reader.bytes()?;
    let peers = peers(reader)?;
    let entry = Entry {
        key,
        kmac,
        start: reader.u32()?,
        end: reader.u32()?,
        peers,
    };
    Some(Request::Add { recipient, entry })
}

/// K-IDENTIFIER alone (000, 5.3.5).
fn delete(reader: &mut Reader) -> Option<Request> {
    identifier(reader).map(Request::Delete)
}

/// K-VALIDITY (000, 5.3.7.1).
fn update_validity(reader: &mut Reader) -> Option<Request> {
    Some(Request::UpdateValidity {
        key: identifier(reader)?,
        start: reader.u32()?,
        end: reader.u32()?,
    })
}

/// K-ENTITIES (000, 5.3.8.1).
fn update_entities(reader: &mut Reader) -> Option<Request> {
    Some(Request::UpdateEntities {
        key: identifier(reader)?,
        peers: peers(reader)?,
    })
}

/// K-IDENTIFIER (000, 5.3.4.2).
fn identifier(reader: &mut Reader) -> Option<KeyIdentifier> {
    Some(KeyIdentifier {
        issuer: reader.bytes()?,
        serial: reader.bytes()?,
    })
}

/// PEER-NUM, then as many identities.
fn peers(reader: &mut Reader) -> Option<Vec<Identity>> {
    let count = in_range(reader.u16()?, PEERS_MAX)?;
    (0..count).map(|_| reader.bytes()).collect()
}

fn in_range(count: u16, most: u16) -> Option<u16> {
    (1..=most).contains(&count).then_some(count)
}

/// Whether a body is exactly that of a session init with version 2 in its list.
pub fn offers_version(body: &[u8]) -> bool {
    let Some((&count, rest)) = body.split_first() else {
        return false;
    };
    let Some((_time_out, versions)) = rest.split_last() else {
        return false;
    };
    versions.len() == usize::from(count) && versions.contains(&VERSION)
}

/// NOTIF_SESSION_INIT (000, 5.3.13), the list holding only version 2.
pub fn session_init(receiver: Identity, sender: Identity, sequence: u16) -> Vec<u8> {
    let versions = [VERSION];
    let mut body = vec![versions.len() as u8];
    body.extend(versions);
    body.push(TIME_OUT_OF_PEER);
    assemble(
        receiver,
        sender,
        NO_TRANSACTION,
        sequence,
        kind::SESSION_INIT,
        &body,
    )
}

/// NOTIF_RESPONSE (000, 5.3.15).
pub fn notif_response(
    receiver: Identity,
    sender: Identity,
    transaction: u32,
    sequence: u16,
    response: u8,
    results: &[u8],
) -> Vec<u8> {
    let mut body = vec![response];
    body.extend((results.len() as u16).to_be_bytes());
    body.extend(results);
    assemble(
        receiver,
        sender,
        transaction,
        sequence,
        kind::RESPONSE,
        &body,
    )
}

/// Header and body.
pub fn assemble(
    receiver: Identity,
    sender: Identity,
    transaction: u32,
    sequence: u16,
    kind: u8,
    body: &[u8],
) -> Vec<u8> {
    let length = (HEADER_LENGTH + body.len()) as u32;
    let mut message = length.to_be_bytes().to_vec();
    message.push(VERSION);
    message.extend(receiver);
    message.extend(sender);
    message.extend(transaction.to_be_bytes());
    message.extend(sequence.to_be_bytes());
    message.push(kind);
    message.extend(body);
    message
}
