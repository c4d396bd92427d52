//! The C interface over the second program: what each function should answer and write.

use reference::refusal::{H1, H5};
use reference::session::{Answer, Session};
use reference::store::{Edition, Found, EDITION_1};
use reference::{authentication, conversion, des::Des, session, store};

use crate::library::{EndBytes, SessionBytes};

/// The session in the bytes: state, whether a transaction number is remembered, own next number,
/// expected number, own identity, peer identity, that transaction number, zeros.
pub fn session_of(bytes: &SessionBytes) -> Session {
    let four = |at: usize| [bytes[at], bytes[at + 1], bytes[at + 2], bytes[at + 3]];
    let number = |at: usize| u16::from_be_bytes([bytes[at], bytes[at + 1]]);
    Session {
        state: bytes[0],
        own: four(6),
        peer: four(10),
        next: number(2),
        expected: number(4),
        remembered: bytes[1] != 0,
        transaction: u32::from_be_bytes(four(14)),
    }
}

pub fn bytes_of(session: &Session) -> SessionBytes {
    let mut bytes = [0; 32];
    bytes[0] = session.state;
    bytes[1] = session.remembered.into();
    bytes[2..4].copy_from_slice(&session.next.to_be_bytes());
    bytes[4..6].copy_from_slice(&session.expected.to_be_bytes());
    bytes[6..10].copy_from_slice(&session.own);
    bytes[10..14].copy_from_slice(&session.peer);
    bytes[14..18].copy_from_slice(&session.transaction.to_be_bytes());
    bytes
}

/// Hn is -n.
pub fn refused(house: u8) -> i32 {
    -i32::from(house)
}

/// A length, or a refusal.
fn code(answer: Result<usize, u8>) -> i32 {
    match answer {
        Ok(n) => n as i32,
        Err(house) => refused(house),
    }
}

pub fn begin(
    identities: (u32, u32),
    number: u16,
    session: &mut SessionBytes,
    out: &mut [u8],
) -> i32 {
    let (own, peer) = identities;
    match session::begin(own.to_be_bytes(), peer.to_be_bytes(), number, out) {
        Ok((begun, length)) => {
            *session = bytes_of(&begun);
            length as i32
        }
        Err(house) => refused(house),
    }
}

/// A refusal leaves the session's bytes, but H5, which writes the closed session.
pub fn receive(
    session: &mut SessionBytes,
    message: &[u8],
    store: &mut [u8],
    out: &mut [u8],
) -> i32 {
    let (after, answer) = session::receive(session_of(session), message, store, out);
    if matches!(answer, Answer::Refused(house) if house != H5) {
        return code_of(answer);
    }
    *session = bytes_of(&after);
    code_of(answer)
}

/// Nothing is written where a session opens or ends.
fn code_of(answer: Answer) -> i32 {
    match answer {
        Answer::Reply(length) => length as i32,
        Answer::Opened | Answer::Ended => 0,
        Answer::Refused(house) => refused(house),
    }
}

/// The end is given only with a place.
pub fn find(store: &[u8], peer: u32, t: u32) -> (i32, Option<EndBytes>) {
    match store::find(store, &peer.to_be_bytes(), t) {
        Ok(Found { place, end }) => (place as i32, Some(end.to_ne_bytes())),
        Err(house) => (refused(house), None),
    }
}

pub fn session_keys(kmac: &[u8], ra: &[u8; 8], rb: &[u8; 8], keys: &mut [u8; 24]) -> i32 {
    match authentication::session_keys(kmac, ra, rb) {
        Ok(made) => {
            *keys = made;
            0
        }
        Err(house) => refused(house),
    }
}

pub fn build(key: &[u8], destination: &[u8; 3], direction: u8, user: &[u8], out: &mut [u8]) -> i32 {
    code(authentication::build(
        key,
        destination,
        direction != 0,
        user,
        out,
    ))
}

pub fn check(unit: &[u8], key: &[u8], destination: &[u8; 3], direction: u8) -> i32 {
    code(authentication::check(
        unit,
        key,
        destination,
        direction != 0,
    ))
}

pub fn des(inverse: bool, key: &[u8; 8], block: &[u8; 8]) -> [u8; 8] {
    match inverse {
        false => Des::new(key).encipher(block),
        true => Des::new(key).decipher(block),
    }
}

pub fn empty_store(store: &mut [u8]) -> i32 {
    let Some(edition) = Edition::of_length(store.len()) else {
        return refused(H1);
    };
    store.copy_from_slice(&store::encode(edition, &[]));
    0
}

/// The store at `from` made one of the target's edition.
pub fn convert(target: Edition, from: &[u8], to: &mut [u8]) -> i32 {
    let converted = match target {
        EDITION_1 => conversion::to_edition_1(from, to),
        _ => conversion::to_edition_2(from, to),
    };
    code(converted.map(|()| 0))
}
