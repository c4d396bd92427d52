//! Units as the other side of a connection would send them, and such with any fields under a right
//! MAC, written byte by byte and not with the second program (SUBSET-037-2, 6.2.5; 6.2.3.2.1.8 to
//! .11).

use reference::authentication::{mac, session_keys};
use reference::setup::Connection;
use reference::Identity;

pub const AU3_FIRST: u8 = 0b0000_0110;
pub const AR_FIRST: u8 = 0b0001_0011;
const AU1_FIRST: u8 = 0b0000_0010;
const AU2_FIRST: u8 = 0b0000_0101;
const DT_FIRST: u8 = 0b0000_1010;
const DI_FIRST: u8 = 0b0001_0000;
const SAF: u8 = 1;

/// The message and its MAC, for which more is behind the message than is sent.
fn sealed(key: &[u8; 24], to: &Identity, message: &[u8], hidden: &[u8]) -> Vec<u8> {
    let destination = [to[1], to[2], to[3]];
    let mac = mac(key, &destination, &[message, hidden].concat());
    [message, &mac].concat()
}

/// The fields of an AU1, and of an AU2 before its MAC.
#[derive(Clone, Copy)]
pub struct Fields {
    pub first: u8,
    pub id: [u8; 3],
    pub saf: u8,
    pub random: [u8; 8],
}

impl Fields {
    fn new(first: u8, sender: &Identity, random: [u8; 8]) -> Fields {
        Fields {
            first: sender[0] << 5 | first,
            id: [sender[1], sender[2], sender[3]],
            saf: SAF,
            random,
        }
    }

    pub fn au1(sender: &Identity, rb: [u8; 8]) -> Fields {
        Fields::new(AU1_FIRST, sender, rb)
    }

    /// Those of the peer that this connection called.
    pub fn au2(caller: &Connection, ra: [u8; 8]) -> Fields {
        Fields::new(AU2_FIRST, &caller.peer, ra)
    }

    pub fn bytes(&self) -> Vec<u8> {
        let Fields {
            first,
            id,
            saf,
            random,
        } = self;
        [&[*first][..], id, &[*saf], random].concat()
    }
}

/// An AU2 of these fields to a connection that holds its KMAC.
pub fn au2(caller: &Connection, fields: &Fields) -> Vec<u8> {
    let key = session_keys(&caller.key, &fields.random, &caller.rb);
    let key = key.expect("a KMAC has 24 bytes");
    let hidden = [&caller.rb[..], &caller.own[1..]].concat();
    sealed(&key, &caller.own, &fields.bytes(), &hidden)
}

/// An AU3 with this first byte.
pub fn au3(called: &Connection, first: u8) -> Vec<u8> {
    let hidden = [called.rb, called.ra].concat();
    sealed(&called.key, &called.own, &[first], &hidden)
}

/// An AR with this first byte.
pub fn ar(caller: &Connection, first: u8) -> Vec<u8> {
    sealed(&caller.key, &caller.own, &[first], &[])
}

/// A DT with this first byte.
pub fn dt(receiver: &Connection, first: u8, user: &[u8]) -> Vec<u8> {
    sealed(
        &receiver.key,
        &receiver.own,
        &[&[first], user].concat(),
        &[],
    )
}

/// The first byte of a DT of the peer.
pub fn dt_first(receiver: &Connection) -> u8 {
    DT_FIRST | u8::from(!receiver.responder)
}

pub fn di(flag: u8, reason: u8, sub: u8) -> Vec<u8> {
    vec![DI_FIRST | flag, reason, sub]
}

/// A unit of each kind, right for this connection as far as it can be: AU1, AU2, AU3, AR, DT, a DT of
/// its own side, DI, and none.
pub fn of_each_kind(connection: &Connection, random: [u8; 8]) -> [Vec<u8>; 8] {
    let first = dt_first(connection);
    [
        Fields::au1(&connection.peer, random).bytes(),
        au2(connection, &Fields::au2(connection, random)),
        au3(connection, AU3_FIRST),
        ar(connection, AR_FIRST),
        dt(connection, first, &random),
        dt(connection, first ^ 1, &random),
        di(first & 1, random[0], random[1]),
        Vec::new(),
    ]
}
