//! The units of set-up (002, 6.2.5), as they are sent and as they are judged on receipt.
//!
//! A is the called side (responder), B the caller (initiator) (002, 6.2.3.2.2.3).

use super::{Connection, Reason};
use crate::authentication::{build, mac, session_keys, KEY_LENGTH, MAC_LENGTH, USER_MAX};
use crate::{Identity, OUTPUT_LENGTH};

type Key = [u8; KEY_LENGTH];
type Random = [u8; 8];

/// Message type identifiers (002, Table 7).
pub mod mti {
    pub const AU1: u8 = 0b0001;
    pub const AU2: u8 = 0b0010;
    pub const AU3: u8 = 0b0011;
    pub const AR: u8 = 0b1001;
    pub const DT: u8 = 0b0101;
    pub const DI: u8 = 0b1000;
}

/// The one safety feature that is not reserved (002, Table 8).
const SAF: u8 = 1;
/// The ETY of a unit that names no identity (002, Tables 10 to 13).
const ETY_NONE: u8 = 0;
const FROM_INITIATOR: bool = false;
const FROM_RESPONDER: bool = true;

/// AU1 and the part of an AU2 before its MAC have the same fields.
const NAMED_LENGTH: usize = 13;

/// ETY in bits 8 to 6, MTI in 5 to 2, the direction flag in 1.
fn first_octet(ety: u8, mti: u8, flag: bool) -> u8 {
    ety << 5 | mti << 1 | u8::from(flag)
}

pub fn ety_of(first: u8) -> u8 {
    first >> 5
}

pub fn mti_of(first: u8) -> u8 {
    first >> 1 & 0b1111
}

fn flag_of(first: u8) -> bool {
    first & 1 == 1
}

/// The ETCS ID of an identity, without its type.
fn etcs_id(identity: &Identity) -> [u8; 3] {
    [identity[1], identity[2], identity[3]]
}

/// ETY | MTI | DF | SA | SaF | R (002, Tables 8 and 9).
fn named(mti: u8, flag: bool, sender: &Identity, random: &Random) -> Vec<u8> {
    let first = first_octet(sender[0], mti, flag);
    [&[first][..], &etcs_id(sender), &[SAF], random].concat()
}

/// The identity that ETY and SA of an AU1 or AU2 name.
fn sender_of(unit: &[u8]) -> Identity {
    [ety_of(unit[0]), unit[1], unit[2], unit[3]]
}

fn saf_of(unit: &[u8]) -> u8 {
    unit[4]
}

fn random_of(unit: &[u8]) -> Random {
    unit[5..NAMED_LENGTH].try_into().expect("it has 8 octets")
}

/// The unit of the initiator B.
pub fn au1(b: &Identity, rb: &Random) -> Vec<u8> {
    named(mti::AU1, FROM_INITIATOR, b, rb)
}

/// The identity and the random number of its sender, or why it is not acceptable.
pub fn read_au1(unit: &[u8]) -> Result<(Identity, Random), Reason> {
    if unit.len() != NAMED_LENGTH {
        return Err(Reason(10, 1));
    }
    if mti_of(unit[0]) != mti::AU1 {
        return Err(Reason(8, 1));
    }
    if flag_of(unit[0]) != FROM_INITIATOR {
        return Err(Reason(6, 2));
    }
    if saf_of(unit) != SAF {
        return Err(Reason(3, 29));
    }
    Ok((sender_of(unit), random_of(unit)))
}

/// The unit that the called side of this connection sends, with R_A.
pub fn au2(called: &Connection) -> Vec<u8> {
    let text = named(mti::AU2, FROM_RESPONDER, &called.own, &called.ra);
    let mac = au2_mac(&called.key, &text, &called.rb, &called.peer);
    [&text[..], &mac].concat()
}

/// DA is B, and so is the end of auth2 = R_A | R_B | B (002, 6.2.3.2.1.9); R_A ends the text.
fn au2_mac(ks: &Key, text: &[u8], rb: &Random, b: &Identity) -> [u8; MAC_LENGTH] {
    let b = etcs_id(b);
    mac(ks, &b, &[text, rb, &b].concat())
}

/// R_A and the session key, or why the caller of this connection does not accept the unit. The caller
/// has the KMAC.
pub fn read_au2(unit: &[u8], caller: &Connection) -> Result<(Random, Key), Reason> {
    if unit.len() != NAMED_LENGTH + MAC_LENGTH {
        return Err(Reason(10, 2));
    }
    let (text, received) = unit.split_at(NAMED_LENGTH);
    if mti_of(text[0]) != mti::AU2 {
        return Err(Reason(9, 1));
    }
    if sender_of(text) != caller.peer {
        return Err(Reason(8, 4));
    }
    if saf_of(text) != SAF {
        return Err(Reason(3, 29));
    }
    let ra = random_of(text);
    let ks = session_key(&caller.key, &ra, &caller.rb);
    if received != au2_mac(&ks, text, &caller.rb, &caller.own) {
        return Err(Reason(4, 2));
    }
    if flag_of(text[0]) != FROM_RESPONDER {
        return Err(Reason(6, 1));
    }
    Ok((ra, ks))
}

/// Of R_A and R_B (002, 6.2.3.2.3.15).
pub fn session_key(kmac: &Key, ra: &Random, rb: &Random) -> Key {
    session_keys(kmac, ra, rb).expect("a KMAC has 24 octets")
}

/// The unit that the caller of this connection sends.
pub fn au3(caller: &Connection) -> Vec<u8> {
    let first = first_octet(ETY_NONE, mti::AU3, FROM_INITIATOR);
    let mac = au3_mac(caller, first, &caller.peer);
    [&[first][..], &mac].concat()
}

/// auth3 = R_B | R_A (002, 6.2.3.2.1.10).
fn au3_mac(connection: &Connection, first: u8, a: &Identity) -> [u8; MAC_LENGTH] {
    let text = [&[first][..], &connection.rb, &connection.ra].concat();
    mac(&connection.key, &etcs_id(a), &text)
}

pub fn read_au3(unit: &[u8], called: &Connection) -> Result<(), Reason> {
    let (first, received) = first_and_mac(unit).ok_or(Reason(10, 3))?;
    if received != au3_mac(called, first, &called.own) {
        return Err(Reason(4, 3));
    }
    if mti_of(first) != mti::AU3 {
        return Err(Reason(9, 2));
    }
    if ety_of(first) != ETY_NONE {
        return Err(Reason(8, 1));
    }
    if flag_of(first) != FROM_INITIATOR {
        return Err(Reason(6, 2));
    }
    Ok(())
}

/// The unit that the called side of this connection sends.
pub fn ar(called: &Connection) -> Vec<u8> {
    let first = first_octet(ETY_NONE, mti::AR, FROM_RESPONDER);
    let mac = ar_mac(called, first, &called.peer);
    [&[first][..], &mac].concat()
}

/// m is the first octet alone (002, 6.2.3.2.1.11).
fn ar_mac(connection: &Connection, first: u8, b: &Identity) -> [u8; MAC_LENGTH] {
    mac(&connection.key, &etcs_id(b), &[first])
}

pub fn read_ar(unit: &[u8], caller: &Connection) -> Result<(), Reason> {
    let (first, received) = first_and_mac(unit).ok_or(Reason(10, 8))?;
    if received != ar_mac(caller, first, &caller.own) {
        return Err(Reason(4, 4));
    }
    if mti_of(first) != mti::AR {
        return Err(Reason(9, 3));
    }
    if ety_of(first) != ETY_NONE {
        return Err(Reason(8, 1));
    }
    if flag_of(first) != FROM_RESPONDER {
        return Err(Reason(6, 1));
    }
    Ok(())
}

/// The two fields of an AU3 or AR.
fn first_and_mac(unit: &[u8]) -> Option<(u8, &[u8])> {
    let (&first, mac) = unit.split_first()?;
    (mac.len() == MAC_LENGTH).then_some((first, mac))
}

/// The data unit of 1 to 1,023 octets, to the peer.
pub fn dt(sender: &Connection, user: &[u8]) -> Vec<u8> {
    let mut unit = vec![0; OUTPUT_LENGTH];
    let destination = etcs_id(&sender.peer);
    let length = build(&sender.key, &destination, sender.responder, user, &mut unit)
        .expect("H2 and H10 were asked before");
    unit.truncate(length);
    unit
}

/// The length of the user data, or the refusal of `check` (01): H7, H8 or H9. The flag is the peer's.
pub fn check_dt(unit: &[u8], receiver: &Connection) -> Result<usize, u8> {
    let destination = etcs_id(&receiver.own);
    crate::authentication::check(unit, &receiver.key, &destination, !receiver.responder)
}

/// Why `check` refuses a unit whose MAC is not wrong.
pub fn dt_fault(unit: &[u8], receiver: &Connection) -> Reason {
    let shortest = 1 + 1 + MAC_LENGTH;
    if unit.len() < shortest || unit.len() > 1 + USER_MAX + MAC_LENGTH {
        return Reason(10, 5);
    }
    if ety_of(unit[0]) != ETY_NONE || mti_of(unit[0]) != mti::DT {
        return Reason(8, 1);
    }
    Reason(6, if receiver.responder { 2 } else { 1 })
}

/// The unit that says why the connection is released. The flag is the sender's.
pub fn di(flag: bool, Reason(reason, sub): Reason) -> Vec<u8> {
    vec![first_octet(ETY_NONE, mti::DI, flag), reason, sub]
}

/// What a T-DISC.ind tells the user: the transport's reason where it brings no unit, else that of the
/// DI. Anything else that it brings is unknown (002, Table 24 and 6.3.3.5.7).
pub fn release_reason(reason: u8, unit: &[u8]) -> Reason {
    match *unit {
        [] => Reason(1, reason),
        [first, reason, sub] if mti_of(first) == mti::DI => Reason(reason, sub),
        _ => Reason(127, 127),
    }
}
