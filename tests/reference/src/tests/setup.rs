//! Change request 1: connections by their events, with the units written here octet by octet.

mod predicates;
mod refusals;
mod table;
mod worked;

use crate::authentication::cbc_mac;
use crate::hex;
use crate::setup::{Connection, Event, Indication, Outgoing, Request, DATA, IDLE};
use crate::setup::{WFAR, WFAU3, WFRESP, WFTC};
use crate::store::{encode, Entry, EDITION_1};
use crate::Identity;

const CALLER: Identity = [0x02, 0xe6, 0xa5, 0x4b];
const CALLED: Identity = [0x01, 0x12, 0x34, 0x56];
/// The next yard, which has the same key.
const NEXT: Identity = [0x01, 0x12, 0x34, 0x57];

/// The triple key of Annex B of 002.
const KMAC: &str = "01020407080b0d0e10131516191a1c1f20232526292a2c2f";
const RA: [u8; 8] = [0xa0, 0xa1, 0xa2, 0xa3, 0xa4, 0xa5, 0xa6, 0xa7];
const RB: [u8; 8] = [0xb0, 0xb1, 0xb2, 0xb3, 0xb4, 0xb5, 0xb6, 0xb7];
/// Their session key under that KMAC.
const KS: &str = "a8f1fd5b5e68b95207c876dc1ca18a67204c7034d634831a";

/// A moment at which the key fits.
const T: u32 = 0x1800;

/// What stands in an output buffer before a call.
const FILL: u8 = 0xee;

fn kmac() -> [u8; 24] {
    hex::decode(KMAC)
}

fn ks() -> [u8; 24] {
    hex::decode(KS)
}

/// One key that caller, called side and next yard share.
fn shared() -> Entry {
    Entry {
        kmac: kmac(),
        peers: vec![CALLER, CALLED, NEXT],
        ..super::entry(1, 0)
    }
}

fn store() -> Vec<u8> {
    encode(EDITION_1, &[shared()])
}

fn request(store: &[u8]) -> Request<'_> {
    Request {
        acceptable: true,
        own: CALLER,
        peer: CALLED,
        t: T,
        rb: RB,
        store,
    }
}

fn indication<'a>(unit: &'a [u8], store: &'a [u8]) -> Indication<'a> {
    Indication {
        acceptable: true,
        own: CALLED,
        t: T,
        ra: RA,
        unit,
        store,
    }
}

/// Takes an event that is not refused. The output is the unit that goes out and what stood behind it.
fn take(connection: &mut Connection, event: Event) -> Outgoing {
    let mut out = [FILL; 1040];
    let outgoing = connection.take(event, &mut out).expect("it is not refused");
    let (unit, rest) = out.split_at(outgoing.unit.len());
    assert_eq!(unit, outgoing.unit);
    assert!(rest.iter().all(|&octet| octet == FILL));
    outgoing
}

/// What goes out where there is no connection yet.
fn from_idle(event: Event) -> Outgoing {
    let mut connection = Connection::NONE;
    take(&mut connection, event)
}

/// The eight bytes of the outgoing events, and the unit.
fn events(connection: &mut Connection, event: Event) -> ([u8; 8], Vec<u8>) {
    let outgoing = take(connection, event);
    (outgoing.to_bytes(connection.state), outgoing.unit)
}

/// Both sides of one connection.
#[derive(Clone)]
struct Pair {
    caller: Connection,
    called: Connection,
}

impl Pair {
    /// From no connection to DATA on both sides, with what each has after each of its events.
    fn set_up() -> (Pair, Vec<Connection>) {
        let store = store();
        let (mut caller, mut called) = (Connection::NONE, Connection::NONE);
        let mut met = vec![caller];
        let au1 = take(&mut caller, Event::ConnectRequest(request(&store))).unit;
        met.push(caller);
        let au2 = take(
            &mut called,
            Event::ConnectIndication(indication(&au1, &store)),
        )
        .unit;
        met.push(called);
        let au3 = take(&mut caller, Event::ConnectConfirmation(&au2)).unit;
        met.push(caller);
        take(&mut called, Event::Au3(&au3));
        met.push(called);
        let ar = take(&mut called, Event::ConnectResponse).unit;
        met.push(called);
        take(&mut caller, Event::Ar(&ar));
        met.push(caller);
        (Pair { caller, called }, met)
    }
}

/// A connection in each state, DATA in both roles.
fn connections() -> Vec<Connection> {
    let (_, met) = Pair::set_up();
    let states: Vec<u8> = met.iter().map(|connection| connection.state).collect();
    assert_eq!(states, [IDLE, WFTC, WFAU3, WFAR, WFRESP, DATA, DATA]);
    met
}

fn in_state(state: u8) -> Connection {
    let mut all = connections().into_iter();
    all.find(|connection| connection.state == state)
        .expect("each state is met")
}

/// A message and its MAC under the session key, over the string l | DA | m as 002 tells it.
fn sealed(destination: Identity, message: &[u8], hidden: &[u8]) -> Vec<u8> {
    let string = [&destination[1..], message, hidden].concat();
    let length = (string.len() as u16).to_be_bytes();
    let mac = cbc_mac(&ks(), &[&length[..], &string].concat());
    [message, &mac].concat()
}

/// The octets of Table 8 or 9 of 002 without a MAC.
fn named(first: u8, sender: Identity, saf: u8, random: [u8; 8]) -> Vec<u8> {
    [&[first][..], &sender[1..], &[saf], &random].concat()
}

fn au1() -> Vec<u8> {
    named(0x42, CALLER, 1, RB)
}

/// An AU2 of these fields with a right MAC: R_B and B follow in its string.
fn au2_of(first: u8, sender: Identity, saf: u8) -> Vec<u8> {
    let message = named(first, sender, saf, RA);
    sealed(CALLER, &message, &[&RB[..], &CALLER[1..]].concat())
}

fn au2() -> Vec<u8> {
    au2_of(0x25, CALLED, 1)
}

/// An AU3 with this first octet: R_B and R_A follow in its string.
fn au3_of(first: u8) -> Vec<u8> {
    sealed(CALLED, &[first], &[RB, RA].concat())
}

fn au3() -> Vec<u8> {
    au3_of(0x06)
}

fn ar_of(first: u8) -> Vec<u8> {
    sealed(CALLER, &[first], &[])
}

fn ar() -> Vec<u8> {
    ar_of(0x13)
}

/// A data unit with this first octet.
fn dt_of(destination: Identity, first: u8, user: &[u8]) -> Vec<u8> {
    sealed(destination, &[&[first], user].concat(), &[])
}

/// The data unit of the other side of this connection.
fn dt_to(connection: &Connection, user: &[u8]) -> Vec<u8> {
    match connection.responder {
        true => dt_of(CALLED, 0x0a, user),
        false => dt_of(CALLER, 0x0b, user),
    }
}

/// The unit with its last octet, in the MAC where it has one, wrong.
fn last_wrong(mut unit: Vec<u8>) -> Vec<u8> {
    *unit.last_mut().expect("a unit has octets") ^= 1;
    unit
}
