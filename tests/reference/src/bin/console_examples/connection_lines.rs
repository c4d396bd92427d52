//! The part of `lines` that is about connections.

use crate::side::{Side, AR, AU3, DT};
use crate::{held, key, kmac, number, requests, Session};
use crate::{NEXT_RBC, RBC, TUG};
use reference::hex::encode;
use reference::message::kind;
use reference::setup::units::au1;
use reference::setup::{DATA, WFAR, WFAU3, WFRESP, WFTC};
use reference::store::{self, EDITION_1};
use reference::Identity;

/// The largest identity of a type that a unit has room for, and the first beyond it.
const LAST_TYPE: Identity = [0x07, 0xff, 0xff, 0xff];
const NO_TYPE: Identity = [0x08, 0x00, 0x00, 0x01];

/// The random numbers of all these set-ups.
fn ra() -> [u8; 8] {
    number(0xa)
}

fn rb() -> [u8; 8] {
    number(0xb)
}

/// Lines that are not read, by command: the number of words, then the fields from the left.
pub fn faults() {
    let lines = [
        "connection a\nconnection a 02e6a541 0\nconnection c 02e6a541\nconnection A 02e6a541\nconnection ab 0\nconnection a 02e6a54\nconnection a 02e6a54x",
        "call a 01000101 26111512\ncall a 01000101 26111512 b0b1b2b3b4b5b6b7 0\ncall c 0 0 0\ncall a 0100010 x x\ncall a 01000101 2611151x 0\ncall a 01000101 261115121 0\ncall a 01000101 26111512 b0b1b2b3b4b5b6b\ncall a 01000101 26111512 b0b1b2b3b4b5b6bx",
        "indicate b 26111512 a0a1a2a3a4a5a6a7\nindicate b 26111512 a0a1a2a3a4a5a6a7 00 00\nindicate - 0 0 0\nindicate b 2611151 x x\nindicate b 2611151x 0 0\nindicate b 26111512 a0a1a2a3a4a5a6a 0\nindicate b 26111512 a0a1a2a3a4a5a6ax 0\nindicate b 26111512 a0a1a2a3a4a5a6a7 0\nindicate b 26111512 a0a1a2a3a4a5a6a7 0x",
        "confirm\nconfirm a\nconfirm a 00 00\nconfirm 00 a\nconfirm a 0\nconfirm a 0x",
        "bring a 1\nbring a 1 00 00\nbring 1 4 0\nbring a 0 x\nbring a 4 00\nbring a x 0\nbring a -1 00\nbring a 00000000000000003 00\nbring a 3 0\nbring a 3 0x",
        "respond\nrespond a b\nrespond c",
        "say a\nsay a 00 00\nsay c 0\nsay a 0\nsay a 0x",
        "release a 0\nrelease a 0 0 0\nrelease c 256 x\nrelease a 256 x\nrelease a x 256\nrelease a 0 256\nrelease a 0 x",
        "lost a\nlost a 0 0\nlost c x\nlost a 256\nlost a x",
        "end a\nend a 00 00\nend c x\nend a 0\nend a 0x",
        "late\nlate a b\nlate c",
    ];
    for of_a_command in lines {
        println!("{of_a_command}");
    }
}

/// The store is empty before and afterwards; session keys that are held stay.
pub fn events() {
    in_idle();
    let list = [RBC, NEXT_RBC, TUG, LAST_TYPE, NO_TYPE];
    let mut session = Session::open(TUG, 1, 1);
    session.send(kind::ADD_KEYS, &requests(&[key(1, TUG, &kmac(1), &list)]));
    session.end();
    let store = store::encode(EDITION_1, &[held(1, &list)]);
    at_start(&store);
    upper_case(&store);
    for state in [WFTC, WFAR, DATA, WFAU3, WFRESP] {
        in_state(state, &store);
    }
    types(&store);
    long_units(&store);
    println!("\tlate   a \r\nbring b 0000000000000003 00\nshow\nempty");
}

/// Every event of Table 20 (002, 6.2.6), T-DISC.ind without a unit and with two, in its order.
const EVENTS: [fn(&mut Side); 13] = [
    |side| drop(side.call(RBC, rb())),
    |side| drop(side.respond()),
    |side| drop(side.say(b"abc")),
    |side| drop(side.release(0, 255)),
    |side| drop(side.indicate(ra(), &[0])),
    |side| drop(side.confirm(&[0])),
    |side| side.lost(255),
    |side| side.end(&[0x10, 10, 99]),
    |side| side.end(&[0]),
    |side| drop(side.bring(AU3, &[0; 9])),
    |side| drop(side.bring(AR, &[0; 9])),
    |side| drop(side.bring(DT, &[0; 10])),
    |side| side.late(),
];

/// Every event in IDLE, over the empty store.
fn in_idle() {
    let store = store::encode(EDITION_1, &[]);
    let mut side = Side::at_start('a', &store);
    for event in EVENTS {
        event(&mut side);
    }
    side.say(&[0; 1_024]);
    side.indicate(ra(), &au1(&TUG, &rb()));
}

/// The identity that connections have at the start, on either side.
fn at_start(store: &[u8]) {
    let mut caller = Side::at_start('a', store);
    caller.call(RBC, rb());
    caller.late();
    Side::at_start('b', store).indicate(ra(), &au1(&TUG, &rb()));
}

/// The hex digits of every line in upper case, and b calls a.
fn upper_case(store: &[u8]) {
    let upper = |bytes: &[u8]| encode(bytes).to_uppercase();
    let mut caller = Side::written(upper, 'b', TUG, store);
    let mut called = Side::written(upper, 'a', NEXT_RBC, store);
    let first = caller.call(NEXT_RBC, rb());
    let second = called.indicate(ra(), &first);
    let third = caller.confirm(&second);
    called.bring(AU3, &third);
    let last = called.respond();
    caller.bring(AR, &last);
    let data = called.say(&[0xab, 0xcd, 0xef]);
    caller.bring(DT, &data);
    let why = called.release(0xab, 0xcd);
    caller.end(&why);
}

/// Every event in a state that is not IDLE.
fn in_state(state: u8, store: &[u8]) {
    let (mut side, _) = reach(state, store);
    for event in EVENTS {
        if side.state() != state {
            (side, _) = reach(state, store);
        }
        event(&mut side);
    }
}

/// A connection in this state, and its peer. Either is made anew, whatever it was.
fn reach(state: u8, store: &[u8]) -> (Side<'_>, Side<'_>) {
    let mut caller = Side::new('a', TUG, store);
    let mut called = Side::new('b', RBC, store);
    let first = caller.call(RBC, rb());
    if state == WFTC {
        return (caller, called);
    }
    let second = called.indicate(ra(), &first);
    if state == WFAU3 {
        return (called, caller);
    }
    let third = caller.confirm(&second);
    if state == WFAR {
        return (caller, called);
    }
    called.bring(AU3, &third);
    if state == WFRESP {
        return (called, caller);
    }
    let last = called.respond();
    caller.bring(AR, &last);
    (caller, called)
}

/// Identities of the last type that a unit has room for, and of one beyond it.
fn types(store: &[u8]) {
    let mut caller = Side::new('a', LAST_TYPE, store);
    let mut called = Side::new('b', RBC, store);
    let first = caller.call(RBC, rb());
    let second = called.indicate(ra(), &first);
    let third = caller.confirm(&second);
    called.bring(AU3, &third);
    let mut none = Side::new('b', NO_TYPE, store);
    none.call(RBC, rb());
    none.indicate(ra(), &first);
    Side::new('a', TUG, store).call(NO_TYPE, rb());
}

/// The longest user data and one byte more, and what is brought of either.
fn long_units(store: &[u8]) {
    let (mut caller, mut called) = reach(DATA, store);
    let mut longest = caller.say(&[0xab; 1_023]);
    caller.say(&[0xab; 1_024]);
    called.bring(DT, &longest);
    longest.push(0);
    called.bring(DT, &longest);
}

/// A store of edition 2 that has one key for both radio block centres.
pub fn over_edition_2(store: &[u8]) {
    let mut caller = Side::new('a', NEXT_RBC, store);
    let mut called = Side::new('b', RBC, store);
    let first = caller.call(RBC, rb());
    let second = called.indicate(ra(), &first);
    let third = caller.confirm(&second);
    called.bring(AU3, &third);
}

/// An unsound store: both ways to start are refused, but a unit that is no AU1 is told before.
pub fn over_unsound(store: &[u8]) {
    let mut side = Side::new('a', TUG, store);
    side.call(RBC, rb());
    side.indicate(ra(), &au1(&RBC, &rb()));
    side.indicate(ra(), &[0]);
}
