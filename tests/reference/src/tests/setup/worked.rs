//! One set-up in numbers, what each side holds in it, and what goes up.

use super::*;
use crate::authentication::session_keys;
use crate::setup::{unit_kind, Reason, Timer, ToTransport, ToUser};

#[test]
fn session_key() {
    assert_eq!(session_keys(&kmac(), &RA, &RB), Ok(ks()));
}

/// The numbers that the design has, from an independent model.
#[test]
fn units_in_numbers() {
    let numbers = [
        (au1(), "42e6a54b01b0b1b2b3b4b5b6b7"),
        (au2(), "2512345601a0a1a2a3a4a5a6a7ba1bdddc1625a262"),
        (au3(), "06aaceefbcea5117b5"),
        (ar(), "137759707b008edef8"),
        (dt_of(CALLED, 0x0a, b"hi"), "0a6869e2c8acba3b977c28"),
        (dt_of(CALLER, 0x0b, b"hi"), "0b686927f573fe1455d110"),
    ];
    for (unit, digits) in numbers {
        assert_eq!(hex::encode(&unit), digits);
    }
}

/// What goes out with each event of a set-up, then a unit each way and the release.
#[test]
fn one_connection_from_call_to_release() {
    let store = store();
    let (mut caller, mut called) = (Connection::NONE, Connection::NONE);
    let a = |connection: &mut Connection, event, bytes, unit: &[u8]| {
        assert_eq!(events(connection, event), (bytes, unit.to_vec()));
    };
    let (no_unit, di) = ([], [0x10, 0, 9]);
    let [au1, au2, au3, ar] = [au1(), au2(), au3(), ar()];
    let call = Event::ConnectRequest(request(&store));
    a(&mut caller, call, [0, 1, 1, WFTC, 0, 0, 0, 0], &au1);
    let called_up = Event::ConnectIndication(indication(&au1, &store));
    a(&mut called, called_up, [0, 2, 0, WFAU3, 0, 0, 0, 0], &au2);
    let confirmed = Event::ConnectConfirmation(&au2);
    a(&mut caller, confirmed, [0, 5, 0, WFAR, 0, 0, 0, 0], &au3);
    a(
        &mut called,
        Event::Au3(&au3),
        [1, 0, 0, WFRESP, 0, 0, 0, 0],
        &no_unit,
    );
    assert_eq!(called.peer, CALLER);
    a(
        &mut called,
        Event::ConnectResponse,
        [0, 6, 0, DATA, 0, 0, 0, 0],
        &ar,
    );
    a(
        &mut caller,
        Event::Ar(&ar),
        [2, 0, 2, DATA, 0, 0, 0, 0],
        &no_unit,
    );
    let [hi, hi_back] = [dt_of(CALLED, 0x0a, b"hi"), dt_of(CALLER, 0x0b, b"hi")];
    a(
        &mut caller,
        Event::DataRequest(b"hi"),
        [0, 7, 0, DATA, 0, 0, 0, 0],
        &hi,
    );
    a(
        &mut called,
        Event::Dt(&hi),
        [3, 0, 0, DATA, 0, 0, 0, 2],
        &no_unit,
    );
    a(
        &mut called,
        Event::DataRequest(b"hi"),
        [0, 7, 0, DATA, 0, 0, 0, 0],
        &hi_back,
    );
    a(
        &mut caller,
        Event::Dt(&hi_back),
        [3, 0, 0, DATA, 0, 0, 0, 2],
        &no_unit,
    );
    let release = Event::DisconnectRequest(Reason(0, 9));
    a(&mut caller, release, [0, 4, 3, IDLE, 0, 0, 0, 0], &di);
    let lost = Event::DisconnectIndication(6, &di);
    a(&mut called, lost, [4, 0, 3, IDLE, 0, 9, 0, 0], &no_unit);
    assert_eq!([caller, called], [Connection::NONE; 2]);
}

/// The KMAC in WFTC, the session key from the AU2 on, and in IDLE nothing.
#[test]
fn what_a_connection_holds() {
    for connection in connections() {
        let responder = connection.responder;
        let (own, peer) = match responder {
            true => (CALLED, CALLER),
            false => (CALLER, CALLED),
        };
        let held = |key, ra| Connection {
            state: connection.state,
            responder,
            own,
            peer,
            ra,
            rb: RB,
            key,
        };
        let expected = match connection.state {
            IDLE => Connection::NONE,
            WFTC => held(kmac(), [0; 8]),
            _ => held(ks(), RA),
        };
        assert_eq!(connection, expected);
        match connection.state {
            WFTC | WFAR => assert!(!responder),
            WFAU3 | WFRESP => assert!(responder),
            _ => {}
        }
    }
    let (Pair { caller, called }, _) = Pair::set_up();
    assert!(!caller.responder && called.responder);
}

/// Every length, in both directions; neither connection changes.
#[test]
fn data_arrives() {
    let (mut pair, _) = Pair::set_up();
    let before = pair.clone();
    for length in [1, 2, 3, 114, 1022, 1023] {
        let user: Vec<u8> = (0..length).map(|i| (i * 7) as u8).collect();
        for (from, to) in [
            (before.caller, before.called),
            (before.called, before.caller),
        ] {
            let (mut from, mut to) = (from, to);
            let unit = take(&mut from, Event::DataRequest(&user)).unit;
            assert_eq!(unit.len(), 9 + length);
            let outgoing = take(&mut to, Event::Dt(&unit));
            assert_eq!(outgoing.user, ToUser::Data(length));
            assert_eq!(outgoing.user_data(&unit), user);
            // A unit that comes again is the application's matter (002, Annex A, a).
            assert_eq!(take(&mut to, Event::Dt(&unit)), outgoing);
        }
    }
    for _ in 0..3 {
        let unit = take(&mut pair.called, Event::DataRequest(b"hi")).unit;
        take(&mut pair.caller, Event::Dt(&unit));
    }
    assert_eq!([pair.caller, pair.called], [before.caller, before.called]);
}

/// A unit that comes back to its sender has the wrong destination and flag.
#[test]
fn a_reflected_unit_does_not_go_up() {
    let (Pair { caller, called }, _) = Pair::set_up();
    for mut connection in [caller, called] {
        let unit = take(&mut connection, Event::DataRequest(b"hi")).unit;
        let outgoing = take(&mut connection, Event::Dt(&unit));
        assert_eq!(outgoing.user, ToUser::Report(Reason(4, 1)));
        assert_eq!(outgoing.user_data(&unit), b"");
    }
}

/// With one ETCS ID on both sides the MAC is right, and the flag alone tells (002, 6.2.3.2.1.12).
#[test]
fn a_unit_reflected_between_equal_ids_is_told_by_its_flag() {
    let (Pair { caller, called }, _) = Pair::set_up();
    for (connection, sub) in [(caller, 1), (called, 2)] {
        let mut alike = Connection {
            own: [1, 7, 7, 7],
            peer: [2, 7, 7, 7],
            ..connection
        };
        let unit = take(&mut alike, Event::DataRequest(b"hi")).unit;
        let outgoing = take(&mut alike, Event::Dt(&unit));
        assert_eq!(outgoing.user, ToUser::Disconnect(Reason(6, sub)));
        assert_eq!(alike, Connection::NONE);
    }
}

/// The next yard holds the KMAC too: its AU2 has a right MAC, and it is not the one that was called.
#[test]
fn the_next_yards_answer_is_refused() {
    let store = store();
    let mut caller = in_state(WFTC);
    let mut next = Connection::NONE;
    let au1 = au1();
    let to_next = Indication {
        own: NEXT,
        ..indication(&au1, &store)
    };
    let answer = take(&mut next, Event::ConnectIndication(to_next)).unit;
    assert_eq!(answer, au2_of(0x25, NEXT, 1));
    let outgoing = take(&mut caller, Event::ConnectConfirmation(&answer));
    assert_eq!(outgoing.user, ToUser::Disconnect(Reason(8, 4)));
    assert_eq!(caller, Connection::NONE);
    let mut caller = Connection {
        peer: NEXT,
        ..in_state(WFTC)
    };
    let outgoing = take(&mut caller, Event::ConnectConfirmation(&answer));
    assert_eq!(outgoing.transport, ToTransport::Au3);
}

/// No MAC of set-up has the caller's type: where one key serves two callers that differ in it alone, an
/// AU1 with the other type gives the called side the other peer.
#[test]
fn the_callers_type_is_in_no_mac() {
    let other = [CALLER[0] ^ 1, CALLER[1], CALLER[2], CALLER[3]];
    let entry = Entry {
        peers: vec![CALLER, other, CALLED],
        ..shared()
    };
    let store = encode(EDITION_1, &[entry]);
    let (mut caller, mut called) = (in_state(WFTC), Connection::NONE);
    let mut altered = au1();
    altered[0] ^= 1 << 5;
    let au2 = take(
        &mut called,
        Event::ConnectIndication(indication(&altered, &store)),
    )
    .unit;
    let au3 = take(&mut caller, Event::ConnectConfirmation(&au2)).unit;
    let outgoing = take(&mut called, Event::Au3(&au3));
    assert_eq!(outgoing.user, ToUser::ConnectIndication);
    assert_eq!((called.peer, caller.own), (other, CALLER));
}

/// A key that expires or is deleted later closes nothing: with AU1 out no event looks at a store.
#[test]
fn an_expired_key_closes_nothing() {
    let (Pair { mut caller, .. }, _) = Pair::set_up();
    let before = caller;
    let deleted = encode(EDITION_1, &[]);
    for (store, t) in [(&store(), u32::MAX), (&deleted, T), (&Vec::new(), T)] {
        let call = Event::ConnectRequest(Request {
            t,
            ..request(store)
        });
        assert_eq!(
            take(&mut caller, call).to_bytes(DATA),
            [0, 0, 0, DATA, 0, 0, 0, 0]
        );
        let unit = take(&mut caller, Event::DataRequest(b"hi")).unit;
        assert_eq!(unit, dt_of(CALLED, 0x0a, b"hi"));
        assert_eq!(caller, before);
    }
}

/// The search in force (02, change requests 4 and 7): the hour of the end counts, and of the records
/// that fit the one with the latest end is taken.
#[test]
fn the_key_is_that_of_the_search_in_force() {
    let later = Entry {
        start: T,
        end: shared().end + 1,
        peers: vec![CALLED],
        ..super::super::entry(2, 0)
    };
    let expected = later.kmac;
    let store = encode(EDITION_1, &[shared(), later.clone()]);
    for (t, key) in [(T - 1, kmac()), (T, expected), (later.end, expected)] {
        let mut caller = Connection::NONE;
        let call = Event::ConnectRequest(Request {
            t,
            ..request(&store)
        });
        assert_eq!(take(&mut caller, call).timer, Timer::Set);
        assert_eq!(caller.key, key);
    }
}

#[test]
fn kinds_of_units() {
    for first in 0..=255 {
        let kind = match first >> 1 & 0b1111 {
            0b0011 => 1,
            0b1001 => 2,
            _ => 3,
        };
        assert_eq!(unit_kind(&[first, 1, 2]), kind);
        assert_eq!(unit_kind(&[first]), kind);
    }
    assert_eq!(unit_kind(&[]), 3);
    for kind in 0..=255 {
        let event = match kind {
            1 => Event::Au3(b"x"),
            2 => Event::Ar(b"x"),
            _ => Event::Dt(b"x"),
        };
        assert_eq!(Event::unit(kind, b"x"), event);
    }
}

/// The layout, and that what is written is read again. Role and unused bytes come in any form.
#[test]
fn connections_in_bytes() {
    let connection = Connection {
        responder: true,
        ..in_state(WFTC)
    };
    let bytes = connection.to_bytes();
    let fields = [
        &[1, 1, 0, 0][..],
        &CALLER,
        &CALLED,
        &[0; 8],
        &RB,
        &kmac(),
        &[0; 12],
    ];
    assert_eq!(bytes.to_vec(), fields.concat());
    for connection in connections() {
        assert_eq!(Connection::from_bytes(&connection.to_bytes()), connection);
    }
    for at in [2, 3].into_iter().chain(52..64) {
        let mut dirty = bytes;
        dirty[at] = 0xff;
        assert_eq!(Connection::from_bytes(&dirty), connection);
    }
    for role in [0, 1, 2, 128, 255] {
        let mut dirty = bytes;
        dirty[1] = role;
        assert_eq!(Connection::from_bytes(&dirty).responder, role != 0);
    }
}
