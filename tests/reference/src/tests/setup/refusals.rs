//! What change request 1 refuses, in which order, and that a refusal leaves all.

use super::super::{unsound, WRONG_LENGTHS};
use super::*;
use crate::setup::{Reason, ToTransport, ToUser};
use crate::store::{EDITIONS, EDITION_2};

/// Asserts the refusal, and that connection and output are as before.
fn assert_refused(connection: &Connection, event: Event, out_length: usize, refusal: u8) {
    let mut after = *connection;
    let mut out = vec![FILL; out_length];
    assert_eq!(after.take(event, &mut out), Err(refusal));
    assert_eq!(after, *connection);
    assert_eq!(out, vec![FILL; out_length]);
}

/// One event of each row; user data and units of any kind.
fn all_events<'a>(store: &'a [u8], unit: &'a [u8]) -> [Event<'a>; 11] {
    [
        Event::ConnectRequest(request(store)),
        Event::ConnectResponse,
        Event::DataRequest(unit),
        Event::DisconnectRequest(Reason(0, 1)),
        Event::ConnectIndication(indication(unit, store)),
        Event::ConnectConfirmation(unit),
        Event::DisconnectIndication(6, unit),
        Event::Au3(unit),
        Event::Ar(unit),
        Event::Dt(unit),
        Event::TimeOut,
    ]
}

#[test]
fn h2_comes_first_for_every_event_in_every_state() {
    let unsound = unsound(EDITION_1);
    for connection in connections() {
        for unit in [au1(), au2(), au3(), ar(), vec![], vec![0; 2000]] {
            for store in [&store()[..], &unsound, &[]] {
                for event in all_events(store, &unit) {
                    for length in [0, 3, 1031] {
                        assert_refused(&connection, event, length, 2);
                    }
                }
            }
        }
    }
}

#[test]
fn h10_comes_before_the_table_in_every_state() {
    for connection in connections() {
        for length in [0, 1024, 1025, 5000] {
            let user = vec![7; length];
            assert_refused(&connection, Event::DataRequest(&user), 1031, 2);
            assert_refused(&connection, Event::DataRequest(&user), 1032, 10);
        }
        for length in [1, 1023] {
            let user = vec![7; length];
            let mut after = connection;
            let sends = take(&mut after, Event::DataRequest(&user)).transport == ToTransport::Dt;
            assert_eq!(sends, connection.state == DATA);
            assert_eq!(after, connection);
        }
    }
}

/// A call and an indication over this store and moment are both refused.
fn assert_neither_starts(store: &[u8], t: u32, refusal: u8) {
    let au1 = au1();
    let call = Event::ConnectRequest(Request {
        t,
        ..request(store)
    });
    let called = Event::ConnectIndication(Indication {
        t,
        ..indication(&au1, store)
    });
    for event in [call, called] {
        for length in [1032, 5000] {
            assert_refused(&Connection::NONE, event, length, refusal);
        }
    }
}

#[test]
fn h1_h12_and_h11_of_the_search() {
    for length in WRONG_LENGTHS {
        assert_neither_starts(&vec![0; length], T, 1);
    }
    let entry = shared();
    for edition in EDITIONS {
        assert_neither_starts(&unsound(edition), T, 12);
        assert_neither_starts(&encode(edition, &[]), T, 11);
        let held = encode(edition, &[shared()]);
        for t in [0, entry.start - 1, entry.end + 1, u32::MAX] {
            assert_neither_starts(&held, t, 11);
        }
        let stranger = Entry {
            peers: vec![NEXT],
            ..entry.clone()
        };
        assert_neither_starts(&encode(edition, &[stranger]), T, 11);
    }
}

/// In both editions, at both ends of the period.
#[test]
fn both_sides_start_with_a_key_that_fits() {
    let au1 = au1();
    for edition in EDITIONS {
        let store = encode(edition, &[shared()]);
        for t in [shared().start, shared().end] {
            let call = Event::ConnectRequest(Request {
                t,
                ..request(&store)
            });
            let called = Event::ConnectIndication(Indication {
                t,
                ..indication(&au1, &store)
            });
            assert_eq!(from_idle(call).unit, au1);
            assert_eq!(from_idle(called).unit, au2());
        }
    }
}

/// A type over 7 is H11 even where a key of that peer fits, behind H1 and H12; 7 is served.
#[test]
fn types_over_7_are_h11() {
    for kind in 0..=255 {
        let other = [kind, 9, 9, 9];
        let entry = Entry {
            peers: vec![other, CALLED, CALLER],
            ..shared()
        };
        let sound = encode(EDITION_1, &[entry]);
        let unsound = unsound(EDITION_2);
        for (store, refusal) in [(&sound[..], 11), (&unsound, 12), (&sound[1..], 1)] {
            let au1 = au1();
            let calls = [
                Event::ConnectRequest(Request {
                    own: other,
                    ..request(store)
                }),
                Event::ConnectRequest(Request {
                    peer: other,
                    ..request(store)
                }),
                Event::ConnectIndication(Indication {
                    own: other,
                    ..indication(&au1, store)
                }),
            ];
            for event in calls {
                if kind > 7 || refusal != 11 {
                    assert_refused(&Connection::NONE, event, 1032, refusal);
                } else {
                    let outgoing = from_idle(event);
                    let named = matches!(outgoing.unit.len(), 13 | 21);
                    assert!(named && outgoing.user == ToUser::Nothing);
                }
            }
        }
    }
}

/// A caller of type 7 in both directions: its AU1 is accepted, and so is its AU2.
#[test]
fn type_7_sets_up() {
    let (caller_id, called_id) = ([7, 1, 2, 3], [7, 4, 5, 6]);
    let entry = Entry {
        peers: vec![caller_id, called_id],
        ..shared()
    };
    let store = encode(EDITION_1, &[entry]);
    let (mut caller, mut called) = (Connection::NONE, Connection::NONE);
    let call = Request {
        own: caller_id,
        peer: called_id,
        ..request(&store)
    };
    let au1 = take(&mut caller, Event::ConnectRequest(call)).unit;
    assert_eq!(au1[0], 0xe2);
    let indication = Indication {
        own: called_id,
        ..indication(&au1, &store)
    };
    let au2 = take(&mut called, Event::ConnectIndication(indication)).unit;
    assert_eq!(au2[0], 0xe5);
    assert_eq!(called.peer, caller_id);
    let au3 = take(&mut caller, Event::ConnectConfirmation(&au2)).unit;
    let outgoing = take(&mut called, Event::Au3(&au3));
    assert_eq!(outgoing.user, ToUser::ConnectIndication);
}

/// Pre0 and Pre1 come before the search, and elsewhere no store is looked at.
#[test]
fn only_the_start_of_set_up_searches() {
    let unsound = unsound(EDITION_1);
    for store in [&unsound[..], &[], &encode(EDITION_1, &[])] {
        let call = Request {
            acceptable: false,
            ..request(store)
        };
        let outgoing = from_idle(Event::ConnectRequest(call));
        assert_eq!(outgoing.user, ToUser::Disconnect(Reason(3, 127)));
        let bad = named(0x43, CALLER, 1, RB);
        let called = Event::ConnectIndication(indication(&bad, store));
        let outgoing = from_idle(called);
        assert_eq!(outgoing.unit, [0x11, 6, 2]);
        for connection in connections().into_iter().skip(1) {
            let au1 = au1();
            let call = Event::ConnectRequest(request(store));
            let called = Event::ConnectIndication(indication(&au1, store));
            for event in [call, called] {
                let mut after = connection;
                assert_eq!(take(&mut after, event).user, ToUser::Nothing);
                assert_eq!(after, connection);
            }
        }
    }
}
