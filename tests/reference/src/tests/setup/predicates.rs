//! Predicates (002, Table 17): which reason and sub-reason each fault has, and which of several counts.

use super::*;
use crate::setup::{Reason, ToUser};

/// All sets of `count` faults.
fn sets(count: usize) -> impl Iterator<Item = Vec<bool>> {
    (0..1 << count).map(move |bits: usize| (0..count).map(|i| bits >> i & 1 == 1).collect())
}

/// The reason of the first fault that is in the set.
fn first(set: &[bool], reasons: &[Reason]) -> Option<Reason> {
    let mut faults = set.iter().zip(reasons);
    faults.find(|(&is, _)| is).map(|(_, &reason)| reason)
}

/// What an event says, which ends the connection or does not.
fn told(connection: &Connection, event: Event) -> Option<Reason> {
    let mut connection = *connection;
    let outgoing = take(&mut connection, event);
    let in_di = match outgoing.unit[..] {
        [_, reason, sub] => Some(Reason(reason, sub)),
        _ => None,
    };
    match outgoing.user {
        ToUser::Disconnect(reason) => Some(reason),
        ToUser::Report(reason) => Some(reason),
        _ => in_di,
    }
}

#[test]
fn au1_faults_in_order() {
    let store = store();
    let reasons = [
        Reason(3, 127),
        Reason(10, 1),
        Reason(8, 1),
        Reason(6, 2),
        Reason(3, 29),
    ];
    for set in sets(5) {
        let mti = if set[2] { 2 } else { 1 };
        let head = 0x40 | mti << 1 | u8::from(set[3]);
        let mut unit = named(head, CALLER, if set[4] { 2 } else { 1 }, RB);
        if set[1] {
            unit.push(0);
        }
        let indication = Indication {
            acceptable: !set[0],
            ..indication(&unit, &store)
        };
        let got = told(&Connection::NONE, Event::ConnectIndication(indication));
        assert_eq!(got, first(&set, &reasons), "{set:?}");
    }
}

#[test]
fn au2_faults_in_order() {
    let reasons = [
        Reason(10, 2),
        Reason(9, 1),
        Reason(8, 4),
        Reason(3, 29),
        Reason(4, 2),
        Reason(6, 1),
    ];
    for set in sets(6) {
        let mti = if set[1] { 3 } else { 2 };
        let head = 0x20 | mti << 1 | u8::from(!set[5]);
        let sender = if set[2] { NEXT } else { CALLED };
        let mut unit = au2_of(head, sender, if set[3] { 0 } else { 1 });
        if set[4] {
            unit = last_wrong(unit);
        }
        if set[0] {
            unit.push(0);
        }
        let got = told(&in_state(WFTC), Event::ConnectConfirmation(&unit));
        assert_eq!(got, first(&set, &reasons), "{set:?}");
    }
}

/// Each bit of ETY and SA, and a peer whose type no ETY can name.
#[test]
fn the_answering_identity_is_compared_in_four_bytes() {
    for bit in 0..27 {
        let mut sender = CALLED;
        match bit {
            24.. => sender[0] ^= 1 << (bit - 24),
            _ => sender[1 + bit / 8] ^= 1 << (bit % 8),
        }
        let unit = au2_of(sender[0] << 5 | 0x05, sender, 1);
        let got = told(&in_state(WFTC), Event::ConnectConfirmation(&unit));
        assert_eq!(got, Some(Reason(8, 4)), "bit {bit}");
    }
    for kind in [9, 0x21, 0x81] {
        let caller = Connection {
            peer: [kind, CALLED[1], CALLED[2], CALLED[3]],
            ..in_state(WFTC)
        };
        let got = told(&caller, Event::ConnectConfirmation(&au2()));
        assert_eq!(got, Some(Reason(8, 4)));
    }
}

/// AU3 and AR have the same faults, in the same order.
fn assert_short_unit_faults(
    state: u8,
    (mti, flag): (u8, bool),
    unit_of: fn(u8) -> Vec<u8>,
    event: fn(&[u8]) -> Event,
    reasons: [Reason; 5],
) {
    for set in sets(5) {
        let mti = if set[2] { 5 } else { mti };
        let ety = if set[3] { 4 } else { 0 };
        let mut unit = unit_of(ety << 5 | mti << 1 | u8::from(flag != set[4]));
        if set[1] {
            unit = last_wrong(unit);
        }
        if set[0] {
            unit.push(0);
        }
        let got = told(&in_state(state), event(&unit));
        assert_eq!(got, first(&set, &reasons), "{set:?}");
    }
}

#[test]
fn au3_faults_in_order() {
    let reasons = [
        Reason(10, 3),
        Reason(4, 3),
        Reason(9, 2),
        Reason(8, 1),
        Reason(6, 2),
    ];
    assert_short_unit_faults(WFAU3, (3, false), au3_of, |unit| Event::Au3(unit), reasons);
}

#[test]
fn ar_faults_in_order() {
    let reasons = [
        Reason(10, 8),
        Reason(4, 4),
        Reason(9, 3),
        Reason(8, 1),
        Reason(6, 1),
    ];
    assert_short_unit_faults(WFAR, (9, true), ar_of, |unit| Event::Ar(unit), reasons);
}

/// H7, H8, then H9 by its causes; H8 keeps the connection and the others end it.
#[test]
fn dt_faults_in_order() {
    for connection in connections().into_iter().filter(|one| one.state == DATA) {
        let responder = connection.responder;
        let (own, flag) = (connection.own, !responder);
        let reasons = [
            Reason(10, 5),
            Reason(4, 1),
            Reason(10, 5),
            Reason(8, 1),
            Reason(8, 1),
            Reason(6, if responder { 2 } else { 1 }),
        ];
        for set in sets(6) {
            let mti = if set[3] { 3 } else { 5 };
            let ety = if set[4] { 1 } else { 0 };
            let head = ety << 5 | mti << 1 | u8::from(flag != set[5]);
            let mut unit = dt_of(own, head, if set[2] { b"" } else { b"hi" });
            if set[1] {
                unit = last_wrong(unit);
            }
            if set[0] {
                unit.resize(if set[5] { 8 } else { 1033 }, 0);
            }
            let mut after = connection;
            take(&mut after, Event::Dt(&unit));
            let due = first(&set, &reasons);
            assert_eq!(told(&connection, Event::Dt(&unit)), due, "{set:?}");
            let stays = due.is_none() || due == Some(Reason(4, 1));
            assert_eq!(after, if stays { connection } else { Connection::NONE });
        }
    }
}

/// All 256 first octets under a right MAC, and all lengths: one unit is accepted.
#[test]
fn one_unit_of_each_kind_is_accepted() {
    let store = store();
    for head in 0..=255 {
        let unit = au2_of(head, CALLED, 1);
        let confirmed = told(&in_state(WFTC), Event::ConnectConfirmation(&unit));
        assert_eq!(confirmed.is_none(), head == 0x25);
        let got = told(&in_state(WFAU3), Event::Au3(&au3_of(head)));
        assert_eq!(got.is_none(), head == 0x06);
        let got = told(&in_state(WFAR), Event::Ar(&ar_of(head)));
        assert_eq!(got.is_none(), head == 0x13);
        let unit = named(head, CALLER, 1, RB);
        let event = Event::ConnectIndication(indication(&unit, &store));
        let (mut called, mut out) = (Connection::NONE, [0; 1032]);
        let got = called
            .take(event, &mut out)
            .map(|outgoing| outgoing.unit[0]);
        let due = match head {
            0x42 => Ok(0x25),
            _ if head & 0x1f == 0x02 => Err(11),
            _ => Ok(0x11),
        };
        assert_eq!(got, due);
    }
    for length in 0..40 {
        let grown = |mut unit: Vec<u8>| {
            unit.resize(length, 0);
            unit
        };
        let indicated = grown(au1());
        let event = Event::ConnectIndication(indication(&indicated, &store));
        assert_eq!(told(&Connection::NONE, event).is_none(), length == 13);
        let confirmed = told(&in_state(WFTC), Event::ConnectConfirmation(&grown(au2())));
        assert_eq!(confirmed.is_none(), length == 21);
        let got = told(&in_state(WFAU3), Event::Au3(&grown(au3())));
        assert_eq!(got.is_none(), length == 9);
        let got = told(&in_state(WFAR), Event::Ar(&grown(ar())));
        assert_eq!(got.is_none(), length == 9);
    }
}

/// Every bit of a unit with a MAC counts.
#[test]
fn a_flipped_bit_is_seen() {
    let data = |responder| {
        let mut all = connections().into_iter();
        all.rfind(|one| one.state == DATA && one.responder == responder)
            .expect("both roles are met")
    };
    type Bring = fn(&[u8]) -> Event;
    let cases: [(Connection, Vec<u8>, Bring); 5] = [
        (in_state(WFTC), au2(), |unit| {
            Event::ConnectConfirmation(unit)
        }),
        (in_state(WFAU3), au3(), |unit| Event::Au3(unit)),
        (in_state(WFAR), ar(), |unit| Event::Ar(unit)),
        (data(true), dt_to(&data(true), b"hi"), |unit| {
            Event::Dt(unit)
        }),
        (data(false), dt_to(&data(false), b"hi"), |unit| {
            Event::Dt(unit)
        }),
    ];
    for (connection, unit, event) in cases {
        assert_eq!(told(&connection, event(&unit)), None);
        for bit in 0..8 * unit.len() {
            let mut other = unit.clone();
            other[bit / 8] ^= 1 << (bit % 8);
            assert!(told(&connection, event(&other)).is_some(), "bit {bit}");
        }
    }
}

/// Without a unit the transport's reason, with a DI its own, else unknown. A DI is not judged.
#[test]
fn what_a_release_tells() {
    let connection = in_state(DATA);
    let tell = |reason, unit: &[u8]| told(&connection, Event::DisconnectIndication(reason, unit));
    for reason in 0..=255 {
        assert_eq!(tell(reason, &[]), Some(Reason(1, reason)));
        assert_eq!(tell(6, &[0x10, reason, 3]), Some(Reason(reason, 3)));
        assert_eq!(tell(6, &[0x11, 3, reason]), Some(Reason(3, reason)));
        let is_di = reason >> 1 & 0b1111 == 0b1000;
        let due = if is_di {
            Reason(5, 6)
        } else {
            Reason(127, 127)
        };
        assert_eq!(tell(6, &[reason, 5, 6]), Some(due));
    }
    for length in [1, 2, 4, 9, 13] {
        assert_eq!(tell(6, &vec![0x10; length]), Some(Reason(127, 127)));
    }
}
