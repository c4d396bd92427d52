//! Every event in every state and role (change request 1): right units and such with any first byte,
//! length, field or bit, buffers of any bytes, and whole connections between two sides.

use reference::setup::{Connection, DATA, IDLE, WFAR, WFAU3, WFTC};
use reference::store::{EDITIONS, EDITION_1, EDITION_2};

use crate::both::{Both, Step};
use crate::crafted::{ar, au2, au3, di, dt, dt_first, of_each_kind, Fields};
use crate::crafted::{AR_FIRST, AU3_FIRST};
use crate::incoming::{ConnectionBytes, Incoming, Indication, Request};
use crate::incoming::{KIND_AR, KIND_AU3, KIND_DT, ROLE_AT};
use crate::parties::Parties;
use crate::scene::OUTPUT;
use crate::squares::{Delivery, Met};

/// The kinds that a host can name, and such that are a DT too.
const KINDS: [u8; 6] = [KIND_AU3, KIND_AR, KIND_DT, 0, 4, 255];
const LENGTHS: [usize; 6] = [0, 1, 2, 1023, 1024, 2000];

pub fn all(both: &mut Both, seed: u64) -> Step {
    for turn in 0..6 {
        for (place, edition) in EDITIONS.into_iter().enumerate() {
            let other = EDITIONS[(place + turn as usize) % 2];
            let parties = Parties::new([edition, other], seed ^ (700 + turn));
            every_square(both, &parties)?;
            fault_sets(both, &parties)?;
        }
    }
    let parties = Parties::new([EDITION_1, EDITION_2], seed ^ 720);
    every_code(both, &parties)?;
    every_first_byte(both, &parties)?;
    every_length(both, &parties)?;
    every_bit(both, &parties)?;
    any_bytes(both, Parties::new([EDITION_1, EDITION_1], seed ^ 721))
}

/// An event to a copy of the connection.
fn bring(both: &mut Both, connection: &ConnectionBytes, incoming: Incoming) -> Step {
    bring_with(both, connection, incoming, &OUTPUT)
}

fn bring_with(
    both: &mut Both,
    connection: &ConnectionBytes,
    incoming: Incoming,
    out: &[u8],
) -> Step {
    let mut connection = *connection;
    both.event(&mut connection, &incoming, out)?;
    Ok(())
}

/// All events with these units, and each with an output of 1,031, 1,032 and 1,033 bytes.
fn every_event(
    both: &mut Both,
    parties: &Parties,
    connection: &ConnectionBytes,
    units: &[Vec<u8>],
) -> Step {
    let user = vec![0x5a; 2000];
    let mut events = vec![Incoming::ConnectResponse, Incoming::TimeOut];
    for acceptable in [0, 1, 255] {
        events.push(Incoming::ConnectRequest(Request {
            acceptable,
            ..parties.request()
        }));
    }
    events.extend(LENGTHS.map(|length| Incoming::DataRequest(&user[..length])));
    events.extend([(0, 0), (0, 200), (255, 1)].map(|(a, b)| Incoming::DisconnectRequest(a, b)));
    for unit in units {
        events.push(Incoming::ConnectIndication(parties.indication(unit)));
        events.push(Incoming::ConnectConfirmation(unit));
        events.push(Incoming::DisconnectIndication(6, unit));
        events.extend(KINDS.map(|kind| Incoming::Unit(kind, unit)));
    }
    for event in events {
        for length in [1031, 1032, 1033] {
            bring_with(both, connection, event, &vec![0xc3; length])?;
        }
    }
    Ok(())
}

/// Every event in every state and role, with a unit of each kind, and an AU1 that is not acceptable
/// for the application type alone.
fn every_square(both: &mut Both, parties: &Parties) -> Step {
    for connection in parties.connections() {
        let held = Connection::from_bytes(&connection);
        let units = of_each_kind(&held, parties.ra);
        every_event(both, parties, &connection, &units)?;
        for acceptable in [0, 2] {
            let au1 = Fields::au1(&parties.identities[0], parties.rb).bytes();
            let indication = Indication {
                acceptable,
                ..parties.indication(&au1)
            };
            bring(both, &connection, Incoming::ConnectIndication(indication))?;
        }
    }
    Ok(())
}

/// Every code of state, role, kind and application type, and any bytes in the unused part.
fn every_code(both: &mut Both, parties: &Parties) -> Step {
    let au1 = Fields::au1(&parties.identities[0], parties.rb).bytes();
    for code in 0..=255 {
        for (place, mut connection) in parties.connections().into_iter().enumerate() {
            let held = Connection::from_bytes(&connection);
            let units = of_each_kind(&held, parties.ra);
            connection[ROLE_AT] = code;
            let unused = [2, 3, 52, 57, 63];
            connection[unused[place % 5]] = code;
            for unit in &units[2..5] {
                bring(both, &connection, Incoming::Unit(code, unit))?;
            }
            bring(both, &connection, Incoming::DisconnectRequest(code, !code))?;
            bring(both, &connection, Incoming::DisconnectIndication(code, &[]))?;
            bring(both, &connection, Incoming::TimeOut)?;
            bring(both, &connection, Incoming::DataRequest(&[code]))?;
            connection[0] = code;
            bring(both, &connection, Incoming::ConnectConfirmation(&units[1]))?;
            bring(both, &connection, Incoming::ConnectResponse)?;
            bring(both, &connection, Incoming::DisconnectRequest(0, 1))?;
        }
        let mut dirty: ConnectionBytes = std::array::from_fn(|i| code ^ (5 * i) as u8);
        dirty[0] = code;
        for acceptable in [code, 0, 1] {
            let request = Request {
                acceptable,
                ..parties.request()
            };
            bring(both, &dirty, Incoming::ConnectRequest(request))?;
            let indication = Indication {
                acceptable,
                ..parties.indication(&au1)
            };
            bring(both, &dirty, Incoming::ConnectIndication(indication))?;
        }
        every_event(both, parties, &dirty, &[])?;
    }
    Ok(())
}

/// All 256 first bytes under a right MAC: of the unit that a state waits for, and of a DT, AU3 and AR
/// in every state.
fn every_first_byte(both: &mut Both, parties: &Parties) -> Step {
    let caller = parties.connection(WFTC, false);
    let none = Connection::NONE.to_bytes();
    for first in 0..=255 {
        let fields = Fields {
            first,
            ..Fields::au1(&parties.identities[0], parties.rb)
        };
        let unit = fields.bytes();
        bring(
            both,
            &none,
            Incoming::ConnectIndication(parties.indication(&unit)),
        )?;
        let fields = Fields {
            first,
            ..Fields::au2(&caller, parties.ra)
        };
        let unit = au2(&caller, &fields);
        bring(
            both,
            &caller.to_bytes(),
            Incoming::ConnectConfirmation(&unit),
        )?;
        for connection in parties.connections() {
            let held = Connection::from_bytes(&connection);
            let units = [
                (KIND_AU3, au3(&held, first)),
                (KIND_AR, ar(&held, first)),
                (KIND_DT, dt(&held, first, b"tug")),
                (KIND_DT, dt(&held, first, b"")),
            ];
            for (kind, unit) in &units {
                bring(both, &connection, Incoming::Unit(*kind, unit))?;
            }
            let released = [first, 0, 9];
            bring(
                both,
                &connection,
                Incoming::DisconnectIndication(6, &released),
            )?;
        }
        for length in [1, 2, 9, 21] {
            both.unit_kind(&vec![first; length])?;
        }
    }
    both.unit_kind(&[])?;
    Ok(())
}

/// Units of 0 to 1,033 bytes where a state waits for one: right ones cut or grown, a DI too, and a DT
/// of each length with a right MAC.
fn every_length(both: &mut Both, parties: &Parties) -> Step {
    let awaiting = [(IDLE, false), (WFTC, false), (WFAR, false), (WFAU3, true)];
    let awaiting = awaiting.map(|(state, role)| parties.connection(state, role));
    for length in 0..=1033 {
        for connection in &awaiting {
            let mut unit = awaited_unit(parties, connection);
            unit.resize(length, 0);
            let incoming = awaited(parties, connection.state, &unit);
            bring(both, &connection.to_bytes(), incoming)?;
            let mut unit = di(0, 3, 4);
            unit.resize(length, 0);
            let incoming = Incoming::DisconnectIndication(6, &unit);
            bring(both, &connection.to_bytes(), incoming)?;
        }
        let open = parties.connection(DATA, length % 2 == 0);
        let user = vec![length as u8; length.saturating_sub(9)];
        let mut unit = dt(&open, dt_first(&open), &user);
        unit.truncate(length);
        bring(both, &open.to_bytes(), Incoming::Unit(KIND_DT, &unit))?;
    }
    Ok(())
}

/// Each bit of a right unit flipped, and each bit of the connection that it comes to.
fn every_bit(both: &mut Both, parties: &Parties) -> Step {
    let awaiting = [
        (IDLE, false),
        (WFTC, false),
        (WFAR, false),
        (WFAU3, true),
        (DATA, false),
        (DATA, true),
    ];
    for (state, role) in awaiting {
        let connection = parties.connection(state, role);
        let unit = awaited_unit(parties, &connection);
        let bytes = connection.to_bytes();
        for bit in 0..8 * unit.len() {
            let mut other = unit.clone();
            other[bit / 8] ^= 1 << (bit % 8);
            bring(both, &bytes, awaited(parties, state, &other))?;
            both.seen.connection(&[], Met::Came(Delivery::Damaged));
        }
        for bit in 0..8 * bytes.len() {
            let mut other = bytes;
            other[bit / 8] ^= 1 << (bit % 8);
            bring(both, &other, awaited(parties, state, &unit))?;
            bring(both, &other, Incoming::DataRequest(b"tug 7"))?;
            bring(both, &other, Incoming::ConnectResponse)?;
        }
    }
    Ok(())
}

/// The right unit for the event that a state waits for.
fn awaited_unit(parties: &Parties, connection: &Connection) -> Vec<u8> {
    match connection.state {
        IDLE => Fields::au1(&parties.identities[0], parties.rb).bytes(),
        WFTC => au2(connection, &Fields::au2(connection, parties.ra)),
        WFAR => ar(connection, AR_FIRST),
        WFAU3 => au3(connection, AU3_FIRST),
        _ => dt(connection, dt_first(connection), b"tug 7"),
    }
}

/// The event that brings a unit where a state waits for one.
fn awaited<'a>(parties: &'a Parties, state: u8, unit: &'a [u8]) -> Incoming<'a> {
    match state {
        IDLE => Incoming::ConnectIndication(parties.indication(unit)),
        WFTC => Incoming::ConnectConfirmation(unit),
        WFAR => Incoming::Unit(KIND_AR, unit),
        WFAU3 => Incoming::Unit(KIND_AU3, unit),
        _ => Incoming::Unit(KIND_DT, unit),
    }
}

/// Every set of faults of each unit, so that the first of them tells.
fn fault_sets(both: &mut Both, parties: &Parties) -> Step {
    let [caller, waiting] = [WFTC, WFAR].map(|state| parties.connection(state, false));
    let called = parties.connection(WFAU3, true);
    for bits in 0..64u8 {
        let set: [u8; 6] = std::array::from_fn(|place| bits >> place & 1);
        let [length, wrong_mac, mti, ety, flag, saf] = set;
        let change = mti << 1 | ety << 6 | flag;
        let spoilt = |mut unit: Vec<u8>| {
            let last = unit.len() - 1;
            unit[last] ^= wrong_mac;
            unit.resize(last + 1 + usize::from(length), 0);
            unit
        };
        let of = |fields: Fields| Fields {
            first: fields.first ^ change,
            saf: fields.saf ^ saf,
            ..fields
        };
        for acceptable in [0, 1] {
            let unit = spoilt(of(Fields::au1(&parties.identities[0], parties.rb)).bytes());
            let indication = Indication {
                acceptable,
                ..parties.indication(&unit)
            };
            let none = Connection::NONE.to_bytes();
            bring(both, &none, Incoming::ConnectIndication(indication))?;
        }
        let unit = spoilt(au2(&caller, &of(Fields::au2(&caller, parties.ra))));
        bring(
            both,
            &caller.to_bytes(),
            Incoming::ConnectConfirmation(&unit),
        )?;
        let unit = spoilt(au3(&called, AU3_FIRST ^ change));
        bring(both, &called.to_bytes(), Incoming::Unit(KIND_AU3, &unit))?;
        let unit = spoilt(ar(&waiting, AR_FIRST ^ change));
        bring(both, &waiting.to_bytes(), Incoming::Unit(KIND_AR, &unit))?;
        for role in [false, true] {
            let open = parties.connection(DATA, role);
            let user = [1, 2];
            for user in [&user[..], &[]] {
                let unit = spoilt(dt(&open, dt_first(&open) ^ change, user));
                bring(both, &open.to_bytes(), Incoming::Unit(KIND_DT, &unit))?;
            }
        }
    }
    Ok(())
}

/// Connections of any bytes, most of them in a state that is one, with units that are right for them.
fn any_bytes(both: &mut Both, mut parties: Parties) -> Step {
    for _ in 0..400 {
        let mut connection: ConnectionBytes = parties.random.array();
        if !parties.random.one_in(8) {
            connection[0] %= 6;
        }
        let held = Connection::from_bytes(&connection);
        let units = of_each_kind(&held, parties.random.array());
        every_event(both, &parties, &connection, &units)?;
    }
    Ok(())
}
