//! Whole connections between two sides, from the call to the release (change request 1): what the
//! papers say of them, and each of their units brought to either side at every moment by every event.

use reference::hex;
use reference::setup::{DATA, IDLE, WFTC};
use reference::store::{encode, Entry, KeyIdentifier, EDITIONS, EDITION_1};

use crate::both::{named, Both, Step};
use crate::compare::{buffers, numbers};
use crate::crafted::{au2, Fields};
use crate::events::Given;
use crate::incoming::{ConnectionBytes, Incoming, Row};
use crate::incoming::{KEY_AT, KIND_AR, KIND_AU3, KIND_DT, OWN_AT, PEER_AT, RA_AT, UNUSED_AT};
use crate::parties::Parties;
use crate::scene::OUTPUT;
use crate::squares::{Delivery, Met};
use crate::table::{arrives_by, SA_DATA_IND, SA_DISC_IND};
use reference::random::Random;

/// Of user data, those at the ends of its range among them.
const LENGTHS: [usize; 8] = [1, 2, 3, 7, 8, 114, 1022, 1023];

/// The rows by which a unit can come.
const BRINGING: [Row; 6] = [
    Row::ConnectIndication,
    Row::ConnectConfirmation,
    Row::DisconnectIndication,
    Row::Au3,
    Row::Ar,
    Row::Dt,
];

/// The session key and the units of one connection in which both sides say "hi".
const KEY: &str = "a8f1fd5b5e68b95207c876dc1ca18a67204c7034d634831a";
const UNITS: [&str; 7] = [
    "42e6a54b01b0b1b2b3b4b5b6b7",
    "2512345601a0a1a2a3a4a5a6a7ba1bdddc1625a262",
    "06aaceefbcea5117b5",
    "137759707b008edef8",
    "0a6869e2c8acba3b977c28",
    "0b686927f573fe1455d110",
    "110011",
];

pub fn all(both: &mut Both, seed: u64) -> Step {
    worked(both)?;
    for turn in 0..4 {
        for first in EDITIONS {
            for second in EDITIONS {
                let parties = Parties::new([first, second], seed ^ (900 + turn));
                at_every_moment(both, parties)?;
            }
        }
    }
    next_yards(both, &Parties::new([EDITION_1; 2], seed ^ 910))
}

/// One unit of a connection, who sent it, and the event by which it should come.
#[derive(Clone)]
struct Sent {
    from: usize,
    row: Row,
    unit: Vec<u8>,
}

/// A connection from the call to the release: both sides at each moment, and what was sent.
struct Conversation {
    moments: Vec<[ConnectionBytes; 2]>,
    sent: Vec<Sent>,
}

/// The two sides while they talk.
struct Talk<'a> {
    both: &'a mut Both,
    parties: &'a Parties,
    sides: [ConnectionBytes; 2],
    held: Conversation,
}

impl Talk<'_> {
    /// An event to a side. A unit that it sends is kept.
    fn take(&mut self, side: usize, incoming: Incoming) -> Step<Given> {
        let given = self.both.event(&mut self.sides[side], &incoming, &OUTPUT)?;
        self.held.moments.push(self.sides);
        if let Some(row) = arrives_by(given.events[1]) {
            self.held.sent.push(Sent {
                from: side,
                row,
                unit: given.unit.clone(),
            });
        }
        Ok(given)
    }

    /// The unit that was sent last arrives.
    fn arrive(&mut self) -> Step<Given> {
        let Sent { from, row, unit } = self.held.sent.last().expect("one was sent").clone();
        self.both.seen.connection(&[], Met::Came(Delivery::Right));
        self.take(1 - from, brought(self.parties, row, &unit))
    }

    fn set_up(&mut self) -> Step {
        self.take(0, Incoming::ConnectRequest(self.parties.request()))?;
        for _ in 0..3 {
            self.arrive()?;
        }
        self.take(1, Incoming::ConnectResponse)?;
        self.arrive()?;
        self.is_open()
    }

    /// Both sides stand, with one key, and each has the other as its peer.
    fn is_open(&self) -> Step {
        let [first, second] = &self.sides;
        named(
            || "a whole set-up".to_string(),
            || {
                buffers("states", &[DATA; 2], &[first[0], second[0]])?;
                let (own, peer) = (OWN_AT..PEER_AT, PEER_AT..RA_AT);
                buffers("peer", &first[own.clone()], &second[peer.clone()])?;
                buffers("peer", &second[own], &first[peer])?;
                let shared = RA_AT..UNUSED_AT;
                buffers("numbers and key", &first[shared.clone()], &second[shared])
            },
        )
    }

    /// What one side says goes up at the other, and neither changes.
    fn say(&mut self, side: usize, user: &[u8]) -> Step {
        let before = self.sides;
        let sent = self.take(side, Incoming::DataRequest(user))?;
        let given = self.arrive()?;
        self.both.seen.connection(&[], Met::Up(Delivery::Right));
        let (after, length) = (self.sides, user.len());
        named(
            || format!("{length} bytes said by side {side}"),
            || {
                let told = [given.events[6], given.events[7]];
                numbers("to the user", SA_DATA_IND.into(), given.events[0].into())?;
                let got = u16::from_be_bytes(told).into();
                numbers("user data", length as i64, got)?;
                buffers("user data", user, &sent.unit[1..1 + length])?;
                buffers("connections", &before.concat(), &after.concat())
            },
        )
    }

    fn release(&mut self, side: usize) -> Step {
        self.take(side, Incoming::DisconnectRequest(0, 17))?;
        let given = self.arrive()?;
        let sides = self.sides;
        named(
            || format!("release by side {side}"),
            || {
                let due = [SA_DISC_IND, 0, 3, IDLE, 0, 17, 0, 0];
                buffers("events", &due, &given.events)?;
                buffers("connections", &[0; 128], &sides.concat())
            },
        )
    }
}

/// A whole connection, in which each side says each of these.
fn talk(both: &mut Both, parties: &Parties, words: &[Vec<u8>]) -> Step<Conversation> {
    let mut talk = Talk {
        both,
        parties,
        sides: [[0; 64]; 2],
        held: Conversation {
            moments: vec![[[0; 64]; 2]],
            sent: Vec::new(),
        },
    };
    talk.set_up()?;
    for user in words {
        talk.say(0, user)?;
        talk.say(1, user)?;
    }
    talk.release(words.len() % 2)?;
    Ok(talk.held)
}

/// The event of a row that brings the unit.
fn brought<'a>(parties: &'a Parties, row: Row, unit: &'a [u8]) -> Incoming<'a> {
    match row {
        Row::ConnectIndication => Incoming::ConnectIndication(parties.indication(unit)),
        Row::ConnectConfirmation => Incoming::ConnectConfirmation(unit),
        Row::Au3 => Incoming::Unit(KIND_AU3, unit),
        Row::Ar => Incoming::Unit(KIND_AR, unit),
        Row::Dt => Incoming::Unit(KIND_DT, unit),
        _ => Incoming::DisconnectIndication(6, unit),
    }
}

/// Two connections of the same sides with other random numbers: each unit of both, at each moment of
/// the first, to either side by each event.
fn at_every_moment(both: &mut Both, mut parties: Parties) -> Step {
    let words = LENGTHS.map(|length| parties.random.bytes(length));
    let before = talk(both, &parties, &words[..1])?;
    parties.ra = parties.random.array();
    parties.rb = parties.random.array();
    talk(both, &parties, &words)?;
    let now = talk(both, &parties, &words[..1])?;
    for sides in &now.moments {
        for (sent, is_now) in [(&before.sent, false), (&now.sent, true)] {
            for unit in sent {
                for side in [0, 1] {
                    to_side(both, &parties, (side, sides[side]), unit, is_now)?;
                }
            }
        }
    }
    Ok(())
}

/// User data goes up exactly in DATA, of a DT of this connection that the other side sent.
fn to_side(
    both: &mut Both,
    parties: &Parties,
    (side, connection): (usize, ConnectionBytes),
    sent: &Sent,
    is_now: bool,
) -> Step {
    for row in BRINGING {
        let mut after = connection;
        let incoming = brought(parties, row, &sent.unit);
        let given = both.event(&mut after, &incoming, &OUTPUT)?;
        let goes_up = given.events[0] == SA_DATA_IND;
        let from_other = is_now && sent.from != side && sent.row == Row::Dt;
        let due = connection[0] == DATA && row == Row::Dt && from_other;
        let call = || format!("{incoming}, in state {} of side {side}", connection[0]);
        named(call, || {
            numbers("user data goes up", due.into(), goes_up.into())
        })?;
        let delivery = match row {
            _ if sent.from == side => Delivery::Reflected,
            row if row != sent.row => Delivery::Misnamed,
            _ => Delivery::Replayed,
        };
        both.seen.connection(&[], Met::Came(delivery));
        if goes_up {
            both.seen.connection(&[], Met::Up(delivery));
        }
    }
    Ok(())
}

/// An AU2 with a right MAC of every identity that is unlike the one called in a bit: the MAC of the
/// next yard is right where it has the same key, and is refused with 8/4.
fn next_yards(both: &mut Both, parties: &Parties) -> Step {
    let caller = parties.connection(WFTC, false);
    for bit in 0..27 {
        let mut fields = Fields::au2(&caller, parties.ra);
        match bit {
            24.. => fields.first ^= 1 << (bit - 19),
            _ => fields.id[bit / 8] ^= 1 << (bit % 8),
        }
        let unit = au2(&caller, &fields);
        let mut connection = caller.to_bytes();
        let incoming = Incoming::ConnectConfirmation(&unit);
        let given = both.event(&mut connection, &incoming, &OUTPUT)?;
        let call = || format!("{incoming}, of another yard");
        named(call, || {
            let due = [SA_DISC_IND, 3, 3, IDLE, 8, 4, 0, 0];
            buffers("events by the papers", &due, &given.events)
        })?;
    }
    Ok(())
}

/// One connection in numbers, from a computation of its own: each unit, and the session key.
fn worked(both: &mut Both) -> Step {
    let identities = [[0x02, 0xe6, 0xa5, 0x4b], [0x01, 0x12, 0x34, 0x56]];
    let entry = Entry {
        key: KeyIdentifier {
            issuer: [5, 1, 2, 3],
            serial: [0, 0, 0, 1],
        },
        kmac: hex::decode("01020407080b0d0e10131516191a1c1f20232526292a2c2f"),
        start: 10,
        end: 20,
        peers: identities.to_vec(),
    };
    let store = encode(EDITION_1, &[entry]);
    let parties = Parties {
        random: Random::new(0),
        identities,
        stores: [store.clone(), store],
        t: 20,
        ra: hex::decode("a0a1a2a3a4a5a6a7"),
        rb: hex::decode("b0b1b2b3b4b5b6b7"),
    };
    let Conversation { moments, sent } = talk(both, &parties, &[b"hi".to_vec()])?;
    let mut open = moments.iter().map(|[caller, _]| caller);
    let open = open.find(|caller| caller[0] == DATA).unwrap_or(&[0; 64]);
    named(
        || "one connection in numbers".to_string(),
        || {
            buffers(
                "session key",
                &hex::decode::<24>(KEY),
                &open[KEY_AT..UNUSED_AT],
            )?;
            numbers("units", UNITS.len() as i64, sent.len() as i64)?;
            for (sent, due) in sent.iter().zip(UNITS) {
                let got = hex::encode(&sent.unit);
                buffers("digits of a unit", due.as_bytes(), got.as_bytes())?;
            }
            Ok(())
        },
    )
}
