//! Whole connections between two sides, chained event by event (change request 1): units delivered,
//! damaged, replayed, reflected and misnamed, over stores of both editions.

use reference::setup::{Connection, DATA, IDLE, WFAR, WFRESP, WFTC};
use reference::store::{decode, Edition, Entry, EDITION_1, EDITION_2};

use crate::both::{Both, Step};
use crate::crafted::{ar, au2, au3, di, dt, dt_first, Fields, AR_FIRST, AU3_FIRST};
use crate::events::Given;
use crate::faults::{unsound, FAULTS};
use crate::incoming::{ConnectionBytes, Incoming, Indication, Request, Row, ROWS};
use crate::incoming::{KIND_AR, KIND_AU3, KIND_DT, ROLE_AT};
use crate::layout::LENGTHS;
use crate::parties::Parties;
use crate::squares::{Delivery, Met, STARTING};
use crate::table::{arrives_by, column, SA_DATA_IND};
use reference::random::Random;

/// The most units that are kept for a replay.
const HISTORY: usize = 24;

/// A unit on its way to a side, and the event by which it should come.
#[derive(Clone)]
struct Sent {
    to: usize,
    row: Row,
    unit: Vec<u8>,
}

/// What the events that start set-up bring beside a unit.
struct Start {
    acceptable: u8,
    own: u32,
    peer: u32,
    t: u32,
    store: Vec<u8>,
}

/// Two sides, what is on its way between them, and what went before.
struct Exchange {
    parties: Parties,
    connections: [ConnectionBytes; 2],
    on_the_way: Option<Sent>,
    history: Vec<Sent>,
}

/// One sequence from its own seed.
pub fn sequence(both: &mut Both, seed: u64, steps: usize) -> Step {
    let mut exchange = Exchange::new(seed);
    for _ in 0..steps {
        exchange.step(both)?;
    }
    Ok(())
}

impl Exchange {
    fn new(seed: u64) -> Exchange {
        let mut random = Random::new(seed ^ 0x5e7);
        let editions = [(); 2].map(|()| random.pick(&[EDITION_1, EDITION_1, EDITION_2]));
        Exchange {
            parties: Parties::new(editions, random.next()),
            connections: [[0; 64]; 2],
            on_the_way: None,
            history: Vec::new(),
        }
    }

    fn random(&mut self) -> &mut Random {
        &mut self.parties.random
    }

    fn state(&self, side: usize) -> u8 {
        column(self.connections[side][0])
    }

    fn step(&mut self, both: &mut Both) -> Step {
        let side = self.random().below(2);
        match self.random().below(24) {
            0 => self.damaged(both),
            1 => self.replayed(both),
            2 => self.reflected(both),
            3 => self.misnamed(both),
            4 => self.crafted(both, side),
            5 => self.any(both, side),
            6 => self.odd_start(both, side),
            7 => self.spoilt(both, side),
            8 => self.short_output(both, side),
            _ => self.next(both, side),
        }
    }

    /// What is on its way arrives; else the next thing that the users do.
    fn next(&mut self, both: &mut Both, side: usize) -> Step {
        if let Some(sent) = self.on_the_way.take() {
            return self.deliver(both, &sent, Delivery::Right);
        }
        let row = match [self.state(side), self.state(1 - side)] {
            [IDLE, IDLE] => Row::ConnectRequest,
            [WFRESP, _] => Row::ConnectResponse,
            [DATA, DATA] if !self.random().one_in(30) => Row::DataRequest,
            [DATA, _] => Row::DisconnectRequest,
            // What the side waits for was lost on the way.
            [WFTC | WFAR, _] => Row::TimeOut,
            [IDLE, _] => return Ok(()),
            _ => Row::DisconnectIndication,
        };
        self.by_user(both, side, row)
    }

    fn by_user(&mut self, both: &mut Both, side: usize, row: Row) -> Step {
        let user = self.user_data();
        let unit = if row == Row::DataRequest {
            &user[..]
        } else {
            &[]
        };
        self.bring(both, side, row, unit)?;
        Ok(())
    }

    fn user_data(&mut self) -> Vec<u8> {
        let random = self.random();
        let long = random.pick(&[100, 1022, 1023]);
        let length = random.pick(&[1, 1, 2, 3, 7, 8, 20, long]);
        random.bytes(length)
    }

    fn deliver(&mut self, both: &mut Both, sent: &Sent, delivery: Delivery) -> Step {
        both.unit_kind(&sent.unit)?;
        let given = self.bring(both, sent.to, sent.row, &sent.unit)?;
        if !sent.unit.is_empty() {
            both.seen.connection(&[], Met::Came(delivery));
        }
        if given.events[0] == SA_DATA_IND {
            both.seen.connection(&[], Met::Up(delivery));
        }
        Ok(())
    }

    fn damaged(&mut self, both: &mut Both) -> Step {
        let Some(mut sent) = self.on_the_way.take() else {
            return Ok(());
        };
        let random = &mut self.parties.random;
        let length = sent.unit.len();
        match random.below(4) {
            0 => sent.unit.truncate(random.between(0, length)),
            1 => sent.unit.push(random.u8()),
            _ if length == 0 => sent.unit = random.bytes(3),
            _ => sent.unit[random.below(length)] ^= 1 << random.below(8),
        }
        self.deliver(both, &sent, Delivery::Damaged)
    }

    fn replayed(&mut self, both: &mut Both) -> Step {
        if self.history.is_empty() {
            return Ok(());
        }
        let (length, newest) = (self.history.len(), self.random().one_in(2));
        let place = if newest {
            length - 1
        } else {
            self.random().below(length)
        };
        let sent = self.history[place].clone();
        self.deliver(both, &sent, Delivery::Replayed)
    }

    fn reflected(&mut self, both: &mut Both) -> Step {
        let Some(mut sent) = self.on_the_way.take() else {
            return Ok(());
        };
        sent.to = 1 - sent.to;
        self.deliver(both, &sent, Delivery::Reflected)
    }

    fn misnamed(&mut self, both: &mut Both) -> Step {
        let Some(mut sent) = self.on_the_way.take() else {
            return Ok(());
        };
        let others = [Row::ConnectConfirmation, Row::Au3, Row::Ar, Row::Dt];
        let others = others.into_iter().filter(|&row| row != sent.row);
        sent.row = self.random().pick(&others.collect::<Vec<_>>());
        self.deliver(both, &sent, Delivery::Misnamed)
    }

    /// A unit that is right for what the side holds, or has a field that is not, under a right MAC.
    fn crafted(&mut self, both: &mut Both, side: usize) -> Step {
        let (row, unit) = self.crafted_unit(side);
        // By state.
        let waited = [
            Row::ConnectIndication,
            Row::ConnectConfirmation,
            Row::Ar,
            Row::Dt,
            Row::Au3,
            Row::Dt,
        ];
        let row = match self.random().below(4) {
            0 => waited[usize::from(self.state(side))],
            _ => row,
        };
        self.bring(both, side, row, &unit)?;
        Ok(())
    }

    /// For the state that the side is in, most often.
    fn crafted_unit(&mut self, side: usize) -> (Row, Vec<u8>) {
        let held = Connection::from_bytes(&self.connections[side]);
        let peer = self.parties.identities[1 - side];
        let state = self.state(side);
        let random = self.random();
        let (bit, any) = (1 << random.below(8), random.u8());
        let change = random.pick(&[0, 1, 2, bit, any]);
        let saf = random.pick(&[0, 0, 0, 1]);
        let of = |fields: Fields| Fields {
            first: fields.first ^ change,
            saf: fields.saf ^ saf,
            ..fields
        };
        match if random.one_in(6) {
            random.u8() % 6
        } else {
            state
        } {
            IDLE => {
                let fields = of(Fields::au1(&peer, random.array()));
                (Row::ConnectIndication, fields.bytes())
            }
            WFTC => {
                let fields = of(Fields::au2(&held, random.array()));
                (Row::ConnectConfirmation, au2(&held, &fields))
            }
            WFAR => (Row::Ar, ar(&held, AR_FIRST ^ change)),
            DATA => {
                let length = random.pick(&[0, 1, 1, 5, 1023, 1024]);
                let user = random.bytes(length);
                (Row::Dt, dt(&held, dt_first(&held) ^ change, &user))
            }
            _ => (Row::Au3, au3(&held, AU3_FIRST ^ change)),
        }
    }

    /// Any event with any unit.
    fn any(&mut self, both: &mut Both, side: usize) -> Step {
        let row = self.random().pick(&ROWS);
        let unit = match (row, self.random().below(4)) {
            (Row::DataRequest, 0) => {
                let length = self.random().pick(&[0, 1, 1023, 1024, 1100]);
                self.random().bytes(length)
            }
            (Row::DisconnectIndication, 0) => Vec::new(),
            (Row::DisconnectIndication, _) => {
                let [flag, reason, sub, more] = self.random().array();
                di(flag & 1, reason, sub)[..3 - usize::from(more) % 2].to_vec()
            }
            (_, 0 | 1) => self.crafted_unit(side).1,
            _ => {
                let length = self.random().pick(&[0, 1, 3, 8, 9, 10, 13, 21, 22]);
                self.random().bytes(length)
            }
        };
        self.bring(both, side, row, &unit)?;
        Ok(())
    }

    /// Set-up that is not to start: another store, moment, identity or application type, at times two
    /// of them.
    fn odd_start(&mut self, both: &mut Both, side: usize) -> Step {
        let mut start = self.start(side);
        let entries = decode(&start.store).expect("it is sound");
        let random = &mut self.parties.random;
        spoil(random, &mut start, &entries);
        if random.one_in(2) {
            spoil(random, &mut start, &entries);
        }
        let row = random.pick(&STARTING);
        let unit = match random.below(3) {
            0 => self.crafted_unit(side).1,
            _ => Fields::au1(&self.parties.identities[1 - side], random.array()).bytes(),
        };
        if self.random().one_in(2) {
            self.connections[side] = [0; 64];
        }
        self.bring_with(both, side, row, &unit, &start, 1032)?;
        Ok(())
    }

    /// A byte of the connection is another, or all are any; then any events come to it.
    fn spoilt(&mut self, both: &mut Both, side: usize) -> Step {
        let random = &mut self.parties.random;
        let mut connection = self.connections[side];
        match random.below(4) {
            0 => connection[random.below(64)] = random.u8(),
            1 => connection[ROLE_AT] ^= 1,
            _ => {
                connection = random.array();
                connection[0] = match random.below(5) {
                    0 => random.u8(),
                    _ => random.u8() % 6,
                };
            }
        }
        for _ in 0..3 {
            self.connections[side] = connection;
            self.any(both, side)?;
        }
        if self.random().one_in(2) {
            self.connections[side] = [0; 64];
        }
        Ok(())
    }

    /// The event that is next, with an output that is too short; then it comes again.
    fn short_output(&mut self, both: &mut Both, side: usize) -> Step {
        let length = self.random().pick(&[0, 3, 21, 1031]);
        let user = self.random().pick(&[0, 1, 1024]);
        let (to, row, unit) = match &self.on_the_way {
            Some(sent) => (sent.to, sent.row, sent.unit.clone()),
            None => (side, self.random().pick(&ROWS), vec![7; user]),
        };
        let start = self.start(to);
        self.bring_with(both, to, row, &unit, &start, length)?;
        Ok(())
    }

    fn start(&self, side: usize) -> Start {
        let identity = |side: usize| u32::from_be_bytes(self.parties.identities[side]);
        Start {
            acceptable: 1,
            own: identity(side),
            peer: identity(1 - side),
            t: self.parties.t,
            store: self.parties.stores[side].clone(),
        }
    }

    fn bring(&mut self, both: &mut Both, side: usize, row: Row, unit: &[u8]) -> Step<Given> {
        let start = self.start(side);
        let length = self.random().pick(&[1032, 1032, 1032, 1033, 1100]);
        self.bring_with(both, side, row, unit, &start, length)
    }

    /// The event to the side; what it sends is on its way then.
    fn bring_with(
        &mut self,
        both: &mut Both,
        side: usize,
        row: Row,
        unit: &[u8],
        start: &Start,
        out: usize,
    ) -> Step<Given> {
        let random = &mut self.parties.random;
        let incoming = incoming(random, row, unit, start);
        let fill = random.u8();
        let given = both.event(&mut self.connections[side], &incoming, &vec![fill; out])?;
        // A called side that is refused a key releases the transport connection itself.
        let is_given_up = row == Row::ConnectIndication && given.answer < 0;
        let given_up = is_given_up.then_some(Row::DisconnectIndication);
        let Some(row) = arrives_by(given.events[1]).or(given_up) else {
            return Ok(given);
        };
        let sent = Sent {
            to: 1 - side,
            row,
            unit: given.unit.clone(),
        };
        if self.history.len() == HISTORY {
            self.history.remove(0);
        }
        self.history.push(sent.clone());
        self.on_the_way = Some(sent);
        Ok(given)
    }
}

/// Makes one thing another. The peer that an entry of three has first is of any type.
fn spoil(random: &mut Random, start: &mut Start, entries: &[Entry]) {
    match random.below(7) {
        0 => start.acceptable = 0,
        1 => start.store.resize(random.pick(&LENGTHS), 0),
        2 => {
            let fault = random.pick(&FAULTS);
            if let Some(edition) = Edition::of_length(start.store.len()) {
                start.store = unsound(random, edition, entries, fault);
            }
        }
        3 => {
            let other = start.t ^ 1 << random.below(32);
            start.t = random.pick(&[0, u32::MAX, other]);
        }
        4 => start.own |= 8 << 24,
        5 => {
            let entry = entries.iter().find(|entry| entry.peers.len() == 3);
            start.peer = entry.map_or(start.peer, |entry| u32::from_be_bytes(entry.peers[0]));
        }
        _ => start.peer ^= 1 << random.below(32),
    }
}

/// The event of a row; random numbers are fresh each time.
fn incoming<'a>(random: &mut Random, row: Row, unit: &'a [u8], start: &'a Start) -> Incoming<'a> {
    let &Start {
        acceptable,
        own,
        peer,
        t,
        ref store,
    } = start;
    match row {
        Row::ConnectRequest => Incoming::ConnectRequest(Request {
            acceptable,
            own,
            peer,
            t,
            rb: random.array(),
            store,
        }),
        Row::ConnectResponse => Incoming::ConnectResponse,
        Row::DataRequest => Incoming::DataRequest(unit),
        Row::DisconnectRequest => Incoming::DisconnectRequest(random.u8(), random.u8()),
        Row::ConnectIndication => Incoming::ConnectIndication(Indication {
            acceptable,
            own,
            t,
            ra: random.array(),
            unit,
            store,
        }),
        Row::ConnectConfirmation => Incoming::ConnectConfirmation(unit),
        Row::DisconnectIndication => {
            let any = random.u8();
            Incoming::DisconnectIndication(random.pick(&[6, 6, any]), unit)
        }
        Row::Au3 => Incoming::Unit(KIND_AU3, unit),
        Row::Ar => Incoming::Unit(KIND_AR, unit),
        Row::Dt => Incoming::Unit(random.pick(&[KIND_DT, KIND_DT, 0, 255]), unit),
        Row::TimeOut => Incoming::TimeOut,
    }
}
