//! A connection of the console. Each event prints its line, and the second program's own connection takes it too: so the units in the lines that follow are those that go out.

use crate::NOON;
use reference::hex::encode;
use reference::setup::{Connection, Event, Indication, Reason, Request};
use reference::{Identity, OUTPUT_LENGTH};

/// The KIND of a unit in a line.
pub const AU3: u8 = 1;
pub const AR: u8 = 2;
pub const DT: u8 = 3;

/// How bytes are written in a line.
type Hex = fn(&[u8]) -> String;

#[derive(Clone, Copy)]
pub struct Side<'s> {
    name: char,
    own: Identity,
    store: &'s [u8],
    hex: Hex,
    connection: Connection,
}

impl<'s> Side<'s> {
    /// As it is before any line is about it.
    pub fn at_start(name: char, store: &'s [u8]) -> Side<'s> {
        Side {
            name,
            own: [0; 4],
            store,
            hex: encode,
            connection: Connection::NONE,
        }
    }

    /// Made idle, over the store that the console holds.
    pub fn new(name: char, own: Identity, store: &'s [u8]) -> Side<'s> {
        Side::written(encode, name, own, store)
    }

    pub fn written(hex: Hex, name: char, own: Identity, store: &'s [u8]) -> Side<'s> {
        println!("connection {name} {}", hex(&own));
        Side {
            own,
            hex,
            ..Side::at_start(name, store)
        }
    }

    /// The same connection, the console holding another store.
    pub fn over<'t>(self, store: &'t [u8]) -> Side<'t> {
        Side { store, ..self }
    }

    pub fn state(&self) -> u8 {
        self.connection.state
    }

    /// The unit that goes out; none where the event is refused.
    fn take(&mut self, event: Event) -> Vec<u8> {
        let taken = self.connection.take(event, &mut [0; OUTPUT_LENGTH]);
        taken.map(|outgoing| outgoing.unit).unwrap_or_default()
    }

    pub fn call(&mut self, peer: Identity, rb: [u8; 8]) -> Vec<u8> {
        let (peer_hex, t, number) = ((self.hex)(&peer), (self.hex)(&NOON), (self.hex)(&rb));
        println!("call {} {peer_hex} {t} {number}", self.name);
        self.take(Event::ConnectRequest(Request {
            acceptable: true,
            own: self.own,
            peer,
            t: u32::from_be_bytes(NOON),
            rb,
            store: self.store,
        }))
    }

    pub fn indicate(&mut self, ra: [u8; 8], unit: &[u8]) -> Vec<u8> {
        let (t, number, unit_hex) = ((self.hex)(&NOON), (self.hex)(&ra), (self.hex)(unit));
        println!("indicate {} {t} {number} {unit_hex}", self.name);
        self.take(Event::ConnectIndication(Indication {
            acceptable: true,
            own: self.own,
            t: u32::from_be_bytes(NOON),
            ra,
            unit,
            store: self.store,
        }))
    }

    pub fn confirm(&mut self, unit: &[u8]) -> Vec<u8> {
        println!("confirm {} {}", self.name, (self.hex)(unit));
        self.take(Event::ConnectConfirmation(unit))
    }

    pub fn bring(&mut self, kind: u8, unit: &[u8]) -> Vec<u8> {
        println!("bring {} {kind} {}", self.name, (self.hex)(unit));
        self.take(Event::unit(kind, unit))
    }

    pub fn respond(&mut self) -> Vec<u8> {
        println!("respond {}", self.name);
        self.take(Event::ConnectResponse)
    }

    pub fn say(&mut self, user: &[u8]) -> Vec<u8> {
        println!("say {} {}", self.name, (self.hex)(user));
        self.take(Event::DataRequest(user))
    }

    pub fn release(&mut self, reason: u8, sub: u8) -> Vec<u8> {
        println!("release {} {reason} {sub}", self.name);
        self.take(Event::DisconnectRequest(Reason(reason, sub)))
    }

    pub fn lost(&mut self, reason: u8) {
        println!("lost {} {reason}", self.name);
        self.take(Event::DisconnectIndication(reason, &[]));
    }

    pub fn end(&mut self, unit: &[u8]) {
        println!("end {} {}", self.name, (self.hex)(unit));
        self.take(Event::DisconnectIndication(0, unit));
    }

    pub fn late(&mut self) {
        println!("late {}", self.name);
        self.take(Event::TimeOut);
    }
}
