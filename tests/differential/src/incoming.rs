//! The events of a connection (change request 1) as a host brings them through the C interface, and
//! what the second program makes of them.

use std::fmt;

use reference::setup::{self, Connection, Event, Reason};

use crate::both::{hex, store_of};
use crate::model::refused;

pub type ConnectionBytes = [u8; 64];
pub type EventsBytes = [u8; 8];

/// Where a connection has its fields.
pub const ROLE_AT: usize = 1;
pub const OWN_AT: usize = 4;
pub const PEER_AT: usize = 8;
pub const RA_AT: usize = 12;
pub const RB_AT: usize = 20;
pub const KEY_AT: usize = 28;
pub const UNUSED_AT: usize = 52;

/// The numbers by which a host names the units of T-DATA.ind. Any other is a DT too.
pub const KIND_AU3: u8 = 1;
pub const KIND_AR: u8 = 2;
pub const KIND_DT: u8 = 3;

/// The rows of Table 20 of SUBSET-037-2, in its order.
#[derive(Clone, Copy, PartialEq, Eq, PartialOrd, Ord, Debug)]
pub enum Row {
    ConnectRequest,
    ConnectResponse,
    DataRequest,
    DisconnectRequest,
    ConnectIndication,
    ConnectConfirmation,
    DisconnectIndication,
    Au3,
    Ar,
    Dt,
    TimeOut,
}

pub const ROWS: [Row; 11] = [
    Row::ConnectRequest,
    Row::ConnectResponse,
    Row::DataRequest,
    Row::DisconnectRequest,
    Row::ConnectIndication,
    Row::ConnectConfirmation,
    Row::DisconnectIndication,
    Row::Au3,
    Row::Ar,
    Row::Dt,
    Row::TimeOut,
];

impl Row {
    /// The C function that takes the event.
    pub fn function(self) -> &'static str {
        match self {
            Row::ConnectRequest => "kmac_connect_request",
            Row::ConnectResponse => "kmac_connect_response",
            Row::DataRequest => "kmac_data_request",
            Row::DisconnectRequest => "kmac_disconnect_request",
            Row::ConnectIndication => "kmac_connect_indication",
            Row::ConnectConfirmation => "kmac_connect_confirmation",
            Row::DisconnectIndication => "kmac_disconnect_indication",
            Row::Au3 | Row::Ar | Row::Dt => "kmac_unit_indication",
            Row::TimeOut => "kmac_time_out",
        }
    }
}

/// What Sa-CONN.req brings.
#[derive(Clone, Copy, Debug)]
pub struct Request<'a> {
    pub acceptable: u8,
    pub own: u32,
    pub peer: u32,
    pub t: u32,
    pub rb: [u8; 8],
    pub store: &'a [u8],
}

/// What T-CONN.ind brings.
#[derive(Clone, Copy, Debug)]
pub struct Indication<'a> {
    pub acceptable: u8,
    pub own: u32,
    pub t: u32,
    pub ra: [u8; 8],
    pub unit: &'a [u8],
    pub store: &'a [u8],
}

#[derive(Clone, Copy, Debug)]
pub enum Incoming<'a> {
    ConnectRequest(Request<'a>),
    ConnectResponse,
    DataRequest(&'a [u8]),
    DisconnectRequest(u8, u8),
    ConnectIndication(Indication<'a>),
    ConnectConfirmation(&'a [u8]),
    DisconnectIndication(u8, &'a [u8]),
    /// A unit by T-DATA.ind, and the kind that the host names.
    Unit(u8, &'a [u8]),
    TimeOut,
}

impl<'a> Incoming<'a> {
    pub fn row(&self) -> Row {
        match *self {
            Incoming::ConnectRequest(_) => Row::ConnectRequest,
            Incoming::ConnectResponse => Row::ConnectResponse,
            Incoming::DataRequest(_) => Row::DataRequest,
            Incoming::DisconnectRequest(..) => Row::DisconnectRequest,
            Incoming::ConnectIndication(_) => Row::ConnectIndication,
            Incoming::ConnectConfirmation(_) => Row::ConnectConfirmation,
            Incoming::DisconnectIndication(..) => Row::DisconnectIndication,
            Incoming::Unit(KIND_AU3, _) => Row::Au3,
            Incoming::Unit(KIND_AR, _) => Row::Ar,
            Incoming::Unit(..) => Row::Dt,
            Incoming::TimeOut => Row::TimeOut,
        }
    }

    /// The store that is lent; empty where none is.
    pub fn store(&self) -> &'a [u8] {
        match *self {
            Incoming::ConnectRequest(request) => request.store,
            Incoming::ConnectIndication(indication) => indication.store,
            _ => &[],
        }
    }

    /// The unit, or the user data.
    pub fn bytes(&self) -> &'a [u8] {
        match *self {
            Incoming::DataRequest(bytes)
            | Incoming::ConnectConfirmation(bytes)
            | Incoming::DisconnectIndication(_, bytes)
            | Incoming::Unit(_, bytes) => bytes,
            Incoming::ConnectIndication(indication) => indication.unit,
            _ => &[],
        }
    }

    fn event(&self) -> Event<'a> {
        match *self {
            Incoming::ConnectRequest(request) => Event::ConnectRequest(setup::Request {
                acceptable: request.acceptable != 0,
                own: request.own.to_be_bytes(),
                peer: request.peer.to_be_bytes(),
                t: request.t,
                rb: request.rb,
                store: request.store,
            }),
            Incoming::ConnectResponse => Event::ConnectResponse,
            Incoming::DataRequest(user) => Event::DataRequest(user),
            Incoming::DisconnectRequest(reason, sub) => {
                Event::DisconnectRequest(Reason(reason, sub))
            }
            Incoming::ConnectIndication(indication) => {
                Event::ConnectIndication(setup::Indication {
                    acceptable: indication.acceptable != 0,
                    own: indication.own.to_be_bytes(),
                    t: indication.t,
                    ra: indication.ra,
                    unit: indication.unit,
                    store: indication.store,
                })
            }
            Incoming::ConnectConfirmation(unit) => Event::ConnectConfirmation(unit),
            Incoming::DisconnectIndication(reason, unit) => {
                Event::DisconnectIndication(reason, unit)
            }
            Incoming::Unit(kind, unit) => Event::unit(kind, unit),
            Incoming::TimeOut => Event::TimeOut,
        }
    }
}

impl fmt::Display for Incoming<'_> {
    fn fmt(&self, f: &mut fmt::Formatter) -> fmt::Result {
        write!(f, "{}", self.row().function())?;
        let bytes = self.bytes();
        match *self {
            Incoming::ConnectRequest(Request {
                acceptable,
                own,
                peer,
                t,
                ..
            }) => {
                write!(
                    f,
                    ", {acceptable}, own {own:08x}, peer {peer:08x}, t {t:08x}"
                )?;
            }
            Incoming::ConnectIndication(Indication {
                acceptable, own, t, ..
            }) => write!(f, ", {acceptable}, own {own:08x}, t {t:08x}")?,
            Incoming::DisconnectRequest(reason, sub) => write!(f, ", {reason}/{sub}")?,
            Incoming::DisconnectIndication(reason, _) => write!(f, ", {reason}")?,
            Incoming::Unit(kind, _) => write!(f, ", kind {kind}")?,
            _ => {}
        }
        if !self.store().is_empty() {
            write!(f, ", {}", store_of(self.store()))?;
        }
        let head = hex(&bytes[..bytes.len().min(24)]);
        write!(f, ", {} bytes {head}", bytes.len())
    }
}

/// What the second program answers; where it does not refuse, it writes the connection, and what it
/// writes as events is given.
pub fn model(
    connection: &mut ConnectionBytes,
    incoming: &Incoming,
    out: &mut [u8],
) -> (i32, Option<EventsBytes>) {
    let mut taking = Connection::from_bytes(connection);
    match taking.take(incoming.event(), out) {
        Err(house) => (refused(house), None),
        Ok(outgoing) => {
            *connection = taking.to_bytes();
            let events = outgoing.to_bytes(taking.state);
            (outgoing.unit.len() as i32, Some(events))
        }
    }
}
