//! What comes to a connection and what goes out of it (002, Tables 15, 16 and 19).

use crate::Identity;

/// Reason and sub-reason (002, Tables 23 to 32).
#[derive(Clone, Copy, PartialEq, Eq, Debug)]
pub struct Reason(pub u8, pub u8);

/// The incoming events (002, Table 15), a row of Table 20 each.
#[derive(Clone, Copy, PartialEq, Eq, Debug)]
pub enum Event<'a> {
    /// Sa-CONN.req
    ConnectRequest(Request<'a>),
    /// Sa-CONN.resp
    ConnectResponse,
    /// Sa-DATA.req
    DataRequest(&'a [u8]),
    /// Sa-DISC.req
    DisconnectRequest(Reason),
    /// T-CONN.ind
    ConnectIndication(Indication<'a>),
    /// T-CONN.conf with what should be an AU2
    ConnectConfirmation(&'a [u8]),
    /// T-DISC.ind with the transport's reason and what should be a DI; an empty unit is none.
    DisconnectIndication(u8, &'a [u8]),
    /// What should be an AU3, by T-DATA.ind
    Au3(&'a [u8]),
    /// What should be an AR
    Ar(&'a [u8]),
    /// What should be a DT
    Dt(&'a [u8]),
    /// The end of T_estab
    TimeOut,
}

/// What Sa-CONN.req brings.
#[derive(Clone, Copy, PartialEq, Eq, Debug)]
pub struct Request<'a> {
    /// Whether the application type is.
    pub acceptable: bool,
    pub own: Identity,
    pub peer: Identity,
    pub t: u32,
    pub rb: [u8; 8],
    pub store: &'a [u8],
}

/// What T-CONN.ind brings.
#[derive(Clone, Copy, PartialEq, Eq, Debug)]
pub struct Indication<'a> {
    /// Whether the application type is.
    pub acceptable: bool,
    pub own: Identity,
    pub t: u32,
    pub ra: [u8; 8],
    /// What should be an AU1.
    pub unit: &'a [u8],
    pub store: &'a [u8],
}

/// Outgoing events to the user (002, Table 16).
#[derive(Clone, Copy, PartialEq, Eq, Debug)]
pub enum ToUser {
    Nothing,
    /// Sa-CONN.ind: the caller is the connection's peer.
    ConnectIndication,
    /// Sa-CONN.conf
    ConnectConfirmation,
    /// Sa-DATA.ind: so much of the unit, from its second octet on.
    Data(usize),
    /// Sa-DISC.ind
    Disconnect(Reason),
    /// Sa-REPORT.ind
    Report(Reason),
}

/// Outgoing events to the transport, with their number in the C interface.
#[derive(Clone, Copy, PartialEq, Eq, Debug)]
pub enum ToTransport {
    Nothing = 0,
    /// T-CONN.req with AU1
    ConnectRequest = 1,
    /// T-CONN.resp with AU2
    ConnectResponse = 2,
    /// T-DISC.req
    Disconnect = 3,
    /// T-DISC.req with DI
    DisconnectWithDi = 4,
    Au3 = 5,
    Ar = 6,
    Dt = 7,
}

/// What is done to T_estab (002, Table 19), with its number in the C interface.
#[derive(Clone, Copy, PartialEq, Eq, Debug)]
pub enum Timer {
    Keep = 0,
    /// a5
    Set = 1,
    /// a6
    Stop = 2,
    /// a19
    StopAll = 3,
}

/// What an event makes: outgoing events in the order of Table 20, and the unit that goes to the
/// transport, empty where none does.
#[derive(Clone, PartialEq, Eq, Debug)]
pub struct Outgoing {
    pub user: ToUser,
    pub transport: ToTransport,
    pub timer: Timer,
    pub unit: Vec<u8>,
}

pub(super) const NOTHING: Outgoing = Outgoing {
    user: ToUser::Nothing,
    transport: ToTransport::Nothing,
    timer: Timer::Keep,
    unit: Vec::new(),
};

impl Outgoing {
    /// The user data that goes up of the unit that was brought; empty where none does.
    pub fn user_data<'u>(&self, unit: &'u [u8]) -> &'u [u8] {
        match self.user {
            ToUser::Data(length) => &unit[1..1 + length],
            _ => &[],
        }
    }
}
