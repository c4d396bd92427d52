//! Connection set-up (02, change request 1; 002, 6.2.4 to 6.2.6).
//!
//! A connection takes one event at a time. Table 20 of 002 is one match over state and event.

mod buffers;
mod events;
pub mod units;

use crate::authentication::{KEY_LENGTH, USER_MAX};
use crate::refusal::{H10, H11, H2, H8};
use crate::{store, Identity, OUTPUT_LENGTH};

use events::NOTHING;

pub use buffers::{unit_kind, CONNECTION_LENGTH, EVENTS_LENGTH};
pub use events::{Event, Indication, Outgoing, Reason, Request, Timer, ToTransport, ToUser};

/// States (002, Table 14). Any other code counts as IDLE.
pub const IDLE: u8 = 0;
pub const WFTC: u8 = 1;
pub const WFAR: u8 = 2;
pub const DATA: u8 = 3;
pub const WFAU3: u8 = 4;
pub const WFRESP: u8 = 5;

/// The largest identity type that ETY has room for (002, Table 8).
const TYPE_MAX: u8 = 7;

/// Reasons that no unit's fault gives: 002, Table 25 and 6.3.3.5.7.
const APPLICATION_TYPE: Reason = Reason(3, 127);
/// 002, Table 26.
const MAC_ERROR: Reason = Reason(4, 1);
/// 002, Table 27.
const REPLAYED: Reason = Reason(5, 1);
/// 002, Table 29.
const TIMED_OUT: Reason = Reason(7, 3);
/// 002, Table 31.
const NO_AU2: Reason = Reason(9, 1);
const NO_AU3: Reason = Reason(9, 2);
const NO_AR: Reason = Reason(9, 3);
/// 002, 6.3.3.5.7.
const UNKNOWN: Reason = Reason(127, 127);

#[derive(Clone, Copy, PartialEq, Eq, Debug)]
pub struct Connection {
    pub state: u8,
    pub responder: bool,
    pub own: Identity,
    pub peer: Identity,
    /// The responder's random number; zeros in WFTC.
    pub ra: [u8; 8],
    /// The initiator's.
    pub rb: [u8; 8],
    /// The KMAC in WFTC, and the session key from then on.
    pub key: [u8; KEY_LENGTH],
}

/// The connection afterwards, and what goes out.
type Step = (Connection, Outgoing);

impl Connection {
    pub const NONE: Connection = Connection {
        state: IDLE,
        responder: false,
        own: [0; 4],
        peer: [0; 4],
        ra: [0; 8],
        rb: [0; 8],
        key: [0; KEY_LENGTH],
    };

    /// Takes one event and writes the unit that goes out to `out`. A refusal leaves connection and
    /// output.
    pub fn take(&mut self, event: Event, out: &mut [u8]) -> Result<Outgoing, u8> {
        if out.len() < OUTPUT_LENGTH {
            return Err(H2);
        }
        if matches!(event, Event::DataRequest(user) if user.is_empty() || user.len() > USER_MAX) {
            return Err(H10);
        }
        let (connection, outgoing) = self.table_20(event)?;
        *self = connection;
        out[..outgoing.unit.len()].copy_from_slice(&outgoing.unit);
        Ok(outgoing)
    }

    /// The filled squares in the order of the table's rows, then the blank ones (002, 6.2.6.3.2): a
    /// received unit is a protocol error, and any other event is no action.
    fn table_20(&self, event: Event) -> Result<Step, u8> {
        use Event::*;
        let state = if self.state > WFRESP {
            IDLE
        } else {
            self.state
        };
        let step = match (state, event) {
            (IDLE, ConnectRequest(request)) => return request.step(),
            (WFRESP, ConnectResponse) => self.answered(),
            (DATA, DataRequest(user)) => sent(*self, ToTransport::Dt, units::dt(self, user)),
            (WFTC, DisconnectRequest(_)) => ended(ToUser::Nothing, ToTransport::Disconnect),
            (WFAR | DATA | WFRESP, DisconnectRequest(reason)) => self.released(reason),
            (IDLE, ConnectIndication(indication)) => return indication.step(),
            (WFTC, ConnectConfirmation(unit)) => self.confirmed(unit),
            (WFTC | WFAR | DATA | WFRESP, DisconnectIndication(reason, unit)) => {
                let reason = units::release_reason(reason, unit);
                ended(ToUser::Disconnect(reason), ToTransport::Nothing)
            }
            (WFAU3, DisconnectIndication(..)) => ended(ToUser::Nothing, ToTransport::Nothing),
            (WFAU3, Au3(unit)) => self.third(unit),
            (WFAR, Ar(unit)) => self.accepted(unit),
            (DATA, Dt(unit)) => self.data(unit),
            (WFTC, TimeOut) => failed_early(TIMED_OUT),
            (WFAR, TimeOut) => self.failed(TIMED_OUT),

            (WFTC, Au3(_) | Ar(_) | Dt(_)) => failed_early(NO_AU2),
            (WFAR, Au3(_) | Dt(_)) => self.failed(NO_AR),
            (WFAU3, Ar(_) | Dt(_)) => self.released(NO_AU3),
            (DATA | WFRESP, Au3(_) | Ar(_)) => self.failed(REPLAYED),
            (WFRESP, Dt(_)) => self.failed(UNKNOWN),
            _ => (*self, NOTHING),
        };
        Ok(step)
    }

    /// Sa-CONN.resp: AR.
    fn answered(&self) -> Step {
        sent(self.in_state(DATA), ToTransport::Ar, units::ar(self))
    }

    /// T-CONN.conf: Pre2, or AU3 under the session key.
    fn confirmed(&self, unit: &[u8]) -> Step {
        match units::read_au2(unit, self) {
            Err(reason) => failed_early(reason),
            Ok((ra, key)) => {
                let caller = Connection {
                    ra,
                    key,
                    ..self.in_state(WFAR)
                };
                sent(caller, ToTransport::Au3, units::au3(&caller))
            }
        }
    }

    /// AU3: Pre3, or the user is asked.
    fn third(&self, unit: &[u8]) -> Step {
        match units::read_au3(unit, self) {
            Err(reason) => self.released(reason),
            Ok(()) => told(self.in_state(WFRESP), ToUser::ConnectIndication),
        }
    }

    /// AR: Pre4, or the connection stands.
    fn accepted(&self, unit: &[u8]) -> Step {
        match units::read_ar(unit, self) {
            Err(reason) => self.failed(reason),
            Ok(()) => {
                let (open, outgoing) = told(self.in_state(DATA), ToUser::ConnectConfirmation);
                let timer = Timer::Stop;
                (open, Outgoing { timer, ..outgoing })
            }
        }
    }

    /// DT: H8 is Pre5, H7 and H9 are Pre6 (02, change request 1).
    fn data(&self, unit: &[u8]) -> Step {
        match units::check_dt(unit, self) {
            Ok(length) => told(*self, ToUser::Data(length)),
            Err(H8) => told(*self, ToUser::Report(MAC_ERROR)),
            Err(_) => self.failed(units::dt_fault(unit, self)),
        }
    }

    /// T-DISC.req with a DI; the user is told too.
    fn failed(&self, reason: Reason) -> Step {
        let (none, outgoing) = self.released(reason);
        let user = ToUser::Disconnect(reason);
        (none, Outgoing { user, ..outgoing })
    }

    /// T-DISC.req with a DI; the user knows, or there is none yet.
    fn released(&self, reason: Reason) -> Step {
        let (none, outgoing) = ended(ToUser::Nothing, ToTransport::DisconnectWithDi);
        let unit = units::di(self.responder, reason);
        (none, Outgoing { unit, ..outgoing })
    }

    fn in_state(&self, state: u8) -> Connection {
        Connection { state, ..*self }
    }
}

impl Request<'_> {
    /// In IDLE: Pre0, or AU1 where the peer's key is found.
    fn step(&self) -> Result<Step, u8> {
        let Request { own, peer, rb, .. } = *self;
        if !self.acceptable {
            let user = ToUser::Disconnect(APPLICATION_TYPE);
            return Ok(told(Connection::NONE, user));
        }
        let caller = Connection {
            state: WFTC,
            responder: false,
            own,
            peer,
            ra: [0; 8],
            rb,
            key: kmac(&own, &peer, self.t, self.store)?,
        };
        let (caller, outgoing) = sent(caller, ToTransport::ConnectRequest, units::au1(&own, &rb));
        let timer = Timer::Set;
        Ok((caller, Outgoing { timer, ..outgoing }))
    }
}

impl Indication<'_> {
    /// In IDLE: Pre1, or AU2 under the session key where the caller's key is found.
    fn step(&self) -> Result<Step, u8> {
        let Indication { own, ra, .. } = *self;
        let (peer, rb) = match self.caller() {
            Ok(caller) => caller,
            Err(reason) => return Ok(rejected(reason)),
        };
        let kmac = kmac(&own, &peer, self.t, self.store)?;
        let called = Connection {
            state: WFAU3,
            responder: true,
            own,
            peer,
            ra,
            rb,
            key: units::session_key(&kmac, &ra, &rb),
        };
        Ok(sent(
            called,
            ToTransport::ConnectResponse,
            units::au2(&called),
        ))
    }

    /// The caller's identity and number, or why the indication is not acceptable.
    fn caller(&self) -> Result<(Identity, [u8; 8]), Reason> {
        if !self.acceptable {
            return Err(APPLICATION_TYPE);
        }
        units::read_au1(self.unit)
    }
}

/// The KMAC of the peer at T (02, change request 1): H1, H12 and H11 of the search, and H11 behind
/// them for an identity type that ETY has no room for.
fn kmac(own: &Identity, peer: &Identity, t: u32, store: &[u8]) -> Result<[u8; KEY_LENGTH], u8> {
    store::find(store, peer, t)?;
    if own[0] > TYPE_MAX || peer[0] > TYPE_MAX {
        return Err(H11);
    }
    let key = store::key(store, peer, t);
    Ok(key.try_into().expect("a KMAC has 24 octets"))
}

/// A unit goes out.
fn sent(connection: Connection, transport: ToTransport, unit: Vec<u8>) -> Step {
    let outgoing = Outgoing {
        transport,
        unit,
        ..NOTHING
    };
    (connection, outgoing)
}

/// The user alone is told.
fn told(connection: Connection, user: ToUser) -> Step {
    (connection, Outgoing { user, ..NOTHING })
}

/// IDLE with a19, and nothing of the connection stays.
fn ended(user: ToUser, transport: ToTransport) -> Step {
    let outgoing = Outgoing {
        user,
        transport,
        timer: Timer::StopAll,
        ..NOTHING
    };
    (Connection::NONE, outgoing)
}

/// Before the transport connection stands no DI can go out (002, Table 20, Note1).
fn failed_early(reason: Reason) -> Step {
    ended(ToUser::Disconnect(reason), ToTransport::Disconnect)
}

/// Pre1: a DI of the responder, and no timer was set.
fn rejected(reason: Reason) -> Step {
    let unit = units::di(true, reason);
    sent(Connection::NONE, ToTransport::DisconnectWithDi, unit)
}
