//! A connection and the outgoing events as the C interface lays them out.

use super::units::{mti, mti_of};
use super::{Connection, Event, Outgoing, ToUser};
use crate::reader::Reader;

pub const CONNECTION_LENGTH: usize = 64;
pub const EVENTS_LENGTH: usize = 8;

/// The numbers of the units that T-DATA.ind brings.
const KIND_AU3: u8 = 1;
const KIND_AR: u8 = 2;
const KIND_DT: u8 = 3;

impl Connection {
    /// Every byte but 0 is the responder; the bytes that are zero when written are not looked at.
    pub fn from_bytes(bytes: &[u8; CONNECTION_LENGTH]) -> Connection {
        let read = || {
            let mut reader = Reader(bytes);
            let [state, role, _, _] = reader.bytes()?;
            Some(Connection {
                state,
                responder: role != 0,
                own: reader.bytes()?,
                peer: reader.bytes()?,
                ra: reader.bytes()?,
                rb: reader.bytes()?,
                key: reader.bytes()?,
            })
        };
        read().expect("64 bytes have all fields")
    }

    pub fn to_bytes(&self) -> [u8; CONNECTION_LENGTH] {
        let fields = [
            &[self.state, self.responder.into(), 0, 0][..],
            &self.own,
            &self.peer,
            &self.ra,
            &self.rb,
            &self.key,
        ];
        let mut bytes = [0; CONNECTION_LENGTH];
        for (byte, field) in bytes.iter_mut().zip(fields.concat()) {
            *byte = field;
        }
        bytes
    }
}

impl Outgoing {
    /// `state` is that of the connection afterwards.
    pub fn to_bytes(&self, state: u8) -> [u8; EVENTS_LENGTH] {
        let (user, [reason, sub], length) = match self.user {
            ToUser::Nothing => (0, [0, 0], 0),
            ToUser::ConnectIndication => (1, [0, 0], 0),
            ToUser::ConnectConfirmation => (2, [0, 0], 0),
            ToUser::Data(length) => (3, [0, 0], length as u16),
            ToUser::Disconnect(reason) => (4, [reason.0, reason.1], 0),
            ToUser::Report(reason) => (5, [reason.0, reason.1], 0),
        };
        let [upper, lower] = length.to_be_bytes();
        let (transport, timer) = (self.transport as u8, self.timer as u8);
        [user, transport, timer, state, reason, sub, upper, lower]
    }
}

impl<'a> Event<'a> {
    /// A unit by T-DATA.ind, of the kind that the host names: any number but 1 and 2 is a DT.
    pub fn unit(kind: u8, unit: &'a [u8]) -> Event<'a> {
        match kind {
            KIND_AU3 => Event::Au3(unit),
            KIND_AR => Event::Ar(unit),
            _ => Event::Dt(unit),
        }
    }
}

/// The kind of a unit by its MTI.
pub fn unit_kind(unit: &[u8]) -> u8 {
    match unit.first().map(|&first| mti_of(first)) {
        Some(mti::AU3) => KIND_AU3,
        Some(mti::AR) => KIND_AR,
        _ => KIND_DT,
    }
}
