//! The bench's two connections: the lines that bring them events, and what is printed of an event.

use super::{bytes, decimal, digits, refused, Said};
use reference::hex::encode;
use reference::setup::{Connection, Event, Indication, Outgoing, Reason, Request};
use reference::setup::{Timer, ToTransport, ToUser};
use reference::{Identity, OUTPUT_LENGTH};

/// The states by their code (002, Table 14).
const STATES: [&str; 6] = ["IDLE", "WFTC", "WFAR", "DATA", "WFAU3", "WFRESP"];

/// How many fields the line of a command has; none where it is not about a connection.
pub fn fields_of(command: &str) -> Option<usize> {
    match command {
        "respond" | "late" => Some(1),
        "connection" | "confirm" | "say" | "lost" | "end" => Some(2),
        "bring" | "release" => Some(3),
        "call" | "indicate" => Some(4),
        _ => None,
    }
}

/// A connection, and the identity that it calls and answers with. An idle connection has none of its
/// own.
#[derive(Clone, Copy)]
struct Side {
    own: Identity,
    connection: Connection,
}

impl Side {
    const fn of(own: Identity) -> Side {
        let connection = Connection::NONE;
        Side { own, connection }
    }
}

/// `a` and `b`.
pub struct Connections([Side; 2]);

impl Connections {
    pub const NONE: Connections = Connections([Side::of([0; 4]); 2]);

    /// A line with as many fields as its command has, over the store held.
    pub fn line(&mut self, command: &str, fields: &[&str], store: &[u8]) -> Said {
        let side = match fields[0] {
            "a" => &mut self.0[0],
            "b" => &mut self.0[1],
            _ => return Err("neither a nor b"),
        };
        side.line(command, &fields[1..], store)
    }
}

impl Side {
    /// The fields are those behind the name.
    fn line(&mut self, command: &str, fields: &[&str], store: &[u8]) -> Said {
        match command {
            "connection" => {
                *self = Side::of(digits(fields[0])?);
                self.say_state();
            }
            "call" => self.call(fields, store)?,
            "indicate" => self.indicate(fields, store)?,
            "confirm" => self.take(Event::ConnectConfirmation(&bytes(fields[0])?)),
            "bring" => {
                let kind = decimal(fields[0], 1..=3)? as u8;
                self.take(Event::unit(kind, &bytes(fields[1])?));
            }
            "respond" => self.take(Event::ConnectResponse),
            "say" => self.take(Event::DataRequest(&bytes(fields[0])?)),
            "release" => {
                let reason = Reason(octet(fields[0])?, octet(fields[1])?);
                self.take(Event::DisconnectRequest(reason));
            }
            "lost" => self.take(Event::DisconnectIndication(octet(fields[0])?, &[])),
            "end" => self.take(Event::DisconnectIndication(0, &bytes(fields[0])?)),
            _ => self.take(Event::TimeOut),
        }
        Ok(())
    }

    fn call(&mut self, fields: &[&str], store: &[u8]) -> Said {
        self.take(Event::ConnectRequest(Request {
            acceptable: true,
            own: self.own,
            peer: digits(fields[0])?,
            t: u32::from_be_bytes(digits(fields[1])?),
            rb: digits(fields[2])?,
            store,
        }));
        Ok(())
    }

    fn indicate(&mut self, fields: &[&str], store: &[u8]) -> Said {
        self.take(Event::ConnectIndication(Indication {
            acceptable: true,
            own: self.own,
            t: u32::from_be_bytes(digits(fields[0])?),
            ra: digits(fields[1])?,
            unit: &bytes(fields[2])?,
            store,
        }));
        Ok(())
    }

    fn take(&mut self, event: Event) {
        let brought = match event {
            Event::Dt(unit) => unit,
            _ => &[],
        };
        let mut out = [0; OUTPUT_LENGTH];
        match self.connection.take(event, &mut out) {
            Ok(outgoing) => self.say(&outgoing, brought),
            Err(h) => refused(h),
        }
    }

    /// `brought` is the unit of which user data can go up.
    fn say(&self, outgoing: &Outgoing, brought: &[u8]) {
        let said = [
            self.user_line(outgoing, brought),
            transport_line(outgoing),
            timer_line(outgoing.timer).map(String::from),
        ];
        if said.iter().all(Option::is_none) {
            println!("no action");
        }
        for line in said.iter().flatten() {
            println!("{line}");
        }
        self.say_state();
    }

    fn say_state(&self) {
        println!("state {}", STATES[usize::from(self.connection.state)]);
    }

    fn user_line(&self, outgoing: &Outgoing, brought: &[u8]) -> Option<String> {
        let said = match outgoing.user {
            ToUser::Nothing => return None,
            ToUser::ConnectIndication => {
                format!("Sa-CONN.ind from {}", encode(&self.connection.peer))
            }
            ToUser::ConnectConfirmation => "Sa-CONN.conf".into(),
            ToUser::Data(_) => format!("Sa-DATA.ind {}", encode(outgoing.user_data(brought))),
            ToUser::Disconnect(Reason(reason, sub)) => format!("Sa-DISC.ind {reason}/{sub}"),
            ToUser::Report(Reason(reason, sub)) => format!("Sa-REPORT.ind {reason}/{sub}"),
        };
        Some(said)
    }
}

fn octet(word: &str) -> Result<u8, &'static str> {
    Ok(decimal(word, 0..=255)? as u8)
}

fn transport_line(outgoing: &Outgoing) -> Option<String> {
    let name = match outgoing.transport {
        ToTransport::Nothing => return None,
        ToTransport::Disconnect => return Some("T-DISC.req".into()),
        ToTransport::ConnectRequest => "T-CONN.req AU1",
        ToTransport::ConnectResponse => "T-CONN.resp AU2",
        ToTransport::DisconnectWithDi => "T-DISC.req DI",
        ToTransport::Au3 => "AU3",
        ToTransport::Ar => "AR",
        ToTransport::Dt => "DT",
    };
    Some(format!("{name} {}", encode(&outgoing.unit)))
}

fn timer_line(timer: Timer) -> Option<&'static str> {
    match timer {
        Timer::Keep => None,
        Timer::Set => Some("timer set"),
        Timer::Stop => Some("timer stopped"),
        Timer::StopAll => Some("timers stopped"),
    }
}
