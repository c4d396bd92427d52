//! Brings an event to a connection on the library and on the second program, and compares all that it
//! leaves.

use reference::setup::unit_kind;

use crate::both::{hex, named, Both, Step};
use crate::compare::{buffers, numbers};
use crate::connected::Happened;
use crate::coverage::Call;
use crate::incoming::{model, ConnectionBytes, EventsBytes, Incoming, UNUSED_AT};
use crate::squares::Met;
use reference::random::Random;

/// What both gave for an event.
pub struct Given {
    pub answer: i32,
    /// Zeros where the event is refused.
    pub events: EventsBytes,
    /// The unit that goes out, empty where none does.
    pub unit: Vec<u8>,
}

impl Both {
    /// The connection has then what both left.
    pub fn event(
        &mut self,
        connection: &mut ConnectionBytes,
        incoming: &Incoming,
        out: &[u8],
    ) -> Step<Given> {
        self.calls += 1;
        let before = *connection;
        let mut written = out.to_vec();
        let (answer, due) = model(connection, incoming, &mut written);
        // No byte is 0, nor the one that is to be written, so that each that is not is seen.
        let lent = Random::new(self.calls).unlike(due.unwrap_or_default());
        let (mut after, mut events, mut got_out) = (before, lent, out.to_vec());
        let got = self
            .library
            .event(&mut after, incoming, &mut events, &mut got_out);
        let happened = |answer| Happened {
            incoming,
            answer,
            connection: [&before, &after],
            events: [&lent, &events],
            out: [out, &got_out],
        };
        let call = || event_call(&before, incoming, out.len());
        named(call, || {
            let got = got?;
            numbers("answer", answer.into(), got.into())?;
            buffers("connection", connection, &after)?;
            buffers("events", &due.unwrap_or(lent), &events)?;
            buffers("output", &written, &got_out)?;
            happened(got).keeps_the_rule(&mut self.judge)
        })?;
        self.seen.answer_over(incoming.store(), Call::Event, answer);
        for met in happened(answer).met() {
            self.seen.connection(incoming.store(), met);
        }
        written.truncate(usize::try_from(answer).unwrap_or(0));
        Ok(Given {
            answer,
            events: due.unwrap_or_default(),
            unit: written,
        })
    }

    pub fn unit_kind(&mut self, unit: &[u8]) -> Step<u8> {
        self.calls += 1;
        let kind = unit_kind(unit);
        let got = self.library.unit_kind(unit);
        let call = || format!("kmac_unit_kind of {} bytes", unit.len());
        named(call, || numbers("kind", kind.into(), got?.into()))?;
        self.seen.connection(&[], Met::Kind(kind.into()));
        Ok(kind)
    }
}

/// The function with what it was given, and the connection, for whoever looks for the fault.
fn event_call(before: &ConnectionBytes, incoming: &Incoming, out: usize) -> String {
    let connection = hex(&before[..UNUSED_AT]);
    format!("{incoming}, output of {out} bytes, connection {connection}")
}
