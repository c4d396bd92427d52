//! The library's C functions for connections (change request 1), with guards as in `library.rs`.

use crate::compare::unchanged;
use crate::incoming::{ConnectionBytes, EventsBytes, Incoming, Indication, Request};
use crate::lent::Lent;
use crate::library::{take_back, Answered, Library};

extern "C" {
    fn kmac_connect_request(
        connection: *mut u8,
        acceptable: u8,
        own: u32,
        peer: u32,
        t: u32,
        rb: *const u8,
        store: *const u8,
        store_len: usize,
        events: *mut u8,
        out: *mut u8,
        out_len: usize,
    ) -> i32;
    fn kmac_connect_response(
        connection: *mut u8,
        events: *mut u8,
        out: *mut u8,
        out_len: usize,
    ) -> i32;
    fn kmac_data_request(
        connection: *mut u8,
        data: *const u8,
        data_len: usize,
        events: *mut u8,
        out: *mut u8,
        out_len: usize,
    ) -> i32;
    fn kmac_disconnect_request(
        connection: *mut u8,
        reason: u8,
        sub_reason: u8,
        events: *mut u8,
        out: *mut u8,
        out_len: usize,
    ) -> i32;
    fn kmac_connect_indication(
        connection: *mut u8,
        acceptable: u8,
        own: u32,
        t: u32,
        ra: *const u8,
        unit: *const u8,
        unit_len: usize,
        store: *const u8,
        store_len: usize,
        events: *mut u8,
        out: *mut u8,
        out_len: usize,
    ) -> i32;
    fn kmac_connect_confirmation(
        connection: *mut u8,
        unit: *const u8,
        unit_len: usize,
        events: *mut u8,
        out: *mut u8,
        out_len: usize,
    ) -> i32;
    fn kmac_disconnect_indication(
        connection: *mut u8,
        reason: u8,
        unit: *const u8,
        unit_len: usize,
        events: *mut u8,
        out: *mut u8,
        out_len: usize,
    ) -> i32;
    fn kmac_unit_indication(
        connection: *mut u8,
        kind: u8,
        unit: *const u8,
        unit_len: usize,
        events: *mut u8,
        out: *mut u8,
        out_len: usize,
    ) -> i32;
    fn kmac_time_out(connection: *mut u8, events: *mut u8, out: *mut u8, out_len: usize) -> i32;
    fn kmac_unit_kind(unit: *const u8, unit_len: usize) -> i32;
}

/// The three buffers that every event may write: connection, events and output.
struct Written {
    connection: Lent,
    events: Lent,
    out: Lent,
}

impl Library {
    pub fn event(
        &mut self,
        connection: &mut ConnectionBytes,
        incoming: &Incoming,
        events: &mut EventsBytes,
        out: &mut [u8],
    ) -> Answered<i32> {
        let mut written = Written {
            connection: self.lend(connection),
            events: self.lend(events),
            out: self.lend(out),
        };
        let answer = match *incoming {
            Incoming::ConnectRequest(request) => self.request(&mut written, &request)?,
            Incoming::ConnectIndication(indication) => {
                self.indication(&mut written, &indication)?
            }
            _ => self.other(&mut written, incoming)?,
        };
        take_back("connection", connection, &written.connection)?;
        take_back("events", events, &written.events)?;
        take_back("output", out, &written.out)?;
        Ok(answer)
    }

    fn request(&mut self, written: &mut Written, request: &Request) -> Answered<i32> {
        let rb = self.lend(&request.rb);
        let store = self.lend(request.store);
        // SAFETY: store and output are given with their lengths; the other pointers have as many
        // bytes behind them as the header asks.
        let answer = unsafe {
            kmac_connect_request(
                written.connection.as_mut_ptr(),
                request.acceptable,
                request.own,
                request.peer,
                request.t,
                rb.as_ptr(),
                store.as_ptr(),
                store.len(),
                written.events.as_mut_ptr(),
                written.out.as_mut_ptr(),
                written.out.len(),
            )
        };
        unchanged("random number", &request.rb, &rb)?;
        unchanged("store", request.store, &store)?;
        Ok(answer)
    }

    fn indication(&mut self, written: &mut Written, indication: &Indication) -> Answered<i32> {
        let ra = self.lend(&indication.ra);
        let unit = self.lend(indication.unit);
        let store = self.lend(indication.store);
        // SAFETY: unit, store and output are given with their lengths; the other pointers have as
        // many bytes behind them as the header asks.
        let answer = unsafe {
            kmac_connect_indication(
                written.connection.as_mut_ptr(),
                indication.acceptable,
                indication.own,
                indication.t,
                ra.as_ptr(),
                unit.as_ptr(),
                unit.len(),
                store.as_ptr(),
                store.len(),
                written.events.as_mut_ptr(),
                written.out.as_mut_ptr(),
                written.out.len(),
            )
        };
        unchanged("random number", &indication.ra, &ra)?;
        unchanged("unit", indication.unit, &unit)?;
        unchanged("store", indication.store, &store)?;
        Ok(answer)
    }

    /// An event that lends no store, and at most a unit or user data to be read.
    fn other(&mut self, written: &mut Written, incoming: &Incoming) -> Answered<i32> {
        let read = self.lend(incoming.bytes());
        let (b, m) = (read.as_ptr(), read.len());
        let (c, e) = (written.connection.as_mut_ptr(), written.events.as_mut_ptr());
        let (o, n) = (written.out.as_mut_ptr(), written.out.len());
        // SAFETY: unit, data and output are given with their lengths; a connection has 64 bytes and
        // events have 8.
        let answer = unsafe {
            match *incoming {
                Incoming::ConnectResponse => kmac_connect_response(c, e, o, n),
                Incoming::DataRequest(_) => kmac_data_request(c, b, m, e, o, n),
                Incoming::DisconnectRequest(reason, sub) => {
                    kmac_disconnect_request(c, reason, sub, e, o, n)
                }
                Incoming::ConnectConfirmation(_) => kmac_connect_confirmation(c, b, m, e, o, n),
                Incoming::DisconnectIndication(reason, _) => {
                    kmac_disconnect_indication(c, reason, b, m, e, o, n)
                }
                Incoming::Unit(kind, _) => kmac_unit_indication(c, kind, b, m, e, o, n),
                Incoming::TimeOut => kmac_time_out(c, e, o, n),
                Incoming::ConnectRequest(_) | Incoming::ConnectIndication(_) => {
                    unreachable!("they lend a store")
                }
            }
        };
        unchanged("unit or data", incoming.bytes(), &read)?;
        Ok(answer)
    }

    pub fn unit_kind(&mut self, unit: &[u8]) -> Answered<i32> {
        let lent = self.lend(unit);
        // SAFETY: the pointer is given with the length of its buffer.
        let answer = unsafe { kmac_unit_kind(lent.as_ptr(), lent.len()) };
        unchanged("unit", unit, &lent)?;
        Ok(answer)
    }
}
