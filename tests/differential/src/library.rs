//! The library's C functions, each with guards around every buffer that is lent to it.
//!
//! A call gives the answer and leaves in the slices what the library wrote. It is a
//! difference where a guard is broken or a buffer lent to be read has changed.

use reference::store::{Edition, EDITION_1};

use crate::compare::{guards, unchanged, Difference};
use crate::lent::Lent;
use reference::random::Random;

pub const SESSION_LENGTH: usize = 32;
pub type SessionBytes = [u8; SESSION_LENGTH];
/// Where a session says whether a transaction number is remembered, where it has the number, and
/// where its unused part starts.
pub const REMEMBERED_AT: usize = 1;
pub const NUMBER_AT: usize = 14;
pub const UNUSED_AT: usize = 18;
/// The end that a search gives, in the host's order.
pub type EndBytes = [u8; 4];

extern "C" {
    fn kmac_begin(
        own: u32,
        peer: u32,
        number: u16,
        session: *mut u8,
        out: *mut u8,
        len: usize,
    ) -> i32;
    fn kmac_receive(
        session: *mut u8,
        message: *const u8,
        message_len: usize,
        store: *mut u8,
        store_len: usize,
        out: *mut u8,
        out_len: usize,
    ) -> i32;
    fn kmac_find(store: *const u8, store_len: usize, peer: u32, t: u32, end: *mut u32) -> i32;
    fn kmac_session_keys(
        kmac: *const u8,
        kmac_len: usize,
        ra: *const u8,
        rb: *const u8,
        keys: *mut u8,
    ) -> i32;
    fn kmac_build(
        key: *const u8,
        key_len: usize,
        destination: *const u8,
        direction: u8,
        data: *const u8,
        data_len: usize,
        out: *mut u8,
        out_len: usize,
    ) -> i32;
    fn kmac_check(
        unit: *const u8,
        unit_len: usize,
        key: *const u8,
        key_len: usize,
        destination: *const u8,
        direction: u8,
    ) -> i32;
    fn kmac_des_encipher(key: *const u8, block: *const u8, result: *mut u8);
    fn kmac_des_decipher(key: *const u8, block: *const u8, result: *mut u8);
    fn kmac_empty_store(store: *mut u8, store_len: usize) -> i32;
    fn kmac_to_edition1(from: *const u8, from_len: usize, to: *mut u8, to_len: usize) -> i32;
    fn kmac_to_edition2(from: *const u8, from_len: usize, to: *mut u8, to_len: usize) -> i32;
}

/// Lends each buffer at a place that is drawn anew. Were it moved by a fixed step, a call that lends
/// two would have its second at every other address only.
pub struct Library {
    random: Random,
}

pub type Answered<T> = Result<T, Difference>;

impl Library {
    pub fn new() -> Library {
        Library {
            random: Random::new(0),
        }
    }

    pub fn lend(&mut self, content: &[u8]) -> Lent {
        Lent::new(content, self.random.next())
    }

    /// An end stands where C aligns a number of four bytes.
    fn lend_end(&mut self, end: &EndBytes) -> Lent {
        loop {
            let lent = self.lend(end);
            if lent.as_ptr().cast::<u32>().is_aligned() {
                return lent;
            }
        }
    }

    pub fn begin(
        &mut self,
        identities: (u32, u32),
        number: u16,
        session: &mut SessionBytes,
        out: &mut [u8],
    ) -> Answered<i32> {
        let (own, peer) = identities;
        let mut lent_session = self.lend(session);
        let mut lent_out = self.lend(out);
        let (s, o, n) = (lent_session.as_mut_ptr(), lent_out.as_mut_ptr(), out.len());
        // SAFETY: each pointer has as many bytes behind it as the header asks.
        let answer = unsafe { kmac_begin(own, peer, number, s, o, n) };
        take_back("session", session, &lent_session)?;
        take_back("output", out, &lent_out)?;
        Ok(answer)
    }

    pub fn receive(
        &mut self,
        session: &mut SessionBytes,
        message: &[u8],
        store: &mut [u8],
        out: &mut [u8],
    ) -> Answered<i32> {
        let mut lent_session = self.lend(session);
        let lent_message = self.lend(message);
        let mut lent_store = self.lend(store);
        let mut lent_out = self.lend(out);
        // SAFETY: each pointer is given with the length of its buffer; a session has 32 bytes.
        let answer = unsafe {
            kmac_receive(
                lent_session.as_mut_ptr(),
                lent_message.as_ptr(),
                lent_message.len(),
                lent_store.as_mut_ptr(),
                lent_store.len(),
                lent_out.as_mut_ptr(),
                lent_out.len(),
            )
        };
        unchanged("message", message, &lent_message)?;
        take_back("session", session, &lent_session)?;
        take_back("store", store, &lent_store)?;
        take_back("output", out, &lent_out)?;
        Ok(answer)
    }

    pub fn find(&mut self, store: &[u8], peer: u32, t: u32, end: &mut EndBytes) -> Answered<i32> {
        let lent_store = self.lend(store);
        let mut lent_end = self.lend_end(end);
        let (s, n) = (lent_store.as_ptr(), lent_store.len());
        let e = lent_end.as_mut_ptr().cast();
        // SAFETY: the store is given with its length, and an end has 4 bytes, aligned as the header
        // asks.
        let answer = unsafe { kmac_find(s, n, peer, t, e) };
        unchanged("store", store, &lent_store)?;
        take_back("end", end, &lent_end)?;
        Ok(answer)
    }

    pub fn session_keys(
        &mut self,
        kmac: &[u8],
        ra: &[u8; 8],
        rb: &[u8; 8],
        keys: &mut [u8; 24],
    ) -> Answered<i32> {
        let lent_kmac = self.lend(kmac);
        let (lent_ra, lent_rb) = (self.lend(ra), self.lend(rb));
        let mut lent_keys = self.lend(keys);
        let (k, n) = (lent_kmac.as_ptr(), lent_kmac.len());
        let (a, b, to) = (lent_ra.as_ptr(), lent_rb.as_ptr(), lent_keys.as_mut_ptr());
        // SAFETY: each pointer has as many bytes behind it as the header asks.
        let answer = unsafe { kmac_session_keys(k, n, a, b, to) };
        unchanged("KMAC", kmac, &lent_kmac)?;
        unchanged("ra", ra, &lent_ra)?;
        unchanged("rb", rb, &lent_rb)?;
        take_back("keys", keys, &lent_keys)?;
        Ok(answer)
    }

    pub fn build(
        &mut self,
        key: &[u8],
        destination: &[u8; 3],
        direction: u8,
        user: &[u8],
        out: &mut [u8],
    ) -> Answered<i32> {
        let lent_key = self.lend(key);
        let lent_destination = self.lend(destination);
        let lent_user = self.lend(user);
        let mut lent_out = self.lend(out);
        // SAFETY: each pointer is given with the length of its buffer; a destination has 3 bytes.
        let answer = unsafe {
            kmac_build(
                lent_key.as_ptr(),
                lent_key.len(),
                lent_destination.as_ptr(),
                direction,
                lent_user.as_ptr(),
                lent_user.len(),
                lent_out.as_mut_ptr(),
                lent_out.len(),
            )
        };
        unchanged("key", key, &lent_key)?;
        unchanged("destination", destination, &lent_destination)?;
        unchanged("user data", user, &lent_user)?;
        take_back("output", out, &lent_out)?;
        Ok(answer)
    }

    pub fn check(
        &mut self,
        unit: &[u8],
        key: &[u8],
        destination: &[u8; 3],
        direction: u8,
    ) -> Answered<i32> {
        let lent_unit = self.lend(unit);
        let lent_key = self.lend(key);
        let lent_destination = self.lend(destination);
        let (u, n) = (lent_unit.as_ptr(), lent_unit.len());
        let (k, m, d) = (lent_key.as_ptr(), lent_key.len(), lent_destination.as_ptr());
        // SAFETY: each pointer is given with the length of its buffer; a destination has 3 bytes.
        let answer = unsafe { kmac_check(u, n, k, m, d, direction) };
        unchanged("unit", unit, &lent_unit)?;
        unchanged("key", key, &lent_key)?;
        unchanged("destination", destination, &lent_destination)?;
        Ok(answer)
    }

    /// Enciphers a block, or deciphers it where `inverse`.
    pub fn des(&mut self, inverse: bool, key: &[u8; 8], block: &[u8; 8]) -> Answered<[u8; 8]> {
        let (lent_key, lent_block) = (self.lend(key), self.lend(block));
        let mut result = [0xee; 8];
        let mut lent_result = self.lend(&result);
        let (k, b, r) = (
            lent_key.as_ptr(),
            lent_block.as_ptr(),
            lent_result.as_mut_ptr(),
        );
        // SAFETY: eight bytes stand behind each pointer.
        unsafe {
            match inverse {
                false => kmac_des_encipher(k, b, r),
                true => kmac_des_decipher(k, b, r),
            }
        }
        unchanged("key", key, &lent_key)?;
        unchanged("block", block, &lent_block)?;
        take_back("result", &mut result, &lent_result)?;
        Ok(result)
    }

    pub fn empty_store(&mut self, store: &mut [u8]) -> Answered<i32> {
        let mut lent = self.lend(store);
        // SAFETY: the pointer is given with the length of its buffer.
        let answer = unsafe { kmac_empty_store(lent.as_mut_ptr(), lent.len()) };
        take_back("store", store, &lent)?;
        Ok(answer)
    }

    /// The store at `from` made one of the target's edition.
    pub fn convert(&mut self, target: Edition, from: &[u8], to: &mut [u8]) -> Answered<i32> {
        let lent_from = self.lend(from);
        let mut lent_to = self.lend(to);
        let (f, n) = (lent_from.as_ptr(), lent_from.len());
        let (t, m) = (lent_to.as_mut_ptr(), lent_to.len());
        // SAFETY: each pointer is given with the length of its buffer.
        let answer = unsafe {
            match target {
                EDITION_1 => kmac_to_edition1(f, n, t, m),
                _ => kmac_to_edition2(f, n, t, m),
            }
        };
        unchanged("source", from, &lent_from)?;
        take_back("target", to, &lent_to)?;
        Ok(answer)
    }
}

/// What the library left in a buffer, where nothing beside it was written.
pub fn take_back(of: &'static str, content: &mut [u8], lent: &Lent) -> Answered<()> {
    guards(of, lent)?;
    content.copy_from_slice(lent.content());
    Ok(())
}

#[cfg(test)]
mod tests {
    use super::Library;

    /// Whatever a call lends, each of its buffers stands at every place modulo 16.
    #[test]
    fn every_buffer_of_a_call_meets_every_alignment() {
        for buffers in 1..=6 {
            let mut library = Library::new();
            let mut met = vec![[false; 16]; buffers];
            for _ in 0..1000 {
                for places in &mut met {
                    let lent = library.lend(&[7; 4]);
                    places[lent.as_ptr() as usize % 16] = true;
                }
            }
            assert_eq!(met, vec![[true; 16]; buffers]);
        }
    }
}
