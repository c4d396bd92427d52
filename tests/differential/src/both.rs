//! Makes a call on the library and on the second program, and compares all that it leaves.

use reference::refusal::H5;
use reference::store::Edition;

use crate::chain::Chain;
use crate::compare::{buffers, numbers, Compared, Difference};
use crate::converted::Conversion;
use crate::coverage::{Call, Coverage, Mark};
use crate::layout::KEYS_AT;
use crate::library::{EndBytes, Library, SessionBytes, NUMBER_AT, REMEMBERED_AT, UNUSED_AT};
use crate::model;
use crate::repeated::{begun_keeps_the_rule, Exchange};
use crate::unsound::{search_keeps_the_rule, Judge, Verdict};
use crate::wire::RESPONSE_AT;
use reference::random::Random;

/// A failed call.
pub struct Failure {
    /// The function and what it was given.
    pub call: String,
    pub difference: Difference,
}

pub type Step<T = ()> = Result<T, Failure>;

/// What the calls over one session hand on.
#[derive(Clone, PartialEq, Eq, Debug)]
pub struct World {
    pub session: SessionBytes,
    pub store: Vec<u8>,
}

pub struct Both {
    pub library: Library,
    pub calls: u64,
    pub seen: Coverage,
    chain: Chain,
    pub judge: Judge,
}

impl Both {
    pub fn new() -> Both {
        Both {
            library: Library::new(),
            calls: 0,
            seen: Coverage::default(),
            chain: Chain::default(),
            judge: Judge::default(),
        }
    }

    /// Gives the answer; the world has then what both left.
    pub fn begin(
        &mut self,
        world: &mut World,
        identities: (u32, u32),
        number: u16,
        out: &[u8],
    ) -> Step<i32> {
        self.calls += 1;
        let call = || {
            let (own, peer) = identities;
            format!("kmac_begin, own {own:08x}, peer {peer:08x}, number {number}")
        };
        let (mut session, mut written) = (world.session, out.to_vec());
        let answer = model::begin(identities, number, &mut session, &mut written);
        let (mut got_session, mut got_out) = (world.session, out.to_vec());
        let got = self
            .library
            .begin(identities, number, &mut got_session, &mut got_out);
        named(call, || {
            numbers("answer", answer.into(), got?.into())?;
            buffers("session", &session, &got_session)?;
            buffers("output", &written, &got_out)?;
            match answer {
                0.. => begun_keeps_the_rule(&got_session),
                _ => Ok(()),
            }
        })?;
        self.seen.answer(Call::Begin, answer);
        if answer >= 0 {
            self.chain.begun(&world.session, &session);
        }
        world.session = session;
        Ok(answer)
    }

    /// Gives the reply, empty where there is none; the world has then what both left.
    pub fn receive(&mut self, world: &mut World, message: &[u8], out: &[u8]) -> Step<Vec<u8>> {
        self.answered(world, message, out).map(|(_, reply)| reply)
    }

    /// Gives the answer too.
    pub fn answered(
        &mut self,
        world: &mut World,
        message: &[u8],
        out: &[u8],
    ) -> Step<(i32, Vec<u8>)> {
        self.calls += 1;
        let before = world.clone();
        let mut written = out.to_vec();
        let answer = model::receive(&mut world.session, message, &mut world.store, &mut written);
        let (mut got_world, mut got_out) = (before.clone(), out.to_vec());
        let got = self.library.receive(
            &mut got_world.session,
            message,
            &mut got_world.store,
            &mut got_out,
        );
        let exchange = |out, after| Exchange {
            before: &before.session,
            message,
            answer,
            out,
            after,
        };
        let got_exchange = exchange(&got_out, &got_world.session);
        let stores = [&before.store[..], &got_world.store];
        let judged = self.judge.message(got_exchange, stores);
        let call = || receive_call(&before, message, out.len());
        named(call, || {
            numbers("answer", answer.into(), got?.into())?;
            buffers("session", &world.session, &got_world.session)?;
            buffers("store", &world.store, &got_world.store)?;
            buffers("output", &written, &got_out)?;
            demand_1(&before, &got_world, answer, out, &got_out)?;
            judged.exchange.keeps_the_rule()?;
            judged.keeps_the_rule()?;
            judged.asks_store_last(&mut self.library, out)
        })?;
        self.seen.received(&before.store, message, answer, &written);
        let exchange = exchange(&written, &world.session);
        let repeated = self.chain.received(&exchange, &before.store);
        for mark in repeated.into_iter().chain(judged.marks()) {
            self.seen.see(&before.store, mark);
        }
        written.truncate(usize::try_from(answer).unwrap_or(0));
        Ok((answer, written))
    }

    /// Gives the answer, and what the library left at `end`.
    pub fn find(&mut self, store: &[u8], peer: u32, t: u32) -> Step<(i32, EndBytes)> {
        self.calls += 1;
        let (answer, end) = model::find(store, peer, t);
        let before = before_search(peer, t, end.unwrap_or_default());
        let mut got_end = before;
        let got = self.library.find(store, peer, t, &mut got_end);
        let verdict = self.judge.verdict(store);
        let call = || find_call(store, peer, t);
        named(call, || {
            let got = got?;
            demand_1_of_search(got, &before, &got_end)?;
            numbers("answer", answer.into(), got.into())?;
            buffers("end", &end.unwrap_or(before), &got_end)?;
            search_keeps_the_rule(verdict, got)
        })?;
        self.seen.found(store, peer, t, answer);
        if let Verdict::Unsound(Some(only)) = verdict {
            self.seen.see(store, Mark::Broken(Call::Find, only));
        }
        Ok((answer, got_end))
    }

    pub fn session_keys(&mut self, kmac: &[u8], ra: &[u8; 8], rb: &[u8; 8]) -> Step {
        self.calls += 1;
        let mut keys = [0xee; 24];
        let answer = model::session_keys(kmac, ra, rb, &mut keys);
        let mut got_keys = [0xee; 24];
        let got = self.library.session_keys(kmac, ra, rb, &mut got_keys);
        let call = || format!("kmac_session_keys, KMAC of {} bytes", kmac.len());
        named(call, || {
            numbers("answer", answer.into(), got?.into())?;
            buffers("keys", &keys, &got_keys)
        })?;
        self.seen.answer(Call::SessionKeys, answer);
        Ok(())
    }

    /// Gives what both left in the output buffer.
    pub fn build(
        &mut self,
        key: &[u8],
        destination: &[u8; 3],
        direction: u8,
        user: &[u8],
        out: &[u8],
    ) -> Step<Vec<u8>> {
        self.calls += 1;
        let mut written = out.to_vec();
        let answer = model::build(key, destination, direction, user, &mut written);
        let mut got_out = out.to_vec();
        let got = self
            .library
            .build(key, destination, direction, user, &mut got_out);
        let lengths = (key.len(), user.len(), out.len());
        let call = || format!("kmac_build, key, data, output of {lengths:?} bytes, {direction}");
        named(call, || {
            numbers("answer", answer.into(), got?.into())?;
            buffers("output", &written, &got_out)
        })?;
        self.seen.answer(Call::Build, answer);
        Ok(written)
    }

    pub fn check(
        &mut self,
        unit: &[u8],
        key: &[u8],
        destination: &[u8; 3],
        direction: u8,
    ) -> Step<i32> {
        self.calls += 1;
        let answer = model::check(unit, key, destination, direction);
        let got = self.library.check(unit, key, destination, direction);
        let lengths = (unit.len(), key.len());
        let call = || format!("kmac_check, unit and key of {lengths:?} bytes, {direction}");
        named(call, || numbers("answer", answer.into(), got?.into()))?;
        self.seen.answer(Call::Check, answer);
        Ok(answer)
    }

    /// Enciphers a block and deciphers it.
    pub fn des(&mut self, key: &[u8; 8], block: &[u8; 8]) -> Step {
        for (inverse, name) in [(false, "kmac_des_encipher"), (true, "kmac_des_decipher")] {
            self.calls += 1;
            let result = model::des(inverse, key, block);
            let got = self.library.des(inverse, key, block);
            let call = || format!("{name}, key {key:02x?}, block {block:02x?}");
            named(call, || buffers("result", &result, &got?))?;
        }
        Ok(())
    }

    pub fn empty_store(&mut self, store: &[u8]) -> Step {
        self.calls += 1;
        let (mut emptied, mut got_store) = (store.to_vec(), store.to_vec());
        let answer = model::empty_store(&mut emptied);
        let got = self.library.empty_store(&mut got_store);
        let call = || format!("kmac_empty_store of {} bytes", store.len());
        named(call, || {
            numbers("answer", answer.into(), got?.into())?;
            buffers("store", &emptied, &got_store)
        })?;
        self.seen.answer_over(store, Call::EmptyStore, answer);
        Ok(())
    }

    /// The store at `from` made one of the target's edition. Gives the answer, and what both left at
    /// `to`.
    pub fn convert(&mut self, target: Edition, from: &[u8], to: &[u8]) -> Step<(i32, Vec<u8>)> {
        self.calls += 1;
        let (mut made, mut got_to) = (to.to_vec(), to.to_vec());
        let answer = model::convert(target, from, &mut made);
        let got = self.library.convert(target, from, &mut got_to);
        let conversion = Conversion {
            target,
            from,
            before: to,
            after: &got_to,
            answer,
        };
        named(
            || convert_call(target, from, to.len()),
            || {
                numbers("answer", answer.into(), got?.into())?;
                conversion.demand_1()?;
                buffers("target", &made, &got_to)?;
                conversion.keeps_the_rule(&mut self.judge)
            },
        )?;
        self.seen.answer_over(from, conversion.call(), answer);
        for mark in conversion.marks(self.judge.verdict(from)) {
            self.seen.see(from, mark);
        }
        Ok((answer, made))
    }
}

/// What the library left, by demand 1 alone: a refusal writes nowhere but for the session that H5
/// closes, and a RESPONSE other than 0 leaves the store.
fn demand_1(before: &World, after: &World, answer: i32, out: &[u8], got_out: &[u8]) -> Compared {
    if answer < 0 {
        buffers("output of a refusal", out, got_out)?;
    }
    if answer < 0 && answer != -i32::from(H5) {
        buffers("session of a refusal", &before.session, &after.session)?;
    }
    if answer <= 0 || got_out[RESPONSE_AT] != 0 {
        buffers("store with no RESPONSE 0", &before.store, &after.store)?;
    }
    Ok(())
}

/// What the library left at `end`, by demand 1 alone: a refusal writes nowhere.
pub fn demand_1_of_search(answer: i32, before: &EndBytes, after: &EndBytes) -> Compared {
    if answer < 0 {
        buffers("end of a refusal", before, after)?;
    }
    Ok(())
}

/// What stands at `end` before a search. No byte is 0, nor the one that is to be written there, so
/// that each byte that is written, or is not, is seen.
pub fn before_search(peer: u32, t: u32, end: EndBytes) -> EndBytes {
    Random::new(u64::from(peer) << 32 | u64::from(t)).unlike(end)
}

/// Puts the call's name beside a difference.
pub fn named(
    call: impl FnOnce() -> String,
    compared: impl FnOnce() -> Result<(), Difference>,
) -> Step {
    compared().map_err(|difference| Failure {
        call: call(),
        difference,
    })
}

/// The function, the session's state and what it remembers, the store's length and counts and the
/// start of the message, for whoever looks for the fault.
pub fn receive_call(before: &World, message: &[u8], out: usize) -> String {
    let head = hex(&message[..message.len().min(48)]);
    let (state, flag) = (before.session[0], before.session[REMEMBERED_AT]);
    let number = hex(&before.session[NUMBER_AT..UNUSED_AT]);
    let session = format!("state {state}, remembered {flag} {number}");
    let lent = format!("{}, output of {out} bytes", store_of(&before.store));
    let length = message.len();
    format!("kmac_receive, {session}, {lent}, message of {length} bytes, {head}")
}

pub fn find_call(store: &[u8], peer: u32, t: u32) -> String {
    let store = store_of(store);
    format!("kmac_find, {store}, peer {peer:08x}, t {t:08x}")
}

pub fn convert_call(target: Edition, from: &[u8], to: usize) -> String {
    let (number, from) = (target.number, store_of(from));
    format!("kmac_to_edition{number}, {from}, target of {to} bytes")
}

/// The length and the first bytes of a store: edition and counts stand there.
pub fn store_of(store: &[u8]) -> String {
    let head = hex(&store[..store.len().min(KEYS_AT)]);
    format!("store of {} bytes, {head}", store.len())
}

pub fn hex(bytes: &[u8]) -> String {
    bytes.iter().map(|byte| format!("{byte:02x}")).collect()
}
