//! Pairs of runs on the library that differ in KMAC bytes only (document 01, "Demand 3's runs").
//! Answers, outputs and sessions are the same, and the stores differ as the tally says. The
//! second program has no part in this.

use reference::message::{body, kind};
use reference::session::OPEN;
use reference::store::Edition;

use crate::both::{before_search, demand_1_of_search, find_call, named, receive_call};
use crate::both::{Step, World};
use crate::chain::Chain;
use crate::compare::{buffers, numbers, Compared};
use crate::coverage::{Call, Coverage, Mark};
use crate::generator::{Action, Generator};
use crate::layout::{held, kmac_at};
use crate::library::Library;
use crate::repeated::{begun_keeps_the_rule, Exchange};
use crate::scene::{Scene, OUTPUT};
use crate::sessions::start;
use crate::tally::Tally;
use crate::unsound::{search_keeps_the_rule, Judge};
use crate::wire::{self, structs_at, HEADER, KMAC_IN_STRUCT, KMAC_LENGTH};
use crate::wire::{RESULTS_AT, TYPE_AT};
use reference::random::Random;

pub struct Pairs {
    library: Library,
    pub calls: u64,
    pub seen: Coverage,
    chain: Chain,
    /// One for each run, whose stores differ in KMACs.
    judges: [Judge; 2],
}

/// Two worlds and what the tally says of their stores.
struct Runs {
    first: World,
    second: World,
    tally: Tally,
}

impl Pairs {
    pub fn new() -> Pairs {
        Pairs {
            library: Library::new(),
            calls: 0,
            seen: Coverage::default(),
            chain: Chain::default(),
            judges: Default::default(),
        }
    }

    /// One list of calls from its own seed, run twice.
    pub fn pair(&mut self, seed: u64, steps: usize) -> Step {
        let mut generator = Generator::new(seed);
        let first = start(&mut generator);
        let mut second = first.clone();
        let places: Vec<usize> = (0..held(&second.store)).map(kmac_at).collect();
        vary(&mut generator.random, &mut second.store, &places);
        let tally = Tally::new(&first.store, &second.store);
        let mut runs = Runs {
            first,
            second,
            tally,
        };
        for _ in 0..steps {
            let out = generator.output();
            match generator.action(&runs.first) {
                Action::Begin { identities, number } => {
                    self.begin(&mut runs, identities, number, &out)?
                }
                Action::Message(message) => {
                    let other = alike(&mut generator.random, &message);
                    self.receive(&mut runs, &message, &other, &out)?;
                }
                Action::Find { peer, t } => self.find(&runs, peer, t)?,
            }
        }
        Ok(())
    }

    fn begin(&mut self, runs: &mut Runs, identities: (u32, u32), number: u16, out: &[u8]) -> Step {
        self.calls += 2;
        let before = runs.first.session;
        let (mut out_1, mut out_2) = (out.to_vec(), out.to_vec());
        let (first, second) = (&mut runs.first.session, &mut runs.second.session);
        let answer_1 = self.library.begin(identities, number, first, &mut out_1);
        let answer_2 = self.library.begin(identities, number, second, &mut out_2);
        if let Ok(answer) = answer_1 {
            self.seen.answer(Call::Begin, answer);
            if answer >= 0 {
                self.chain.begun(&before, &runs.first.session);
            }
        }
        named(
            || "kmac_begin in two runs".into(),
            || {
                let answer = answer_1?;
                numbers("answer", answer.into(), answer_2?.into())?;
                buffers("output", &out_1, &out_2)?;
                if answer >= 0 {
                    begun_keeps_the_rule(&runs.first.session)?;
                }
                runs.compare()
            },
        )
    }

    fn receive(&mut self, runs: &mut Runs, message: &[u8], other: &[u8], out: &[u8]) -> Step {
        self.calls += 2;
        if message != other {
            self.seen.see(&runs.first.store, Mark::OtherKmacs);
        }
        let (before, before_2) = (runs.first.clone(), runs.second.clone());
        let (mut out_1, mut out_2) = (out.to_vec(), out.to_vec());
        let World { session, store } = &mut runs.first;
        let answer_1 = self.library.receive(session, message, store, &mut out_1);
        let World { session, store } = &mut runs.second;
        let answer_2 = self.library.receive(session, other, store, &mut out_2);
        let exchange = |answer| Exchange {
            before: &before.session,
            message,
            answer,
            out: &out_1,
            after: &runs.first.session,
        };
        if let Ok(answer) = answer_1 {
            self.seen.received(&before.store, message, answer, &out_1);
            for mark in self.chain.received(&exchange(answer), &before.store) {
                self.seen.see(&before.store, mark);
            }
            let length = usize::try_from(answer).unwrap_or(0);
            let reply = out_1.get(..length).unwrap_or_default();
            runs.tally.take(message, other, reply);
        }
        if runs.tally.has_unlike() {
            self.seen.see(&before.store, Mark::HeldUnlike);
        }
        let call = || format!("two runs, {}", receive_call(&before, message, out.len()));
        named(call, || {
            let answer = answer_1?;
            numbers("answer", answer.into(), answer_2?.into())?;
            buffers("output", &out_1, &out_2)?;
            exchange(answer).keeps_the_rule()?;
            let [judge_1, judge_2] = &mut self.judges;
            let stores = [&before.store[..], &runs.first.store];
            judge_1.message(exchange(answer), stores).keeps_the_rule()?;
            let second = Exchange {
                before: &before_2.session,
                message: other,
                answer,
                out: &out_2,
                after: &runs.second.session,
            };
            let stores = [&before_2.store[..], &runs.second.store];
            judge_2.message(second, stores).keeps_the_rule()?;
            runs.compare()
        })
    }

    fn find(&mut self, runs: &Runs, peer: u32, t: u32) -> Step {
        self.calls += 2;
        let (first, second) = (&runs.first.store, &runs.second.store);
        // Unlike in the two runs, so that an end that is not written is not alike.
        let before_1 = before_search(peer, t, [0; 4]);
        let before_2 = before_search(peer, t, before_1);
        let (mut end_1, mut end_2) = (before_1, before_2);
        let answer_1 = self.library.find(first, peer, t, &mut end_1);
        let answer_2 = self.library.find(second, peer, t, &mut end_2);
        if let Ok(answer) = answer_1 {
            self.seen.found(first, peer, t, answer);
        }
        let call = || format!("two runs, {}", find_call(first, peer, t));
        named(call, || {
            let answer = answer_1?;
            numbers("answer", answer.into(), answer_2?.into())?;
            demand_1_of_search(answer, &before_1, &end_1)?;
            demand_1_of_search(answer, &before_2, &end_2)?;
            for (judge, store) in self.judges.iter_mut().zip([first, second]) {
                search_keeps_the_rule(judge.verdict(store), answer)?;
            }
            match answer {
                0.. => buffers("end", &end_1, &end_2),
                _ => Ok(()),
            }
        })
    }

    /// A control: a KMAC byte of other parity in the second run is seen in its reply, for every
    /// bit of the KMAC.
    pub fn other_parity_is_seen(&mut self, edition: Edition, seed: u64) -> Step {
        let mut scene = Scene::new(edition, seed ^ 51);
        let request = scene.k_struct(1);
        let message = scene.message(kind::ADD_KEYS, &wire::body(&[request]));
        for bit in 0..8 * KMAC_LENGTH {
            let mut other = message.clone();
            other[HEADER + 2 + KMAC_IN_STRUCT + bit / 8] ^= 1 << (bit % 8);
            self.add_gives(&scene, &message, 0)?;
            self.add_gives(&scene, &other, 4)?;
        }
        Ok(())
    }

    /// An add of one key is answered with this RESULT.
    fn add_gives(&mut self, scene: &Scene, message: &[u8], result: u8) -> Step {
        self.calls += 1;
        let before = scene.world(OPEN);
        let World {
            mut session,
            mut store,
        } = before.clone();
        let mut out = OUTPUT;
        let answer = self
            .library
            .receive(&mut session, message, &mut store, &mut out);
        let call = || receive_call(&before, message, OUTPUT.len());
        named(call, || {
            let answer = answer?;
            numbers("answer", 24, answer.into())?;
            numbers("RESULT", result.into(), out[RESULTS_AT].into())?;
            let exchange = Exchange {
                before: &before.session,
                message,
                answer,
                out: &out,
                after: &session,
            };
            let stores = [&before.store[..], &store];
            self.judges[0].message(exchange, stores).keeps_the_rule()
        })
    }
}

impl Runs {
    fn compare(&self) -> Compared {
        buffers("session", &self.first.session, &self.second.session)?;
        self.tally.holds(&self.first.store, &self.second.store)
    }
}

/// A well-formed add command with other KMACs, each byte of its old parity; any other message
/// as it is.
fn alike(random: &mut Random, message: &[u8]) -> Vec<u8> {
    let mut other = message.to_vec();
    if is_well_formed_add(message) {
        let fields = structs_at(message)
            .into_iter()
            .map(|at| at + KMAC_IN_STRUCT);
        vary(random, &mut other, &fields.collect::<Vec<_>>());
    }
    other
}

fn is_well_formed_add(message: &[u8]) -> bool {
    message.len() >= HEADER
        && message[TYPE_AT] == kind::ADD_KEYS
        && body(kind::ADD_KEYS, &message[HEADER..]).is_some()
}

/// Changes about half of the KMACs at the places: one byte, or all bytes, two bits each.
pub fn vary(random: &mut Random, bytes: &mut [u8], places: &[usize]) {
    for &at in places {
        match random.below(4) {
            0 => {
                let byte = at + random.below(KMAC_LENGTH);
                flip_two(random, &mut bytes[byte]);
            }
            1 => bytes[at..at + KMAC_LENGTH]
                .iter_mut()
                .for_each(|byte| flip_two(random, byte)),
            _ => {}
        }
    }
}

fn flip_two(random: &mut Random, byte: &mut u8) {
    let bit = random.below(8);
    let other = (bit + random.between(1, 7)) % 8;
    *byte ^= 1 << bit | 1 << other;
}
