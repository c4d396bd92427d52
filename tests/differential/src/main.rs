//! Compares libkmac.a with the second program, byte for byte: each call's answer, the session or connection,
//! the store and the output, with guards around every lent buffer.
//!
//! First systematic tests over stores of both editions, then rounds of random sequences and of
//! pairs of runs, each over one edition. It stops at the first difference, and fails too where an
//! answer that the papers can give was never seen in one of the editions.

mod both;
mod chain;
mod compare;
mod connect;
mod connected;
mod connections;
mod conversations;
mod convert;
mod converted;
mod coverage;
mod crafted;
mod damage;
mod edges;
mod events;
mod exchanges;
mod faults;
mod generator;
mod incoming;
mod latest;
mod layout;
mod lent;
mod library;
mod limits;
mod lists;
#[cfg(test)]
mod made;
mod model;
mod options;
mod pairs;
mod parties;
mod periods;
mod repeated;
mod scene;
mod search;
mod serials;
mod sessions;
mod soundness;
mod squares;
mod starts;
mod stores;
mod table;
mod tally;
mod transactions;
mod units;
mod unsound;
mod wire;

use std::process::ExitCode;
use std::time::{Duration, Instant};

use both::{Both, Failure, Step};
use coverage::{of_connections, of_conversions, of_pairs, of_sessions, of_units};
use coverage::{Coverage, Seen};
use options::Options;
use pairs::Pairs;
use reference::store::{EDITIONS, EDITION_2};

/// Calls of a random sequence, and of each run of a pair.
const STEPS: usize = 400;
/// Events of a round between two sides of a connection.
const EVENTS: usize = 120;
/// Rounds of the gate.
const ROUNDS: u64 = 3000;

fn main() -> ExitCode {
    let Some(options) = Options::read(std::env::args().skip(1)) else {
        eprintln!("usage: differential [--seed S] [--seconds N]");
        return ExitCode::from(2);
    };
    let mut tests = Tests::new(options.seed);
    let compared = tests
        .systematic()
        .and_then(|()| tests.rounds(options.seconds));
    match compared {
        Ok(()) => tests.conclude(),
        Err(failure) => {
            tests.tell(&failure);
            ExitCode::FAILURE
        }
    }
}

struct Tests {
    seed: u64,
    round: u64,
    systematic: Both,
    random: Both,
    pairs: Pairs,
}

impl Tests {
    fn new(seed: u64) -> Tests {
        Tests {
            seed,
            round: 0,
            systematic: Both::new(),
            random: Both::new(),
            pairs: Pairs::new(),
        }
    }

    fn systematic(&mut self) -> Step {
        let (both, seed) = (&mut self.systematic, self.seed);
        edges::all(both, seed)?;
        transactions::all(both, seed)?;
        limits::all(both, seed)?;
        soundness::all(both, seed)?;
        serials::all(both, seed)?;
        search::all(both, seed)?;
        periods::all(both, seed)?;
        latest::all(both, seed)?;
        convert::all(both, seed)?;
        units::all(both, seed)?;
        lists::all(both, seed)?;
        connect::all(both, seed)?;
        starts::all(both, seed)?;
        conversations::all(both, seed)?;
        for edition in EDITIONS {
            self.pairs.other_parity_is_seen(edition, seed)?;
        }
        Ok(())
    }

    /// Round r of seed S is the first round of seed S + r.
    fn rounds(&mut self, seconds: Option<u64>) -> Step {
        let started = Instant::now();
        let is_over = |round| match seconds {
            None => round >= ROUNDS,
            Some(seconds) => started.elapsed() >= Duration::from_secs(seconds),
        };
        while !is_over(self.round) {
            let seed = self.seed.wrapping_add(self.round);
            sessions::sequence(&mut self.random, seed, STEPS)?;
            self.pairs.pair(!seed, STEPS)?;
            units::some(&mut self.random, seed)?;
            exchanges::sequence(&mut self.random, seed, EVENTS)?;
            self.round += 1;
        }
        Ok(())
    }

    fn calls(&self) -> u64 {
        self.systematic.calls + self.random.calls + self.pairs.calls
    }

    fn tell(&self, failure: &Failure) {
        let (round, calls) = (self.round, self.calls());
        let seed = self.seed.wrapping_add(round);
        println!("differential: {}", failure.difference);
        println!("differential: at {}", failure.call);
        println!("differential: call {calls}, round {round}; first round of --seed {seed}");
    }

    /// The summary; a failure where an answer was never seen.
    fn conclude(&self) -> ExitCode {
        let all = [
            of_sessions(),
            of_units(),
            of_conversions(),
            of_connections(),
        ]
        .concat();
        let part = |name, seen, required, runs| Part {
            name,
            seen,
            required,
            runs,
        };
        let parts = [
            part("systematic tests", &self.systematic.seen, all.clone(), 1),
            part("random sequences", &self.random.seen, all, 1),
            part("pairs of runs", &self.pairs.seen, of_pairs(), 2),
        ];
        let blind: Vec<String> = parts.iter().filter_map(Part::blind_spots).collect();
        if !blind.is_empty() {
            println!(
                "differential: seed {}: never seen: {}",
                self.seed,
                blind.join("; ")
            );
            return ExitCode::FAILURE;
        }
        println!(
            "differential: seed {}: {} systematic calls, {} in random sequences, {} in pairs of runs, no difference",
            self.seed, self.systematic.calls, self.random.calls, self.pairs.calls
        );
        parts.iter().for_each(Part::tell);
        ExitCode::SUCCESS
    }
}

/// What one part of the test saw, and what it must see.
struct Part<'a> {
    name: &'a str,
    seen: &'a Coverage,
    required: Vec<Seen>,
    /// Calls for each answer that was seen.
    runs: u64,
}

impl Part<'_> {
    fn blind_spots(&self) -> Option<String> {
        let missing = self.seen.missing(&self.required);
        let names: Vec<String> = missing.iter().map(Seen::to_string).collect();
        (!names.is_empty()).then(|| format!("in {} {}", self.name, names.join(", ")))
    }

    fn tell(&self) {
        let (name, summary) = (self.name, self.seen.summary(&self.required));
        let calls = self.runs * self.seen.calls_over(EDITION_2);
        println!("differential: {name}: {summary}; {calls} calls over stores of edition 2");
    }
}
