//! Lists of requests with every RESULT in them, in one message and in as many as there are requests:
//! each is worked on the store left by the one before (document 01, "What each request does"), so
//! RESULTs and store are the same. So `unsound.rs` asks of the store after each request of a list.

use reference::message::kind;
use reference::store::{Entry, EDITIONS};

use crate::both::{named, receive_call, Both, Step, World};
use crate::compare::{buffers, numbers};
use crate::scene::{Scene, OUTPUT};
use crate::stores::other_digit;
use crate::wire::{self, RESULTS_AT};

pub fn all(both: &mut Both, seed: u64) -> Step {
    for edition in EDITIONS {
        for turn in 0..4 {
            let mut scene = Scene::new(edition, seed ^ (700 + turn));
            let keys = edition.keys_max - 2;
            let entries = scene.names.filled(&mut scene.random, keys, 3);
            for (kind, mut requests) in scene.lists(&entries) {
                for _ in 0..requests.len() {
                    requests.rotate_left(1);
                    in_both_ways(both, &scene.over(&entries), &scene, kind, &requests)?;
                }
            }
        }
    }
    Ok(())
}

impl Scene {
    /// A list of each kind for a store that has room for two keys and three peers. Whichever request
    /// comes first, some are done and some are not.
    fn lists(&mut self, entries: &[Entry]) -> [(u8, Vec<Vec<u8>>); 4] {
        let unknown = self.fresh(1).key;
        let (first, last) = (&entries[0], &entries[entries.len() - 1]);
        let mut even = self.fresh(1);
        even.kmac[self.random.below(24)] ^= 1;
        let held = Entry {
            key: last.key,
            ..self.fresh(1)
        };
        let other = other_digit(&mut self.random, self.names.own);
        let adds = vec![
            self.k_struct(1),
            wire::k_struct(&self.names.own, &even),
            wire::k_struct(&other, &self.fresh(1)),
            wire::k_struct(&self.names.own, &held),
            self.k_struct(4),
            self.k_struct(1),
            self.k_struct(1),
        ];
        let deletes = [first.key, unknown, last.key, first.key].map(|key| wire::k_identifier(&key));
        let validities = [first.key, unknown, last.key].map(|key| wire::k_validity(&key, 7, 6));
        let least = entries.iter().min_by_key(|entry| entry.peers.len());
        let least = least.expect("the store is nearly full");
        let more = self.names.peers(&mut self.random, least.peers.len() + 4);
        let entities = vec![
            wire::k_entities(&least.key, &more[1..]),
            wire::k_entities(&unknown, &more),
            wire::k_entities(&least.key, &more),
            wire::k_entities(&least.key, &more[..1]),
        ];
        [
            (kind::ADD_KEYS, adds),
            (kind::DELETE_KEYS, deletes.to_vec()),
            (kind::UPDATE_KEY_VALIDITIES, validities.to_vec()),
            (kind::UPDATE_KEY_ENTITIES, entities),
        ]
    }

    /// The RESULTs of a command with the number that the session expects.
    fn results(
        &self,
        both: &mut Both,
        world: &mut World,
        kind: u8,
        requests: &[Vec<u8>],
    ) -> Step<Vec<u8>> {
        let expected = u16::from_be_bytes([world.session[4], world.session[5]]);
        let header = self.header_with(expected);
        let message = wire::message(&header, kind, &wire::body(requests));
        let reply = both.receive(world, &message, &OUTPUT)?;
        Ok(reply.get(RESULTS_AT..).unwrap_or_default().to_vec())
    }
}

fn in_both_ways(
    both: &mut Both,
    before: &World,
    scene: &Scene,
    kind: u8,
    requests: &[Vec<u8>],
) -> Step {
    let (mut at_once, mut one_by_one) = (before.clone(), before.clone());
    let results = scene.results(both, &mut at_once, kind, requests)?;
    let mut each = Vec::new();
    for request in requests {
        let request = std::slice::from_ref(request);
        each.extend(scene.results(both, &mut one_by_one, kind, request)?);
    }
    let call = || {
        let message = scene.message(kind, &wire::body(requests));
        receive_call(before, &message, OUTPUT.len())
    };
    named(call, || {
        let (due, told) = (requests.len() as i64, results.len() as i64);
        numbers("number of RESULTs", due, told)?;
        buffers("RESULTs of one by one", &each, &results)?;
        buffers("store of one by one", &one_by_one.store, &at_once.store)
    })
}
