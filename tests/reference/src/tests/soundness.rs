//! Change request 9: each request leaves a sound store sound, whatever its RESULT. That each unsoundness is
//! answered 6 stands in `session.rs`.

use std::collections::BTreeSet;

use super::{entries, entry, k_entities, k_identifier, k_struct, k_struct_for, k_validity, peers};
use super::{Bench, CENTRE};
use crate::message::kind;
use crate::store::{Edition, Entry, EDITIONS};

/// A type and one request of it.
type Command = (u8, Vec<u8>);

/// Each type with each RESULT that it can have.
const RESULTS: [(u8, u8); 13] = [
    (kind::ADD_KEYS, 0),
    (kind::ADD_KEYS, 2),
    (kind::ADD_KEYS, 3),
    (kind::ADD_KEYS, 4),
    (kind::ADD_KEYS, 5),
    (kind::ADD_KEYS, 255),
    (kind::DELETE_KEYS, 0),
    (kind::DELETE_KEYS, 1),
    (kind::UPDATE_KEY_VALIDITIES, 0),
    (kind::UPDATE_KEY_VALIDITIES, 1),
    (kind::UPDATE_KEY_ENTITIES, 0),
    (kind::UPDATE_KEY_ENTITIES, 1),
    (kind::UPDATE_KEY_ENTITIES, 255),
];

/// Room for one key and two peers: most records have none, and the third has nearly all.
fn nearly_full(edition: Edition) -> Vec<Entry> {
    let mut peer_counts = vec![0; edition.keys_max - 1];
    peer_counts[..3].copy_from_slice(&[1, 2, edition.peers_max - 5]);
    entries(&peer_counts)
}

/// Requests of every kind, of which each RESULT is met in some order: keys 601 to 603 are new.
fn commands() -> Vec<Command> {
    let mut even = entry(603, 1);
    even.kmac[23] ^= 1;
    let add = |structure| (kind::ADD_KEYS, structure);
    let delete = |number| (kind::DELETE_KEYS, k_identifier(number));
    let entities = |count| {
        let structure = k_entities(1, &peers(700, count));
        (kind::UPDATE_KEY_ENTITIES, structure)
    };
    vec![
        add(k_struct(&entry(601, 1))),
        add(k_struct(&entry(602, 1))),
        add(k_struct(&entry(603, 3))),
        add(k_struct(&even)),
        add(k_struct_for(CENTRE, &entry(603, 1))),
        delete(1),
        delete(3),
        (kind::UPDATE_KEY_VALIDITIES, k_validity(1, 9, 8)),
        entities(1),
        entities(5),
    ]
}

/// All lists of two requests over a store, each in a message of its own; two of one type in one message give
/// the same RESULTs and the same store. `work` asserts RESPONSE 0, and `entries` that the store is sound.
/// Gives the RESULTs that were met.
fn assert_lists(edition: Edition, start: &[Entry]) -> BTreeSet<(u8, u8)> {
    let mut met = BTreeSet::new();
    for (kind, first) in commands() {
        let mut bench = Bench::new(edition, start);
        let of_first = bench.work(kind, &[first.clone()])[0];
        bench.entries();
        let after_first = (bench.session, bench.store.clone());
        for (next_kind, second) in commands() {
            (bench.session, bench.store) = after_first.clone();
            let of_second = bench.work(next_kind, &[second.clone()])[0];
            bench.entries();
            met.extend([(kind, of_first), (next_kind, of_second)]);
            if kind == next_kind {
                let mut at_once = Bench::new(edition, start);
                let results = at_once.work(kind, &[first.clone(), second]);
                assert_eq!(results, [of_first, of_second]);
                assert_eq!(at_once.store, bench.store);
            }
        }
    }
    met
}

#[test]
fn all_short_lists() {
    for edition in EDITIONS {
        assert_lists(edition, &[]);
        assert_lists(edition, &entries(&[1, 2, 3]));
        let met = assert_lists(edition, &nearly_full(edition));
        assert_eq!(met, BTreeSet::from(RESULTS));
    }
}
