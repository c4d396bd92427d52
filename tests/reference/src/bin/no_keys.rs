//! Says whether a byte of a key shows in what the console wrote: `no_keys INPUT OUTPUT`.
//!
//! Looks for every four bytes in a row of each KMAC that the input adds or stores, and of each
//! session key that the input derives, as hex digits in the output. Each AU2 and AU3 in the output
//! must be one that these session keys make, so that no connection's is left out.

use reference::authentication::session_keys;
use reference::hex::encode;
use reference::message::{body, kind, Body, Header, HEADER_LENGTH};
use reference::setup::units::{au2, au3, read_au1, session_key};
use reference::setup::Connection;
use reference::store::{Edition, Request, KEYS_AT, RECORD_LENGTH};
use reference::Identity;
use std::collections::HashSet;

type Key = [u8; 24];
type Random = [u8; 8];

/// A record's KMAC stands behind issuer and serial (01, "The key store").
const KMAC_AT: usize = 8;
/// Where an AU2 has RA (002, Table 9).
const RA_AT: usize = 5;

fn main() {
    let mut names = std::env::args().skip(1);
    let (Some(input), Some(output)) = (names.next(), names.next()) else {
        eprintln!("no_keys INPUT OUTPUT");
        std::process::exit(2);
    };
    let read = |name: &String| std::fs::read_to_string(name).expect("the file can be read");
    let (lines, text) = (read(&input), read(&output));
    let keys = keys_of(&lines);
    let shown = pieces_shown(&keys, &text);
    let units = units_of(&text);
    let unknown = unknown_of(&units, &lines);
    println!(
        "{output}: {} keys, {shown} pieces of them shown; {} units of set-up, {unknown} under no such key",
        keys.len(),
        units.len()
    );
    if keys.is_empty() || shown > 0 || unknown > 0 {
        std::process::exit(1);
    }
}

/// Each KMAC of the input, and each session key made of one with random numbers of the input.
fn keys_of(input: &str) -> Vec<Key> {
    let kmacs = kmacs_of(input);
    let numbers = input.lines().filter_map(numbers_of);
    let derived = numbers.flat_map(|(ra, rb)| {
        let keys = |kmac: &Key| session_keys(kmac, &ra, &rb).ok();
        kmacs.iter().filter_map(keys).collect::<Vec<Key>>()
    });
    let mut keys: Vec<Key> = derived
        .chain(connections_of(input).iter().map(|side| side.key))
        .chain(kmacs.iter().copied())
        .collect();
    keys.sort_unstable();
    keys.dedup();
    keys
}

fn kmacs_of(input: &str) -> Vec<Key> {
    let mut kmacs: Vec<Key> = input.lines().flat_map(added_or_stored).collect();
    kmacs.sort_unstable();
    kmacs.dedup();
    kmacs
}

/// The KMACs that a line adds or stores.
fn added_or_stored(line: &str) -> Vec<Key> {
    let words: Vec<&str> = line.split_whitespace().collect();
    match words[..] {
        ["message", digits] => added(&bytes(digits)),
        ["store", digits] => stored(&bytes(digits)),
        _ => Vec::new(),
    }
}

/// The KMACs of a store of either edition, sound or not: what stands at a record's place with odd parity.
fn stored(store: &[u8]) -> Vec<Key> {
    let Some(edition) = Edition::of_length(store.len()) else {
        return Vec::new();
    };
    let is_odd = |key: &Key| key.iter().all(|byte| byte.count_ones() % 2 == 1);
    store[KEYS_AT..edition.peers_at()]
        .chunks(RECORD_LENGTH)
        .filter_map(|record| record[KMAC_AT..].first_chunk().copied())
        .filter(is_odd)
        .collect()
}

fn added(message: &[u8]) -> Vec<Key> {
    let is_add = Header::read(message).is_some_and(|header| header.kind == kind::ADD_KEYS);
    if !is_add {
        return Vec::new();
    }
    let Some(Body::Requests(requests)) = body(kind::ADD_KEYS, &message[HEADER_LENGTH..]) else {
        return Vec::new();
    };
    let kmac = |request| match request {
        Request::Add { entry, .. } => Some(entry.kmac),
        _ => None,
    };
    requests.into_iter().filter_map(kmac).collect()
}

/// The random numbers of a line that derives session keys.
fn numbers_of(line: &str) -> Option<(Random, Random)> {
    let words: Vec<&str> = line.split_whitespace().collect();
    let ["keys", _, ra, rb] = words[..] else {
        return None;
    };
    Some((array(ra)?, array(rb)?))
}

/// What the lines so far tell of one of the console's connections.
#[derive(Default)]
struct Side {
    own: Identity,
    /// Peer and RB of each call since the connection was made idle: which was taken is not asked.
    calls: Vec<(Identity, Random)>,
}

/// Each connection that the input can set up, under the session key of each KMAC.
fn connections_of(input: &str) -> Vec<Connection> {
    let kmacs = kmacs_of(input);
    let mut sides = <[Side; 2]>::default();
    let set_ups = input
        .lines()
        .flat_map(|line| set_ups_of(line, &mut sides).unwrap_or_default());
    set_ups
        .flat_map(|side| {
            let under = |kmac| Connection {
                key: session_key(kmac, &side.ra, &side.rb),
                ..side
            };
            kmacs.iter().map(under).collect::<Vec<Connection>>()
        })
        .collect()
}

/// The connections, without a key, that a line gives both random numbers of.
fn set_ups_of(line: &str, sides: &mut [Side; 2]) -> Option<Vec<Connection>> {
    let words: Vec<&str> = line.split_whitespace().collect();
    let names = ["a", "b"];
    let side = &mut sides[names.iter().position(|name| words.get(1) == Some(name))?];
    let set_up = |responder, (peer, rb), ra| Connection {
        responder,
        own: side.own,
        peer,
        ra,
        rb,
        ..Connection::NONE
    };
    match words[..] {
        ["connection", _, own] => {
            *side = Side {
                own: array(own)?,
                calls: Vec::new(),
            };
            None
        }
        ["call", _, peer, _, rb] => {
            side.calls.push((array(peer)?, array(rb)?));
            None
        }
        ["indicate", _, _, ra, unit] => {
            let caller = read_au1(&bytes(unit)).ok()?;
            Some(vec![set_up(true, caller, array(ra)?)])
        }
        ["confirm", _, unit] => {
            let ra = *bytes(unit).get(RA_AT..)?.first_chunk()?;
            let called = |&call| set_up(false, call, ra);
            Some(side.calls.iter().map(called).collect())
        }
        _ => None,
    }
}

/// Each AU2 and AU3 that the console sent: a session key was made for it.
fn units_of(output: &str) -> Vec<&str> {
    output
        .lines()
        .filter_map(|line| {
            line.strip_prefix("T-CONN.resp AU2 ")
                .or(line.strip_prefix("AU3 "))
        })
        .collect()
}

/// How many of these units are none that a connection of the input sends.
fn unknown_of(units: &[&str], input: &str) -> usize {
    let sent = |side: &Connection| match side.responder {
        true => encode(&au2(side)),
        false => encode(&au3(side)),
    };
    let known: HashSet<String> = connections_of(input).iter().map(sent).collect();
    units.iter().filter(|unit| !known.contains(**unit)).count()
}

fn array<const N: usize>(digits: &str) -> Option<[u8; N]> {
    bytes(digits).try_into().ok()
}

/// The bytes of a text in hex; none where it is no such text.
fn bytes(digits: &str) -> Vec<u8> {
    let pair = |i| u8::from_str_radix(digits.get(i..i + 2)?, 16).ok();
    let all: Option<Vec<u8>> = (0..digits.len()).step_by(2).map(pair).collect();
    all.unwrap_or_default()
}

/// How many pieces of four bytes of the keys stand in the output, in either case.
fn pieces_shown(keys: &[Key], output: &str) -> usize {
    let text = output.to_ascii_lowercase();
    keys.iter()
        .flat_map(|key| key.windows(4))
        .filter(|piece| text.contains(&encode(piece)))
        .count()
}

#[cfg(test)]
mod tests {
    use super::*;
    use reference::store::encode as encode_store;
    use reference::store::{Entry, KeyIdentifier, EDITIONS};

    const INPUT: &str = include_str!("../../../../examples/update.txt");
    const OUTPUT: &str = include_str!("../../../../examples/update.out");

    const DEPOT: &str = include_str!("../../../../examples/depot.txt");
    const CONVERT: &str = include_str!("../../../../examples/convert.txt");
    const YARDS: &str = include_str!("../../../../examples/yards.txt");
    const YARDS_SAID: &str = include_str!("../../../../examples/yards.out");

    #[test]
    fn keys_are_found() {
        // Serials 1 to 4, one of them with a byte of even parity, and a session key of each.
        assert_eq!(keys_of(INPUT).len(), 8);
        // 75 keys, which edition 1 would not take, and a session key of each.
        assert_eq!(keys_of(DEPOT).len(), 150);
        // 65 keys, one more than edition 1 takes, and a session key of each.
        assert_eq!(keys_of(CONVERT).len(), 130);
        // Two keys, each with one pair of random numbers that is held and four of connections: the
        // second AU2 meets the numbers of three calls.
        assert_eq!(keys_of(YARDS).len(), 12);
    }

    /// The session keys that the console makes are those that are looked for.
    #[test]
    fn every_set_up_is_known() {
        let units = units_of(YARDS_SAID);
        assert_eq!(units.len(), 4);
        assert_eq!(unknown_of(&units, YARDS), 0);
        // Without the lines of one side, or a byte that they bring, its units are told.
        for (told, unknown) in [("indicate", 2), ("call", 2), ("confirm", 2), ("message", 4)] {
            let others = |line: &&str| !line.starts_with(told);
            let input: Vec<&str> = YARDS.lines().filter(others).collect();
            assert_eq!(unknown_of(&units, &input.join("\n")), unknown, "{told}");
        }
        let input = YARDS.replace("e6e7", "e6e8");
        assert_eq!(unknown_of(&units, &input), 2);
    }

    #[test]
    fn keys_of_either_edition_are_found_in_a_store() {
        for edition in EDITIONS {
            let entries: Vec<Entry> = (0..edition.keys_max).map(entry).collect();
            let mut store = encode_store(edition, &entries);
            let kmacs: Vec<Key> = entries.iter().map(|entry| entry.kmac).collect();
            assert_eq!(stored(&store), kmacs);
            // The number of the other edition: unsound, and its keys count all the same.
            store[1] = 3 - store[1];
            assert_eq!(stored(&store), kmacs);
            let lines = format!("edition {}\nstore {}\n", edition.number, encode(&store));
            assert_eq!(keys_of(&lines).len(), entries.len());
            assert_eq!(stored(&encode_store(edition, &[])), [[0; 24]; 0]);
        }
        assert_eq!(stored(&[0; 12]), [[0; 24]; 0]);
    }

    /// Each number has a KMAC of its own.
    fn entry(number: usize) -> Entry {
        let odd = |n: usize| 2 * n as u8 + u8::from(n.count_ones() % 2 == 0);
        let mut kmac = [1; 24];
        kmac[0] = odd(number % 128);
        kmac[23] = odd(number / 128);
        Entry {
            key: KeyIdentifier {
                issuer: [5; 4],
                serial: (number as u32).to_be_bytes(),
            },
            kmac,
            start: 0,
            end: 1,
            peers: vec![[9; 4]],
        }
    }

    #[test]
    fn a_piece_is_found() {
        for (input, output) in [(INPUT, OUTPUT), (YARDS, YARDS_SAID)] {
            assert_eq!(pieces_shown(&keys_of(input), output), 0);
            for key in keys_of(input) {
                let doctored = format!("{output}unit {}\n", encode(&key[20..]).to_uppercase());
                assert!(pieces_shown(&keys_of(input), &doctored) > 0);
            }
        }
    }
}
