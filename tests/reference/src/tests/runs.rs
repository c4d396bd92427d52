//! Long runs of right and damaged messages, from a fixed seed: what demand 1 says holds
//! after each, and the store stays sound. Pairs of runs show what demand 3 says.

use std::collections::{BTreeMap, BTreeSet};

use super::{entry, full, identifier, k_entities, k_identifier, k_struct, k_validity, message};
use super::{numbered, peers, requests, Bench, CENTRE, OWN, TYPE_AT};
use crate::message::kind;
use crate::session::{begin, Answer, Session, OPEN};
use crate::store::{decode, find, Edition, Entry, KeyIdentifier, EDITIONS};

/// A linear congruential generator (the constants of MMIX), and how many numbers keys have.
struct Random {
    state: u64,
    numbers: usize,
}

impl Random {
    /// A quarter more numbers than the edition takes keys, so that a store fills.
    fn new(seed: u64, edition: Edition) -> Random {
        Random {
            state: seed,
            numbers: edition.keys_max + edition.keys_max / 4,
        }
    }

    /// A number below `limit`.
    fn below(&mut self, limit: usize) -> usize {
        let next = self.state.wrapping_mul(6364136223846793005);
        self.state = next.wrapping_add(1442695040888963407);
        (self.state >> 33) as usize % limit
    }

    fn number(&mut self) -> u32 {
        self.below(self.numbers) as u32
    }

    /// One number in eight is the one that the session has, and one is 0 or 1.
    fn transaction(&mut self, session: &Session) -> u32 {
        match self.below(8) {
            0 => session.transaction,
            1 => self.below(2) as u32,
            _ => self.below(1 << 31) as u32,
        }
    }

    fn command(&mut self, session: &Session) -> Vec<u8> {
        let transaction = self.transaction(session);
        let message = |kind, body: &[u8]| numbered(transaction, kind, session.expected, body);
        let kind = self.below(5) as u8;
        if kind == kind::DELETE_ALL_KEYS && self.below(10) > 0 {
            return message(200, &[]);
        }
        if kind == kind::DELETE_ALL_KEYS {
            return message(kind, &[]);
        }
        let count = 1 + self.below(9);
        let structures: Vec<Vec<u8>> = (0..count).map(|_| self.structure(kind)).collect();
        message(kind, &requests(&structures))
    }

    fn structure(&mut self, kind: u8) -> Vec<u8> {
        let number = self.number();
        match kind {
            kind::ADD_KEYS => k_struct(&entry(number, 1 + self.below(7))),
            kind::DELETE_KEYS => k_identifier(number),
            kind::UPDATE_KEY_VALIDITIES => k_validity(number, self.number(), self.number()),
            _ => k_entities(number, &peers(number, 1 + self.below(9))),
        }
    }

    /// Changes a bit, or cuts the message short, or leaves it.
    fn damage(&mut self, message: &mut Vec<u8>) {
        match self.below(4) {
            0 => {
                let at = self.below(message.len());
                message[at] ^= 1 << self.below(8);
            }
            1 => message.truncate(self.below(message.len())),
            _ => {}
        }
    }
}

/// Brings one message and asserts what must stay as it was.
fn assert_untouched(bench: &mut Bench, message: &[u8]) -> Answer {
    let store = bench.store.clone();
    let out = bench.out.clone();
    let answer = bench.receive(message);
    let written = match answer {
        Answer::Reply(length) => length,
        _ => 0,
    };
    assert_eq!(bench.out[written..], out[written..]);
    if written == 0 || bench.out[20] != 0 {
        assert_eq!(bench.store, store);
    }
    assert!(decode(&bench.store).is_some());
    answer
}

#[test]
fn damaged_messages_change_no_more_than_they_may() {
    for edition in EDITIONS {
        let mut random = Random::new(1, edition);
        let mut bench = Bench::new(edition, &[]);
        let mut responses = BTreeMap::new();
        for _ in 0..2300 {
            bench.session.state = OPEN;
            let mut message = random.command(&bench.session);
            random.damage(&mut message);
            if let Answer::Reply(_) = assert_untouched(&mut bench, &message) {
                *responses.entry(bench.out[20]).or_insert(0) += 1;
            }
        }
        let met: Vec<u8> = responses.keys().copied().collect();
        assert_eq!(met, [0, 1, 2, 3, 4, 5, 9, 10, 11]);
        assert!(responses[&0] > 1000);
        assert!(responses[&10] > 100);
    }
}

/// The RESULT that 01 gives an add (with a peer count) or a delete of one key.
fn expected_result(
    edition: Edition,
    held: &[Entry],
    number: u32,
    added_peers: Option<usize>,
) -> u8 {
    let is_held = held.iter().any(|entry| entry.key == identifier(number));
    let used: usize = held.iter().map(|entry| entry.peers.len()).sum();
    match added_peers {
        None => u8::from(!is_held),
        Some(_) if is_held => 3,
        Some(_) if held.len() == edition.keys_max => 2,
        Some(count) if used + count > edition.peers_max => 255,
        Some(_) => 0,
    }
}

#[test]
fn both_limits_are_met_in_a_long_run() {
    for edition in EDITIONS {
        assert_both_limits_met(edition);
    }
}

/// Starts with a store that is nearly full. Added keys have so many peers on the average that now the one
/// limit is met first and now the other.
fn assert_both_limits_met(edition: Edition) {
    let held = edition.keys_max * 7 / 8;
    let most_peers = 2 * edition.peers_max / edition.keys_max - 1;
    let mut random = Random::new(2, edition);
    let mut bench = Bench::new(edition, &full(edition)[..held]);
    let mut seen = BTreeSet::new();
    for _ in 0..1000 {
        let number = random.number();
        let added_peers = (random.below(8) > 0).then(|| 1 + random.below(most_peers));
        let before = bench.entries();
        let results = match added_peers {
            Some(count) => bench.add(&[entry(number, count)]),
            None => bench.delete(&[number]),
        };
        let expected = expected_result(edition, &before, number, added_peers);
        assert_eq!(results, [expected]);
        if results != [0] {
            assert_eq!(bench.entries(), before);
        }
        seen.insert(results[0]);
    }
    assert_eq!(seen, BTreeSet::from([0, 1, 2, 3, 255]));
}

/// A key and whether its KMAC differs in the two runs (01, "Demand 3's runs").
type Tag = (KeyIdentifier, bool);

/// A message of each run, and what it asks: the keys of its requests, and whether their KMACs differ.
struct Pair {
    messages: [Vec<u8>; 2],
    asked: Vec<Tag>,
}

impl Random {
    /// The same entry with another KMAC, each byte of the same parity.
    fn unlike(&mut self, entry: &Entry) -> Entry {
        let mut other = entry.clone();
        other.kmac[self.below(24)] ^= 3 << self.below(7);
        other
    }

    /// An add or a delete most often.
    fn pair(&mut self, session: &Session) -> Pair {
        let transaction = self.transaction(session);
        let kind = match self.below(40) {
            0 => kind::DELETE_ALL_KEYS,
            1 => kind::END_OF_UPDATE,
            2 => kind::SESSION_INIT,
            n if n % 3 == 0 => kind::DELETE_KEYS,
            _ => kind::ADD_KEYS,
        };
        let mut asked = Vec::new();
        let mut bodies = [Vec::new(), Vec::new()];
        if kind == kind::ADD_KEYS || kind == kind::DELETE_KEYS {
            let mut lists = [Vec::new(), Vec::new()];
            for _ in 0..1 + self.below(5) {
                let (tag, [first, second]) = self.request_pair(kind);
                asked.push(tag);
                lists[0].push(first);
                lists[1].push(second);
            }
            bodies = lists.map(|list| requests(&list));
        }
        let messages = bodies.map(|body| numbered(transaction, kind, session.expected, &body));
        Pair {
            messages: self.damage_alike(messages),
            asked,
        }
    }

    /// A request of each run. Every second add has another KMAC in the second run, and one in eight has
    /// one of even parity in both.
    fn request_pair(&mut self, kind: u8) -> (Tag, [Vec<u8>; 2]) {
        let number = self.number();
        let key = identifier(number);
        if kind == kind::DELETE_KEYS {
            return ((key, false), [k_identifier(number), k_identifier(number)]);
        }
        let mut first = entry(number, 1 + self.below(7));
        first.kmac[0] ^= u8::from(self.below(8) == 0);
        let is_unlike = self.below(2) == 0;
        let second = if is_unlike {
            self.unlike(&first)
        } else {
            first.clone()
        };
        ((key, is_unlike), [k_struct(&first), k_struct(&second)])
    }

    /// Changes one bit of the header, or tears the message, or leaves it. What is no well-formed add
    /// then is alike in both runs.
    fn damage_alike(&mut self, [mut first, mut second]: [Vec<u8>; 2]) -> [Vec<u8>; 2] {
        match self.below(8) {
            0 => {
                let (at, bit) = (self.below(20), 1 << self.below(8));
                first[at] ^= bit;
                second[at] ^= bit;
                if at == TYPE_AT {
                    second = first.clone();
                }
            }
            1 => {
                first.truncate(self.below(first.len()));
                second = first.clone();
            }
            _ => {}
        }
        [first, second]
    }
}

/// Takes the requests of a command that was answered with RESPONSE 0, as 01 has the tally.
fn take_into(tally: &mut Vec<Tag>, pair: &Pair, results: &[u8]) {
    let kind = pair.messages[0][TYPE_AT];
    if kind == kind::DELETE_ALL_KEYS {
        tally.clear();
    }
    for (&tag, &result) in pair.asked.iter().zip(results) {
        match kind {
            kind::ADD_KEYS if result == 0 => tally.push(tag),
            kind::DELETE_KEYS if result == 0 => tally.retain(|held| held.0 != tag.0),
            _ => {}
        }
    }
}

/// The stores hold the tally's keys in its order, unlike only in the KMACs that it says.
fn assert_tally([first, second]: [&[u8]; 2], tally: &[Tag]) {
    let [first, mut second] = [first, second].map(|store| decode(store).expect("sound"));
    assert_eq!(second.len(), first.len());
    let tags: Vec<Tag> = first
        .iter()
        .zip(&second)
        .map(|(one, other)| (one.key, one.kmac != other.kmac))
        .collect();
    assert_eq!(tags, tally);
    for (one, other) in first.iter().zip(&mut second) {
        other.kmac = one.kmac;
    }
    assert_eq!(first, second);
}

/// Two benches whose stores differ in about every second KMAC, and their tally.
fn bench_pair(edition: Edition, random: &mut Random) -> ([Bench; 2], Vec<Tag>) {
    let first = full(edition)[..edition.keys_max / 2].to_vec();
    let tally: Vec<Tag> = first
        .iter()
        .map(|entry| (entry.key, random.below(2) == 0))
        .collect();
    let second: Vec<Entry> = first
        .iter()
        .zip(&tally)
        .map(|(entry, (_, is_unlike))| match is_unlike {
            true => random.unlike(entry),
            false => entry.clone(),
        })
        .collect();
    let benches = [first, second].map(|list| Bench::new(edition, &list));
    (benches, tally)
}

/// A closed session is left, or handed in as an open one that remembers its number, or another is begun.
fn go_on(random: &mut Random, bench: &mut Bench) {
    match random.below(4) {
        _ if bench.session.state == OPEN => {}
        0 => {}
        1 => bench.session.state = OPEN,
        _ => {
            (bench.session, _) = begin(OWN, CENTRE, 1, &mut bench.out).unwrap();
            bench.receive(&message(kind::SESSION_INIT, 1, &[1, 2, 255]));
        }
    }
}

/// Runs that differ in KMACs alone are answered alike, whatever numbers are repeated.
#[test]
fn pairs_of_runs_are_alike() {
    for edition in EDITIONS {
        let mut random = Random::new(3, edition);
        let ([mut first, mut second], mut tally) = bench_pair(edition, &mut random);
        let mut responses = BTreeMap::new();
        for _ in 0..1000 {
            let pair = random.pair(&first.session);
            let answer = first.receive(&pair.messages[0]);
            assert_eq!(second.receive(&pair.messages[1]), answer);
            assert_eq!(first.out, second.out);
            if let Answer::Reply(length) = answer {
                *responses.entry(first.out[20]).or_insert(0) += 1;
                if first.out[20] == 0 {
                    take_into(&mut tally, &pair, &first.out[23..length]);
                }
            }
            assert_tally([&first.store, &second.store], &tally);
            let (peer, t) = (peers(random.number(), 1)[0], 0x1000 + random.number());
            assert_eq!(find(&first.store, &peer, t), find(&second.store, &peer, t));
            assert_eq!(first.session, second.session);
            go_on(&mut random, &mut first);
            second.session = first.session;
            second.out = first.out.clone();
        }
        assert!(tally.iter().any(|(_, is_unlike)| *is_unlike));
        assert!(responses[&0] > 400);
        assert!(responses[&10] > 50);
    }
}
