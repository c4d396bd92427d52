//! Stores for the depots: sound ones of every size, and each condition of soundness (01, "The key store")
//! broken on its own.

use reference::store::{
    decode, encode, Edition, Entry, KeyIdentifier, EDITION_1, EDITION_2, KEYS_AT, RECORD_LENGTH,
};
use reference::Identity;

use reference::random::Random;

pub const CENTRE: Identity = [0x05, 0x00, 0x00, 0x17];

/// Where the fields of a record stand behind issuer and serial.
const KMAC: usize = 8;
const FIRST_INDEX: usize = 40;
const PEER_COUNT: usize = 42;

/// Where the two counts stand in the header.
const HELD: usize = 2;
const PEERS: usize = 6;

/// Bytes of odd parity, another KMAC for each serial.
pub fn kmac(serial: u32) -> [u8; 24] {
    std::array::from_fn(|i| {
        let byte = (serial as usize * 83 + i * 37 + 5) as u8;
        byte ^ u8::from(byte.count_ones() % 2 == 0)
    })
}

pub fn peers(serial: u32, count: usize) -> Vec<Identity> {
    let [_, _, upper, lower] = serial.to_be_bytes();
    let peer = |i: usize| [0x01 + upper, lower, (i >> 8) as u8, i as u8];
    (0..count).map(peer).collect()
}

pub fn entry(serial: u32, [start, end]: [u32; 2], peer_count: usize) -> Entry {
    let issuer = CENTRE;
    let serial_bytes = serial.to_be_bytes();
    Entry {
        key: KeyIdentifier {
            issuer,
            serial: serial_bytes,
        },
        kmac: kmac(serial),
        start,
        end,
        peers: peers(serial, peer_count),
    }
}

/// One key of the same period for each number of peers.
pub fn entries(period: [u32; 2], peer_counts: &[usize]) -> Vec<Entry> {
    (1..)
        .zip(peer_counts)
        .map(|(serial, &count)| entry(serial, period, count))
        .collect()
}

/// Peers spread evenly, the first records having one more.
pub fn spread(keys: usize, peers: usize) -> Vec<usize> {
    (0..keys)
        .map(|i| peers / keys + usize::from(i < peers % keys))
        .collect()
}

/// All peers that the edition takes, in as many keys as it takes.
pub fn full(edition: Edition, period: [u32; 2]) -> Vec<Entry> {
    entries(period, &spread(edition.keys_max, edition.peers_max))
}

/// A moment at, beside, or anywhere around T.
pub fn around(random: &mut Random, t: u32) -> u32 {
    let far = random.u32();
    let near = far % 1000;
    random.pick(&[
        t,
        t.wrapping_sub(1),
        t.wrapping_add(1),
        t.saturating_sub(near),
        t.saturating_add(near),
        far,
        0,
        u32::MAX,
    ])
}

/// Any sound store: few keys or many, none or many peers, periods around T.
pub fn any(random: &mut Random, edition: Edition, t: u32) -> Vec<u8> {
    let least = [0, 1, 2, edition.keys_max];
    let keys = match random.below(8) {
        i if i < least.len() => least[i],
        _ => random.below(edition.keys_max + 1),
    };
    let mut room = edition.peers_max;
    let mut list = Vec::new();
    for serial in 1..=keys as u32 {
        let most = random.pick(&[0, 1, 3, 8, 300]);
        let count = random.below(most + 1).min(room);
        room -= count;
        let period = [around(random, t), around(random, t)];
        list.push(entry(serial * 7, period, count));
    }
    encode(edition, &list)
}

fn put16(store: &mut [u8], at: usize, number: usize) {
    store[at..at + 2].copy_from_slice(&(number as u16).to_be_bytes());
}

fn get16(store: &[u8], at: usize) -> usize {
    usize::from(u16::from_be_bytes([store[at], store[at + 1]]))
}

fn record(i: usize) -> usize {
    KEYS_AT + i * RECORD_LENGTH
}

/// Stores that are each unsound by one fault, with a label of the fault.
pub struct Unsound {
    base: Vec<u8>,
    pub stores: Vec<(String, Vec<u8>)>,
}

impl Unsound {
    /// A fault that `change` makes in the base. It must make it unsound, and nothing else would be of use.
    fn with(&mut self, label: impl Into<String>, change: impl FnOnce(&mut Vec<u8>)) {
        let mut store = self.base.clone();
        change(&mut store);
        self.push(label, store);
    }

    fn push(&mut self, label: impl Into<String>, store: Vec<u8>) {
        let label = label.into();
        assert!(decode(&store).is_none(), "{label} is sound");
        self.stores.push((label, store));
    }

    /// All faults that a store of these entries can have.
    pub fn of(edition: Edition, list: &[Entry]) -> Unsound {
        let base = encode(edition, list);
        assert!(decode(&base).is_some());
        let mut all = Unsound {
            base,
            stores: Vec::new(),
        };
        all.header(edition, list.len());
        all.running_sums(edition, list.len());
        all.identifiers(list.len());
        all.parity(list.len());
        all.unused(edition, list.len());
        all
    }

    fn header(&mut self, edition: Edition, keys: usize) {
        let other = match edition.number {
            1 => EDITION_2,
            _ => EDITION_1,
        };
        let theirs = encode(other, &[]);
        for (field, at) in [
            ("edition", 0),
            ("keys-at", 4),
            ("peers-at", 8),
            ("length", 10),
        ] {
            let right = get16(&self.base, at);
            for wrong in [0, right ^ 1, right ^ 0x100, right + 1, 0xffff] {
                self.with(format!("{field}-{wrong}"), |store| put16(store, at, wrong));
            }
            if at != 4 {
                let wrong = get16(&theirs, at);
                self.with(format!("{field}-of-the-other"), |store| {
                    put16(store, at, wrong)
                });
            }
        }
        self.with("header-of-the-other", |store| {
            for at in [0, 8, 10] {
                put16(store, at, get16(&theirs, at));
            }
        });
        for wrong in [edition.keys_max + 1, 0x7fff, 0xffff] {
            self.with(format!("held-{wrong}"), |store| put16(store, HELD, wrong));
        }
        for wrong in [edition.peers_max + 1, 0x7fff, 0xffff] {
            self.with(format!("peers-{wrong}"), |store| put16(store, PEERS, wrong));
        }
        for wrong in [keys + 1, keys.wrapping_sub(1) & 0xffff] {
            self.with(format!("held-{wrong}-of-{keys}"), |store| {
                put16(store, HELD, wrong)
            });
        }
        let sum = get16(&self.base, PEERS);
        for wrong in [sum + 1, sum.wrapping_sub(1) & 0xffff] {
            self.with(format!("peers-{wrong}-of-{sum}"), |store| {
                put16(store, PEERS, wrong)
            });
        }
    }

    fn running_sums(&mut self, edition: Edition, keys: usize) {
        for i in places(keys) {
            for (field, at) in [
                ("first", record(i) + FIRST_INDEX),
                ("count", record(i) + PEER_COUNT),
            ] {
                let right = get16(&self.base, at);
                for wrong in [right + 1, right.wrapping_sub(1) & 0xffff, right ^ 0x8000] {
                    self.with(format!("{field}-{i}-{wrong}"), |store| {
                        put16(store, at, wrong)
                    });
                }
            }
        }
        if keys >= 2 {
            // The sum of all stays, and the second record begins one too late.
            self.with("count-moved-on", |store| {
                let (one, two) = (record(0) + PEER_COUNT, record(1) + PEER_COUNT);
                let (first, second) = (get16(store, one), get16(store, two));
                put16(store, one, first.wrapping_sub(1));
                put16(store, two, second + 1);
            });
        }
        // Sums that come to the right numbers but for 65,536: in two steps, and in steps that edition 2 has room for.
        let sum = get16(&self.base, PEERS);
        if keys >= 2 {
            self.with("sums-wrap", |store| {
                put_sums(store, keys, &[0xffff, 1 + sum])
            });
        }
        if edition == EDITION_2 && keys >= 18 {
            let mut counts = vec![4000; 16];
            counts.extend([0x1_0000 - 16 * 4000, sum]);
            self.with("sums-wrap-late", |store| put_sums(store, keys, &counts));
        }
    }

    fn identifiers(&mut self, keys: usize) {
        if keys < 2 {
            return;
        }
        for (i, j) in [(0, 1), (0, keys - 1), (keys - 2, keys - 1), (0, keys / 2)] {
            if i != j {
                self.with(format!("key-{i}-again-{j}"), |store| {
                    store.copy_within(record(i)..record(i) + 8, record(j))
                });
            }
        }
    }

    fn parity(&mut self, keys: usize) {
        for i in places(keys) {
            for byte in [0, 1, 7, 8, 15, 16, 22, 23] {
                let bit = 1 << (byte % 8);
                self.with(format!("parity-{i}-{byte}"), |store| {
                    store[record(i) + KMAC + byte] ^= bit
                });
            }
            self.with(format!("kmac-{i}-zero"), |store| {
                store[record(i) + KMAC..][..24].fill(0)
            });
        }
    }

    fn unused(&mut self, edition: Edition, keys: usize) {
        let peers = get16(&self.base, PEERS);
        let areas = [
            ("keys", record(keys), edition.peers_at()),
            ("peers", edition.peers_at() + 4 * peers, edition.length()),
        ];
        for (area, from, to) in areas {
            if from == to {
                continue;
            }
            for at in [from, from + 1, (from + to) / 2, to - 2, to - 1] {
                for value in [1, 0x80] {
                    self.with(format!("unused-{area}-{at}-{value}"), |store| {
                        store[at] = value
                    });
                }
            }
        }
    }
}

/// Gives the records these numbers of peers, and none to the others, with first indexes that go on from each to the
/// next modulo 65,536.
fn put_sums(store: &mut [u8], keys: usize, counts: &[usize]) {
    let mut first = 0;
    for i in 0..keys {
        let count = counts.get(i).copied().unwrap_or(0);
        put16(store, record(i) + FIRST_INDEX, first);
        put16(store, record(i) + PEER_COUNT, count);
        first += count;
    }
}

/// The first, the middle and the last of so many, each once.
fn places(keys: usize) -> Vec<usize> {
    let mut places = Vec::new();
    if keys > 0 {
        places.extend([0, keys / 2, keys - 1]);
        places.dedup();
    }
    places
}

/// One key beyond the limit and nothing else wrong: its record stands where the peers begin, and its bytes are
/// eleven peers too.
pub fn one_key_too_many(edition: Edition, period: [u32; 2]) -> Vec<u8> {
    let keys = edition.keys_max;
    let mut list = entries(period, &spread(keys, 11));
    let last = encode(EDITION_1, &[entry(keys as u32 + 1, period, 0)]);
    let mut bytes = last[KEYS_AT..record(1)].to_vec();
    put16(&mut bytes, FIRST_INDEX, 11);
    let mut identities = bytes.chunks_exact(4);
    for peer in list.iter_mut().flat_map(|entry| &mut entry.peers) {
        peer.copy_from_slice(identities.next().expect("a record is eleven peers"));
    }
    let mut store = encode(edition, &list);
    put16(&mut store, HELD, keys + 1);
    assert!(decode(&store).is_none());
    store
}

/// One peer beyond the limit and nothing else wrong: there is no room for it in the file.
pub fn one_peer_too_many(edition: Edition, period: [u32; 2]) -> Vec<u8> {
    let list = entries(period, &[2, edition.peers_max - 1]);
    let mut store = encode(edition, &list);
    store.truncate(edition.length());
    assert_eq!(get16(&store, PEERS), edition.peers_max + 1);
    assert!(decode(&store).is_none());
    store
}
