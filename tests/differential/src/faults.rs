//! Unsound stores, of every kind that document 01 and change request 5 tell.

use reference::store::{encode, Edition, Entry};

use crate::layout::{identifier, kmac_at, other, record_at, set_u16, u16_at, IDENTIFIER};
use crate::layout::{COUNT_IN_RECORD, FIRST_IN_RECORD, UNLIKE_AT};
use crate::stores::odd_kmac;
use reference::random::Random;

/// How a store can be unsound.
#[derive(Clone, Copy, Debug)]
pub enum Fault {
    /// One of the six numbers of the header, by its place.
    Header(usize),
    /// Of the three numbers that the editions have unlike, those of these bits are the other's.
    OtherEdition(usize),
    TooManyKeys,
    TooManyPeers,
    FirstIndex,
    PeerSum,
    SharedIdentifier,
    EvenParity,
    UnusedKeyByte,
    UnusedPeerByte,
}

pub const FAULTS: [Fault; 21] = [
    Fault::Header(0),
    Fault::Header(1),
    Fault::Header(2),
    Fault::Header(3),
    Fault::Header(4),
    Fault::Header(5),
    Fault::OtherEdition(0b001),
    Fault::OtherEdition(0b010),
    Fault::OtherEdition(0b011),
    Fault::OtherEdition(0b100),
    Fault::OtherEdition(0b101),
    Fault::OtherEdition(0b110),
    Fault::OtherEdition(0b111),
    Fault::TooManyKeys,
    Fault::TooManyPeers,
    Fault::FirstIndex,
    Fault::PeerSum,
    Fault::SharedIdentifier,
    Fault::EvenParity,
    Fault::UnusedKeyByte,
    Fault::UnusedPeerByte,
];

/// The store of the entries with the fault; as it is where the fault has no place in it.
pub fn unsound(random: &mut Random, edition: Edition, entries: &[Entry], fault: Fault) -> Vec<u8> {
    let mut store = encode(edition, entries);
    let peers: usize = entries.iter().map(|entry| entry.peers.len()).sum();
    let keys_end = record_at(entries.len());
    let peers_at = edition.peers_at();
    let peers_end = peers_at + 4 * peers;
    match fault {
        Fault::Header(place) => step(random, &mut store, 2 * place),
        Fault::OtherEdition(bits) => other_numbers(&mut store, edition, bits),
        Fault::TooManyKeys => one_key_more(random, &mut store, edition, peers),
        Fault::TooManyPeers => one_peer_more(&mut store, edition, entries, peers),
        Fault::UnusedKeyByte if keys_end < peers_at => {
            spoil(random, &mut store[keys_end..peers_at]);
        }
        Fault::UnusedPeerByte if peers_end < store.len() => {
            spoil(random, &mut store[peers_end..]);
        }
        _ if entries.is_empty() => {}
        _ => in_record(random, &mut store, entries, fault),
    }
    store
}

fn other_numbers(store: &mut [u8], edition: Edition, bits: usize) {
    let other = encode(other(edition), &[]);
    for (bit, at) in UNLIKE_AT.into_iter().enumerate() {
        if bits >> bit & 1 == 1 {
            store[at..at + 2].copy_from_slice(&other[at..at + 2]);
        }
    }
}

/// One key more than the limit. Behind a full list of keys its record stands in the place of the
/// first peers, and is right in itself: there the count alone is wrong.
fn one_key_more(random: &mut Random, store: &mut [u8], edition: Edition, peers: usize) {
    set_u16(store, 2, edition.keys_max + 1);
    let at = edition.peers_at();
    let identifier: [u8; IDENTIFIER] = random.array();
    store[at..at + IDENTIFIER].copy_from_slice(&identifier);
    store[at + IDENTIFIER..at + IDENTIFIER + 24].copy_from_slice(&odd_kmac(random));
    set_u16(store, at + FIRST_IN_RECORD, peers);
    set_u16(store, at + COUNT_IN_RECORD, 0);
}

/// One peer more than the limit, and all of them counted by the records.
fn one_peer_more(store: &mut [u8], edition: Edition, entries: &[Entry], peers: usize) {
    let most = edition.peers_max + 1;
    set_u16(store, 6, most);
    if let Some(last) = entries.len().checked_sub(1) {
        let at = record_at(last) + COUNT_IN_RECORD;
        set_u16(store, at, entries[last].peers.len() + most - peers);
    }
}

/// A bit in the first byte, in the last or in any.
fn spoil(random: &mut Random, unused: &mut [u8]) {
    let last = unused.len() - 1;
    let any = random.between(0, last);
    unused[random.pick(&[0, last, any])] ^= 1 << random.below(8);
}

/// A fault in one of the records: the first, the last or any.
fn in_record(random: &mut Random, store: &mut [u8], entries: &[Entry], fault: Fault) {
    let any = random.below(entries.len());
    let place = random.pick(&[0, entries.len() - 1, any, any]);
    let at = record_at(place);
    match fault {
        Fault::FirstIndex => step(random, store, at + FIRST_IN_RECORD),
        Fault::PeerSum => step(random, store, at + COUNT_IN_RECORD),
        Fault::EvenParity => store[kmac_at(place) + random.below(24)] ^= 1 << random.below(8),
        Fault::SharedIdentifier if entries.len() > 1 => {
            let (from, to) = two_places(random, entries.len());
            let shared = identifier(store, from).to_vec();
            store[record_at(to)..record_at(to) + IDENTIFIER].copy_from_slice(&shared);
        }
        _ => {}
    }
}

/// Two at the ends, or any two.
fn two_places(random: &mut Random, keys: usize) -> (usize, usize) {
    let last = keys - 1;
    let first = random.below(last);
    let second = random.between(first + 1, last);
    random.pick(&[(0, 1), (0, last), (last - 1, last), (first, second)])
}

/// One more or one less, or another number in two bytes.
fn step(random: &mut Random, store: &mut [u8], at: usize) {
    let number = u16_at(store, at) as u16;
    let other = match random.below(4) {
        0 => number.wrapping_add(1),
        1 => number.wrapping_sub(1),
        2 => number ^ 1 << random.below(16),
        _ => random.u16(),
    };
    set_u16(store, at, other.into());
}

#[cfg(test)]
mod tests {
    use super::{unsound, Fault, FAULTS};
    use crate::layout::{has_other_header, record_at, RECORD};
    use crate::stores::Names;
    use reference::random::Random;
    use reference::store::{decode, EDITIONS};

    #[test]
    fn every_fault_makes_stores_unsound() {
        for edition in EDITIONS {
            for fault in FAULTS {
                let mut random = Random::new(3);
                let names = Names::new(edition, &mut random);
                let stores = (0..50).map(|_| {
                    let entries = names.entries(&mut random, 20, 5);
                    unsound(&mut random, edition, &entries, fault)
                });
                let refused = stores.filter(|store| decode(store).is_none()).count();
                assert!(refused >= 40, "{fault:?}: {refused} of 50");
            }
        }
    }

    #[test]
    fn all_three_numbers_of_the_other_edition_are_its_header() {
        for edition in EDITIONS {
            let mut random = Random::new(4);
            let of = |bits| Fault::OtherEdition(bits);
            assert!(has_other_header(&unsound(&mut random, edition, &[], of(7))));
            assert!(!has_other_header(&unsound(
                &mut random,
                edition,
                &[],
                of(6)
            )));
        }
    }

    /// A store of one key more would be sound were its header, its keys and its peers read with
    /// the limit one higher: the record behind the last one has odd parity and the sum before it.
    #[test]
    fn behind_a_full_list_the_record_too_many_is_right_in_itself() {
        for edition in EDITIONS {
            let mut random = Random::new(5);
            let names = Names::new(edition, &mut random);
            let entries = names.filled(&mut random, edition.keys_max, 0);
            let store = unsound(&mut random, edition, &entries, Fault::TooManyKeys);
            assert_eq!(decode(&store), None);
            let at = record_at(edition.keys_max);
            let record = &store[at..at + RECORD];
            assert!(record[8..32].iter().all(|byte| byte.count_ones() % 2 == 1));
            let sums = [record[40], record[41], record[42], record[43]];
            let peers = (edition.peers_max as u16).to_be_bytes();
            assert_eq!(sums, [peers[0], peers[1], 0, 0]);
        }
    }
}
