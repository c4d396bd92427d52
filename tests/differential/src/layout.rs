//! Where things stand in a store (document 01, "The key store"; change request 5). The editions are
//! those of the second program; a test here compares them with the papers.

use reference::store::{Edition, Entry, KeyIdentifier, EDITION_1, EDITION_2};

use crate::wire::KMAC_LENGTH;

/// Where the first record stands, behind the header.
pub const KEYS_AT: usize = 12;
pub const RECORD: usize = 44;
pub const PEER: usize = 4;
pub const IDENTIFIER: usize = 8;
pub const START_IN_RECORD: usize = 32;
const END_IN_RECORD: usize = 36;
pub const FIRST_IN_RECORD: usize = 40;
pub const COUNT_IN_RECORD: usize = 42;
const KMAC_IN_RECORD: usize = IDENTIFIER;

/// Where the header has the numbers that the editions have unlike: edition, offset of peers and
/// length.
pub const UNLIKE_AT: [usize; 3] = [0, 8, 10];

/// Lengths of a store, those beside them, and some far from them. Two are a store's but for 65,536.
pub const LENGTHS: [usize; 12] = [
    0, 1, 12, 3851, 3852, 3853, 38011, 38012, 38013, 41864, 69388, 103548,
];

pub fn other(edition: Edition) -> Edition {
    if edition == EDITION_1 {
        EDITION_2
    } else {
        EDITION_1
    }
}

/// Where the record of a place stands, places counted from 0.
pub fn record_at(place: usize) -> usize {
    KEYS_AT + RECORD * place
}

pub fn kmac_at(place: usize) -> usize {
    record_at(place) + KMAC_IN_RECORD
}

pub fn u16_at(store: &[u8], at: usize) -> usize {
    u16::from_be_bytes([store[at], store[at + 1]]).into()
}

fn u32_at(store: &[u8], at: usize) -> u32 {
    u32::from_be_bytes([store[at], store[at + 1], store[at + 2], store[at + 3]])
}

pub fn set_u16(store: &mut [u8], at: usize, number: usize) {
    store[at..at + 2].copy_from_slice(&(number as u16).to_be_bytes());
}

pub fn key_count(store: &[u8]) -> usize {
    u16_at(store, 2)
}

pub fn peer_count(store: &[u8]) -> usize {
    u16_at(store, 6)
}

pub fn identifier(store: &[u8], place: usize) -> &[u8] {
    &store[record_at(place)..record_at(place) + IDENTIFIER]
}

pub fn kmac(store: &[u8], place: usize) -> &[u8] {
    &store[kmac_at(place)..kmac_at(place) + KMAC_LENGTH]
}

/// The start and the end of a record.
pub fn period(store: &[u8], place: usize) -> [u32; 2] {
    [START_IN_RECORD, END_IN_RECORD].map(|at| u32_at(store, record_at(place) + at))
}

/// The peers of a record, one behind the other; none where they are not all in the store.
fn peer_bytes(store: &[u8], place: usize) -> &[u8] {
    let at = record_at(place);
    let peers_at = Edition::of_length(store.len()).map_or(0, |edition| edition.peers_at());
    let first = peers_at + PEER * u16_at(store, at + FIRST_IN_RECORD);
    let length = PEER * u16_at(store, at + COUNT_IN_RECORD);
    store.get(first..first + length).unwrap_or_default()
}

/// Whether a record has the peer in its list and start <= t <= end.
pub fn fits(store: &[u8], place: usize, peer: u32, t: u32) -> bool {
    let [start, end] = period(store, place);
    let mut peers = peer_bytes(store, place).chunks_exact(PEER);
    start <= t && t <= end && peers.any(|bytes| bytes == peer.to_be_bytes())
}

/// How many records a store of an edition has, at most as many as it has room for.
pub fn held(store: &[u8]) -> usize {
    let edition = Edition::of_length(store.len());
    edition.map_or(0, |edition| key_count(store).min(edition.keys_max))
}

/// The entry of a place that is held. The rest of the store is not looked at: to decode it all for
/// each call of a run would take longer than the call.
pub fn entry_at(store: &[u8], place: usize) -> Entry {
    let at = record_at(place);
    let mut kmac_bytes = [0; KMAC_LENGTH];
    kmac_bytes.copy_from_slice(kmac(store, place));
    let [start, end] = period(store, place);
    Entry {
        key: KeyIdentifier {
            issuer: u32_at(store, at).to_be_bytes(),
            serial: u32_at(store, at + 4).to_be_bytes(),
        },
        kmac: kmac_bytes,
        start,
        end,
        peers: peer_bytes(store, place)
            .chunks_exact(PEER)
            .map(|peer| u32_at(peer, 0).to_be_bytes())
            .collect(),
    }
}

/// Whether a store of one edition's length has the header of the other.
pub fn has_other_header(store: &[u8]) -> bool {
    let Some(edition) = Edition::of_length(store.len()) else {
        return false;
    };
    let other = other(edition);
    let numbers = [usize::from(other.number), other.peers_at(), other.length()];
    UNLIKE_AT.map(|at| u16_at(store, at)) == numbers
}

#[cfg(test)]
mod tests {
    use super::{entry_at, fits, has_other_header, held, other, KEYS_AT};
    use crate::stores::Names;
    use reference::random::Random;
    use reference::store::{encode, EDITIONS, EDITION_1, EDITION_2};

    #[test]
    fn the_editions_are_those_of_the_papers() {
        let first = [0, 1, 0, 0, 0, 0x0c, 0, 0, 0x0b, 0x0c, 0x0f, 0x0c];
        let second = [0, 2, 0, 0, 0, 0x0c, 0, 0, 0x55, 0xfc, 0x94, 0x7c];
        for (edition, header, length) in [(EDITION_1, first, 3852), (EDITION_2, second, 38012)] {
            let empty = encode(edition, &[]);
            assert_eq!(empty[..KEYS_AT], header);
            assert_eq!(empty[KEYS_AT..], vec![0; length - KEYS_AT]);
        }
        let limits = EDITIONS.map(|edition| (edition.keys_max, edition.peers_max));
        assert_eq!(limits, [(64, 256), (500, 4000)]);
    }

    #[test]
    fn entries_are_read_as_they_were_written() {
        for edition in EDITIONS {
            let mut random = Random::new(9);
            let names = Names::new(edition, &mut random);
            let entries = names.filled(&mut random, edition.keys_max, 0);
            let store = encode(edition, &entries);
            assert_eq!(held(&store), entries.len());
            for (place, entry) in entries.iter().enumerate() {
                assert_eq!(entry_at(&store, place), *entry);
            }
        }
    }

    #[test]
    fn a_record_fits_by_its_peers_and_its_period() {
        for edition in EDITIONS {
            let mut random = Random::new(10);
            let mut entries = Names::new(edition, &mut random).apart(&mut random);
            let last = entries.len() - 1;
            (entries[last].start, entries[last].end) = (5, 6);
            let store = encode(edition, &entries);
            for &peer in &entries[last].peers {
                let peer = u32::from_be_bytes(peer);
                let at = |t| fits(&store, last, peer, t);
                assert_eq!([4, 5, 6, 7].map(at), [false, true, true, false]);
                assert!(!fits(&store, last - 1, peer, entries[last - 1].start));
            }
        }
    }

    #[test]
    fn a_header_of_the_other_edition_is_one_whose_three_numbers_are() {
        for edition in EDITIONS {
            let mut store = encode(edition, &[]);
            assert!(!has_other_header(&store));
            store[..KEYS_AT].copy_from_slice(&encode(other(edition), &[])[..KEYS_AT]);
            assert!(has_other_header(&store));
            store[9] ^= 1;
            assert!(!has_other_header(&store));
            assert!(!has_other_header(&store[1..]));
        }
    }
}
