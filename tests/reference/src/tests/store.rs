//! The two editions, the store's layout, its soundness and the requests.

use super::{entries, entry, found, full, identifier, kmac, peers, ISSUER, OWN, WRONG_LENGTHS};
use crate::store::{decode, encode, find, work, Edition, Entry, Request};
use crate::store::{EDITIONS, EDITION_1, EDITION_2};

/// A number that no entry of a full store has.
const NEW: u32 = 600;

fn add(edition: Edition, entries: &mut Vec<Entry>, entry: Entry) -> u8 {
    let recipient = OWN;
    work(edition, entries, &OWN, Request::Add { recipient, entry })
}

fn delete(edition: Edition, entries: &mut Vec<Entry>, number: u32) -> u8 {
    let request = Request::Delete(identifier(number));
    work(edition, entries, &OWN, request)
}

fn update_validity(
    edition: Edition,
    entries: &mut Vec<Entry>,
    number: u32,
    period: [u32; 2],
) -> u8 {
    let key = identifier(number);
    let [start, end] = period;
    let request = Request::UpdateValidity { key, start, end };
    work(edition, entries, &OWN, request)
}

fn update_entities(edition: Edition, entries: &mut Vec<Entry>, number: u32, count: usize) -> u8 {
    let key = identifier(number);
    let peers = peers(NEW, count);
    let request = Request::UpdateEntities { key, peers };
    work(edition, entries, &OWN, request)
}

/// The header of an edition's empty store in a buffer of any length.
fn empty_header_in(edition: Edition, length: usize) -> Vec<u8> {
    let mut store = encode(edition, &[])[..12].to_vec();
    store.resize(length, 0);
    store
}

/// The numbers of 01 and of change request 5, which all else reads from the limits.
#[test]
fn numbers_of_the_editions() {
    let numbers = |edition: Edition| {
        let limits = (edition.keys_max, edition.peers_max);
        (edition.number, limits, edition.peers_at(), edition.length())
    };
    assert_eq!(numbers(EDITION_1), (1, (64, 256), 2828, 3852));
    assert_eq!(numbers(EDITION_2), (2, (500, 4000), 22012, 38012));
    assert_eq!(EDITIONS, [EDITION_1, EDITION_2]);
}

#[test]
fn the_length_picks_the_edition() {
    assert_eq!(Edition::of_length(3852), Some(EDITION_1));
    assert_eq!(Edition::of_length(38012), Some(EDITION_2));
    for length in WRONG_LENGTHS {
        assert_eq!(Edition::of_length(length), None);
    }
}

#[test]
fn empty_stores() {
    let first = [0x00, 0x01, 0, 0, 0x00, 0x0c, 0, 0, 0x0b, 0x0c, 0x0f, 0x0c];
    let second = [0x00, 0x02, 0, 0, 0x00, 0x0c, 0, 0, 0x55, 0xfc, 0x94, 0x7c];
    for (edition, header, zeros) in [(EDITION_1, first, 3840), (EDITION_2, second, 38000)] {
        let expected = [header.to_vec(), vec![0; zeros]].concat();
        assert_eq!(encode(edition, &[]), expected);
        assert_eq!(decode(&expected), Some(vec![]));
    }
}

#[test]
fn layout_of_two_records() {
    let first = [0, 1, 0, 2, 0, 12, 0, 3, 0x0b, 0x0c, 0x0f, 0x0c];
    let second = [0, 2, 0, 2, 0, 12, 0, 3, 0x55, 0xfc, 0x94, 0x7c];
    let record = |n: u8, first: u8, count: u8| {
        let kmac = kmac(n.into());
        let tail = [0, 0, 0x10, n, 0, 0, 0x20, n, 0, first, 0, count];
        [&ISSUER[..], &[0, 0, 0, n], &kmac, &tail].concat()
    };
    for (edition, header, peers_at, length) in [
        (EDITION_1, first, 2828, 3852),
        (EDITION_2, second, 22012, 38012),
    ] {
        let store = encode(edition, &entries(&[2, 1]));
        let peers_end = peers_at + 12;
        assert_eq!(store.len(), length);
        assert_eq!(store[..12], header);
        assert_eq!(store[12..56], record(1, 0, 2));
        assert_eq!(store[56..100], record(2, 2, 1));
        assert!(store[100..peers_at].iter().all(|&byte| byte == 0));
        let peers = [1, 1, 0, 0, 1, 1, 0, 1, 1, 2, 0, 0];
        assert_eq!(store[peers_at..peers_end], peers);
        assert!(store[peers_end..].iter().all(|&byte| byte == 0));
    }
}

/// The last record ends where the peers start, and the last peer where the store ends.
#[test]
fn layout_of_a_full_store() {
    for (edition, header, last) in [
        (EDITION_1, [0, 1, 0, 64, 0, 12, 1, 0], [0, 252, 0, 4]),
        (EDITION_2, [0, 2, 1, 244, 0, 12, 15, 160], [15, 152, 0, 8]),
    ] {
        let list = full(edition);
        let store = encode(edition, &list);
        assert_eq!(store[..8], header);
        assert_eq!(store[edition.peers_at() - 4..edition.peers_at()], last);
        let last_peer = list.last().unwrap().peers.last().unwrap();
        assert_eq!(store[edition.length() - 4..], *last_peer);
    }
}

#[test]
fn a_list_comes_back_from_its_store() {
    for edition in EDITIONS {
        let short = [&[][..], &[1], &[0], &[3, 0, 4]].map(entries);
        let long = [
            entries(&[edition.peers_max]),
            entries(&[edition.peers_max, 0]),
            entries(&vec![0; edition.keys_max]),
            full(edition),
        ];
        for list in short.into_iter().chain(long) {
            assert_eq!(decode(&encode(edition, &list)), Some(list));
        }
    }
}

/// No command brings more than 1,000 peers in a list, but a store that holds more is sound.
#[test]
fn a_record_may_hold_more_peers_than_a_command_brings() {
    let list = entries(&[1001, 0, 2999]);
    let store = encode(EDITION_2, &list);
    assert_eq!(
        find(&store, &peers(1, 1001)[1000], 0x1001),
        found(1, 0x2001)
    );
    assert_eq!(
        find(&store, &peers(3, 2999)[2998], 0x1003),
        found(3, 0x2003)
    );
    assert_eq!(decode(&store), Some(list));
}

#[test]
fn an_entry_keeps_a_peer_twice() {
    for edition in EDITIONS {
        let mut list = entries(&[2]);
        list[0].peers = vec![[1, 2, 3, 4]; 2];
        assert_eq!(decode(&encode(edition, &list)), Some(list));
    }
}

/// Stores with one condition of soundness broken, each with its name.
pub(super) fn with_a_fault(edition: Edition) -> Vec<(Vec<u8>, &'static str)> {
    let sound = encode(edition, &entries(&[2, 1]));
    let peers_end = edition.peers_at() + 12;
    // Place, and the byte put there.
    let faults = [
        (1, 3 - sound[1], "number of the other edition"),
        (1, 0, "edition"),
        (1, 3, "edition"),
        (0, 1, "edition, upper byte"),
        (5, 13, "offset of keys"),
        (9, sound[9] + 1, "offset of peers"),
        (8, sound[8] + 1, "offset of peers, upper byte"),
        (11, sound[11] + 1, "total length"),
        (10, sound[10] + 1, "total length, upper byte"),
        (3, 1, "a record past the count"),
        (3, 3, "a record missing"),
        (7, 2, "a peer past the count"),
        (7, 4, "a peer missing"),
        (53, 1, "first index of the first record"),
        (97, 3, "first index of the second record"),
        (96, 1, "first index, upper byte"),
        (55, 1, "count of the first record"),
        (98, 1, "count, upper byte"),
        (63, 1, "identity held twice"),
        (20, sound[20] ^ 1, "parity of the first KMAC byte"),
        (43, sound[43] ^ 0x10, "parity of the last KMAC byte"),
        (64, sound[64] ^ 0x80, "parity in the second record"),
        (100, 1, "first unused record byte"),
        (edition.peers_at() - 1, 1, "last unused record byte"),
        (peers_end, 1, "first unused peer byte"),
        (edition.length() - 1, 1, "last unused peer byte"),
    ];
    let with_fault = |(at, byte, name): (usize, u8, _)| {
        let mut store = sound.clone();
        assert_ne!(store[at], byte, "{name}");
        store[at] = byte;
        (store, name)
    };
    faults.into_iter().map(with_fault).collect()
}

#[test]
fn unsound_stores() {
    for edition in EDITIONS {
        for (store, name) in with_a_fault(edition) {
            assert_eq!(decode(&store), None, "{name}");
        }
    }
}

/// Nothing is left out at the end of a full store: place in the last record, and the bytes put there.
#[test]
fn unsound_in_the_last_record() {
    for edition in EDITIONS {
        let sound = encode(edition, &full(edition));
        let last = edition.peers_at() - 44;
        let (first_of_all, before) = (&sound[12..20], &sound[last - 44..last - 36]);
        let faults = [
            (0, first_of_all.to_vec(), "identity of the first record"),
            (0, before.to_vec(), "identity of the record before"),
            (31, vec![sound[last + 31] ^ 4], "parity of its KMAC"),
            (41, vec![sound[last + 41] ^ 1], "its first index"),
            (40, vec![sound[last + 40] ^ 1], "first index, upper byte"),
            (43, vec![sound[last + 43] - 1], "its count"),
        ];
        for (at, bytes, name) in faults {
            let mut store = sound.clone();
            store[last + at..last + at + bytes.len()].copy_from_slice(&bytes);
            assert_ne!(store, sound, "{name}");
            assert_eq!(decode(&store), None, "{name}");
        }
    }
}

/// Stores with one count over its limit, by one or by most.
pub(super) fn with_a_count_over(edition: Edition) -> Vec<Vec<u8>> {
    let mut stores = Vec::new();
    for count in [edition.keys_max as u16 + 1, 0xffff] {
        let mut keys = encode(edition, &entries(&vec![0; edition.keys_max]));
        keys[2..4].copy_from_slice(&count.to_be_bytes());
        stores.push(keys);
    }
    for count in [edition.peers_max as u16 + 1, 0xffff] {
        let mut peers = encode(edition, &entries(&[edition.peers_max]));
        peers[6..8].copy_from_slice(&count.to_be_bytes());
        peers[54..56].copy_from_slice(&count.to_be_bytes());
        stores.push(peers);
    }
    stores
}

#[test]
fn counts_over_their_limits_are_unsound() {
    for edition in EDITIONS {
        for store in with_a_count_over(edition) {
            assert_eq!(decode(&store), None);
        }
    }
}

/// Counts that edition 2 takes stay over the limits of edition 1.
#[test]
fn the_limits_are_those_of_the_length() {
    let mut keys = encode(EDITION_1, &[]);
    keys[2..4].copy_from_slice(&65_u16.to_be_bytes());
    assert_eq!(decode(&keys), None);
    assert!(decode(&encode(EDITION_2, &entries(&[0; 65]))).is_some());
    assert!(decode(&encode(EDITION_2, &entries(&[257]))).is_some());
}

#[test]
fn a_store_of_another_length_has_no_entries() {
    for edition in EDITIONS {
        for length in WRONG_LENGTHS {
            let mut store = encode(edition, &[]);
            store.resize(length, 0);
            assert_eq!(decode(&store), None);
            assert_eq!(find(&store, &[9; 4], 0), Err(1));
        }
    }
}

/// The header of the one edition in the length of the other, whole or one number of it.
#[test]
fn a_header_that_disagrees_with_the_length_is_unsound() {
    for (edition, other) in [(EDITION_1, EDITION_2), (EDITION_2, EDITION_1)] {
        let disagrees = empty_header_in(other, edition.length());
        assert_eq!(decode(&disagrees), None);
        assert_eq!(find(&disagrees, &[9; 4], 0), Err(12));
        for number in [0, 8, 10] {
            let mut store = encode(edition, &[]);
            store[number..number + 2].copy_from_slice(&disagrees[number..number + 2]);
            assert_eq!(decode(&store), None);
        }
    }
    let mut longer = encode(EDITION_1, &entries(&[2, 1]));
    longer.resize(38012, 0);
    assert_eq!(decode(&longer), None);
}

/// A list of entries has one store only: what decodes encodes to the same bytes.
#[test]
fn every_sound_change_of_a_byte_is_the_store_of_its_list() {
    for edition in EDITIONS {
        let sound = encode(edition, &entries(&[2, 0, 1]));
        let peers_at = edition.peers_at();
        // Every byte of edition 1, and of edition 2 every byte in use.
        let step = if edition == EDITION_1 { 1 } else { 97 };
        let places = (0..200)
            .chain((200..peers_at).step_by(step))
            .chain(peers_at..peers_at + 100)
            .chain((peers_at + 100..sound.len()).step_by(step));
        let mut sound_changes = 0;
        for at in places {
            for change in [1, 3, 0x80, 0xff] {
                let mut store = sound.clone();
                store[at] ^= change;
                if let Some(list) = decode(&store) {
                    assert_eq!(encode(edition, &list), store);
                    sound_changes += 1;
                }
            }
        }
        // Issuer, serial, start and end take every change, KMAC bytes those of even weight.
        let of_names_and_periods = 3 * 16 * 4;
        let of_kmacs = 3 * 24 * 2;
        let of_peers = 3 * 4 * 4;
        let to_a_serial_held = 4;
        let expected = of_names_and_periods - to_a_serial_held + of_kmacs + of_peers;
        assert_eq!(sound_changes, expected);
    }
}

#[test]
fn add_takes_the_first_reason() {
    for edition in EDITIONS {
        let full = full(edition);
        let most = full[0].peers.len();
        let all_but_one = &full[..edition.keys_max - 1];
        let mut bad = entry(10, 1);
        bad.kmac[23] ^= 1;
        let elsewhere = [OWN[0], OWN[1], OWN[2], OWN[3] ^ 1];
        let wrong = Request::Add {
            recipient: elsewhere,
            entry: bad.clone(),
        };
        assert_eq!(work(edition, &mut full.clone(), &OWN, wrong), 5);
        assert_eq!(add(edition, &mut full.clone(), bad), 4);
        assert_eq!(add(edition, &mut full.clone(), entry(10, 1)), 3);
        assert_eq!(add(edition, &mut full.clone(), entry(NEW, 1)), 2);
        let one_peer_more = entry(NEW, most + 1);
        assert_eq!(add(edition, &mut all_but_one.to_vec(), one_peer_more), 255);
        assert_eq!(add(edition, &mut all_but_one.to_vec(), entry(NEW, most)), 0);
    }
}

/// What is too much for edition 1 is not for edition 2.
#[test]
fn the_limits_are_those_of_the_edition() {
    let mut list = full(EDITION_1);
    assert_eq!(add(EDITION_2, &mut list, entry(65, 200)), 0);
    assert_eq!(update_entities(EDITION_2, &mut list, 65, 1000), 0);
    assert_eq!(list.len(), 65);
}

#[test]
fn any_kmac_byte_of_even_parity_is_corrupted() {
    for edition in EDITIONS {
        for at in 0..24 {
            let mut bad = entry(1, 1);
            bad.kmac[at] ^= 0x40;
            assert_eq!(add(edition, &mut vec![], bad), 4);
        }
    }
}

#[test]
fn an_added_entry_stands_last() {
    for edition in EDITIONS {
        let mut list = entries(&[2, 1]);
        assert_eq!(add(edition, &mut list, entry(3, 5)), 0);
        assert_eq!(list, entries(&[2, 1, 5]));
    }
}

#[test]
fn delete_closes_the_gap_and_keeps_the_order() {
    for edition in EDITIONS {
        let mut list = entries(&[2, 1, 3]);
        assert_eq!(delete(edition, &mut list, 2), 0);
        assert_eq!(list, [entry(1, 2), entry(3, 3)]);
        let store = encode(edition, &list);
        assert_eq!(store[12 + 44 + 40..12 + 88], [0, 2, 0, 3]);
        assert_eq!(delete(edition, &mut list, 2), 1);
        assert_eq!(list, [entry(1, 2), entry(3, 3)]);
    }
}

#[test]
fn update_validity_replaces_start_and_end() {
    for edition in EDITIONS {
        let mut list = entries(&[2, 1, 3]);
        let period = [9, 0xffff_ffff];
        assert_eq!(update_validity(edition, &mut list, 2, period), 0);
        let updated = Entry {
            start: 9,
            end: 0xffff_ffff,
            ..entry(2, 1)
        };
        assert_eq!(list, [entry(1, 2), updated, entry(3, 3)]);
    }
}

#[test]
fn update_validity_takes_an_end_before_the_start() {
    for edition in EDITIONS {
        let mut list = entries(&[1]);
        assert_eq!(update_validity(edition, &mut list, 1, [9, 8]), 0);
        assert_eq!((list[0].start, list[0].end), (9, 8));
    }
}

#[test]
fn update_entities_replaces_the_list_at_its_place() {
    for edition in EDITIONS {
        let mut list = entries(&[2, 1, 3]);
        assert_eq!(update_entities(edition, &mut list, 2, 4), 0);
        let updated = Entry {
            peers: peers(NEW, 4),
            ..entry(2, 1)
        };
        assert_eq!(list, [entry(1, 2), updated, entry(3, 3)]);
    }
}

#[test]
fn update_of_a_key_not_held() {
    for edition in EDITIONS {
        let mut list = entries(&[2, 1]);
        let too_many = edition.peers_max + 44;
        assert_eq!(update_validity(edition, &mut list, 3, [1, 2]), 1);
        assert_eq!(update_entities(edition, &mut list, 3, too_many), 1);
        assert_eq!(list, entries(&[2, 1]));
    }
}

#[test]
fn requests_that_fail_leave_the_list() {
    for edition in EDITIONS {
        let counts = [edition.peers_max - 6, 6];
        let mut list = entries(&counts);
        assert_eq!(add(edition, &mut list, entry(3, 1)), 255);
        assert_eq!(update_entities(edition, &mut list, 2, 7), 255);
        assert_eq!(update_entities(edition, &mut list, 2, 1000), 255);
        assert_eq!(list, entries(&counts));
    }
}
