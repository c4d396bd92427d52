//! Change request 6: which conversions are refused, and what one that is done leaves.

use super::store::{with_a_count_over, with_a_fault};
use super::{entries, entry, full, unsound, WRONG_LENGTHS};
use crate::conversion::{to_edition_1, to_edition_2};
use crate::store::{decode, encode, find, key, Entry, EDITION_1, EDITION_2};

/// What stands in a target before a conversion.
const FILL: u8 = 0xee;

type Conversion = fn(&[u8], &mut [u8]) -> Result<(), u8>;

/// Asserts that the conversion is refused and writes nothing.
fn assert_refused(convert: Conversion, from: &[u8], length: usize, refusal: u8) {
    let mut to = vec![FILL; length];
    assert_eq!(convert(from, &mut to), Err(refusal));
    assert_eq!(to, vec![FILL; length]);
}

/// The list in a store of edition 2.
fn second(list: &[Entry]) -> Vec<u8> {
    encode(EDITION_2, list)
}

/// Asserts that the list goes from either edition to the other and back, each store whole.
fn assert_there_and_back(list: &[Entry]) {
    let (first, second) = (encode(EDITION_1, list), second(list));
    let mut to = vec![FILL; 38012];
    assert_eq!(to_edition_2(&first, &mut to), Ok(()));
    assert_eq!(to, second);
    let mut back = vec![FILL; 3852];
    assert_eq!(to_edition_1(&to, &mut back), Ok(()));
    assert_eq!(back, first);
}

fn assert_no_room(list: &[Entry]) {
    let store = second(list);
    assert_eq!(decode(&store).as_deref(), Some(list));
    assert_refused(to_edition_1, &store, 3852, 14);
}

#[test]
fn as_many_keys_as_edition_1_takes() {
    for keys in [0, 1, 63, 64] {
        assert_there_and_back(&entries(&vec![0; keys]));
        assert_there_and_back(&entries(&vec![4; keys]));
    }
}

#[test]
fn one_key_more_or_many() {
    for keys in [65, 66, 128, 256, 499, 500] {
        assert_no_room(&entries(&vec![0; keys]));
        assert_no_room(&entries(&vec![3; keys]));
    }
}

#[test]
fn as_many_peers_as_edition_1_takes() {
    for peers in [1, 255, 256] {
        assert_there_and_back(&entries(&[peers]));
        assert_there_and_back(&entries(&[0, peers, 0]));
        assert_there_and_back(&entries(&[1, peers - 1]));
    }
}

#[test]
fn one_peer_more_or_many() {
    for peers in [257, 258, 512, 1001, 3999, 4000] {
        assert_no_room(&entries(&[peers]));
        assert_no_room(&entries(&[0, peers, 0]));
        assert_no_room(&entries(&[1, peers - 1]));
    }
}

/// The limit of one met exactly, and the other passed by one; then both met, and both passed.
#[test]
fn each_limit_counts_for_itself() {
    let mut counts = vec![4; 64];
    assert_there_and_back(&entries(&counts));
    counts[63] = 5;
    assert_no_room(&entries(&counts));
    counts[62] = 3;
    assert_there_and_back(&entries(&counts));
    counts.push(0);
    assert_no_room(&entries(&counts));
    counts[64] = 1;
    assert_no_room(&entries(&counts));
    assert_no_room(&full(EDITION_2));
}

#[test]
fn a_full_store_of_edition_1_goes_forward() {
    let list = full(EDITION_1);
    let mut to = vec![FILL; 38012];
    assert_eq!(to_edition_2(&encode(EDITION_1, &list), &mut to), Ok(()));
    assert_eq!(to[..12], [0, 2, 0, 64, 0, 12, 1, 0, 0x55, 0xfc, 0x94, 0x7c]);
    assert_eq!(decode(&to), Some(list));
}

/// Two records with three peers, byte by byte: records stay at 12, and the peers move.
#[test]
fn where_records_and_peers_stand_afterwards() {
    let from = encode(EDITION_1, &entries(&[2, 1]));
    let mut to = vec![FILL; 38012];
    assert_eq!(to_edition_2(&from, &mut to), Ok(()));
    assert_eq!(to[..12], [0, 2, 0, 2, 0, 12, 0, 3, 0x55, 0xfc, 0x94, 0x7c]);
    assert_eq!(to[12..100], from[12..100]);
    assert_eq!(to[100..22012], vec![0; 21912]);
    assert_eq!(to[22012..22024], from[2828..2840]);
    assert_eq!(to[22024..], vec![0; 15988]);
}

/// Whatever stood in the target: the store that comes there, a full one, or bytes that are none.
#[test]
fn the_target_is_not_judged() {
    let list = entries(&[3, 0, 2]);
    let (first, second) = (encode(EDITION_1, &list), second(&list));
    let mut cut = second.clone();
    cut.truncate(3852);
    for before in [encode(EDITION_1, &full(EDITION_1)), first.clone(), cut] {
        let mut to = before;
        assert_eq!(to_edition_1(&second, &mut to), Ok(()));
        assert_eq!(to, first);
    }
    let mut grown = first.clone();
    grown.resize(38012, 0);
    for before in [encode(EDITION_2, &full(EDITION_2)), second.clone(), grown] {
        let mut to = before;
        assert_eq!(to_edition_2(&first, &mut to), Ok(()));
        assert_eq!(to, second);
    }
}

#[test]
fn lengths_that_are_not_those_of_their_sides() {
    let (first, second) = (encode(EDITION_1, &[]), encode(EDITION_2, &[]));
    let sides: [(Conversion, &[u8], &[u8]); 2] = [
        (to_edition_2, &first, &second),
        (to_edition_1, &second, &first),
    ];
    for (convert, source, target) in sides {
        assert_refused(convert, target, source.len(), 1);
        assert_refused(convert, source, source.len(), 1);
        assert_refused(convert, target, target.len(), 1);
        for length in WRONG_LENGTHS {
            assert_refused(convert, source, length, 1);
            let mut other = source.to_vec();
            other.resize(length, 0);
            assert_refused(convert, &other, target.len(), 1);
            assert_refused(convert, &other, length, 1);
        }
    }
}

#[test]
fn an_unsound_source() {
    let sides: [(Conversion, _, _); 2] = [
        (to_edition_2, EDITION_1, 38012),
        (to_edition_1, EDITION_2, 3852),
    ];
    for (convert, edition, length) in sides {
        for (store, _) in with_a_fault(edition) {
            assert_refused(convert, &store, length, 12);
        }
        for store in with_a_count_over(edition) {
            assert_refused(convert, &store, length, 12);
        }
    }
}

/// The header of the other edition in a source of the right length, and a store of the target's
/// edition cut or grown to that length.
#[test]
fn a_source_with_the_header_of_the_other_edition() {
    let list = entries(&[2, 1]);
    let (first, second) = (encode(EDITION_1, &list), second(&list));
    let mut from = first.clone();
    from[..12].copy_from_slice(&second[..12]);
    assert_refused(to_edition_2, &from, 38012, 12);
    assert_refused(to_edition_2, &second[..3852], 38012, 12);
    let mut from = second.clone();
    from[..12].copy_from_slice(&first[..12]);
    assert_refused(to_edition_1, &from, 3852, 12);
    let mut grown = first;
    grown.resize(38012, 0);
    assert_refused(to_edition_1, &grown, 3852, 12);
}

/// H1, H12, H14: stores with no room for them in edition 1, sound and unsound.
#[test]
fn refusals_in_order() {
    for list in [entries(&[0; 65]), entries(&[257]), full(EDITION_2)] {
        let sound = second(&list);
        let mut bad = sound.clone();
        bad[20] ^= 1;
        assert_refused(to_edition_1, &sound, 3852, 14);
        assert_refused(to_edition_1, &bad, 3852, 12);
        for length in [0, 3851, 3853, 38012] {
            assert_refused(to_edition_1, &sound, length, 1);
            assert_refused(to_edition_1, &bad, length, 1);
        }
        assert_refused(to_edition_1, &bad[1..], 3852, 1);
    }
    assert_refused(to_edition_2, &unsound(EDITION_1), 38012, 12);
    assert_refused(to_edition_2, &unsound(EDITION_1), 38011, 1);
}

/// Place, end and KMAC of each search, at moments around each start and end.
#[test]
fn every_search_is_answered_as_before() {
    let mut list = entries(&[2, 1, 0, 3]);
    let (of_first, of_second) = (list[0].peers[0], list[1].peers.clone());
    list[3].peers.push(of_first);
    list.push(Entry {
        peers: of_second,
        ..entry(9, 0)
    });
    let first = encode(EDITION_1, &list);
    let mut to = vec![FILL; 38012];
    assert_eq!(to_edition_2(&first, &mut to), Ok(()));
    let mut found = 0;
    for peer in list.iter().flat_map(|entry| &entry.peers) {
        for edge in list.iter().flat_map(|entry| [entry.start, entry.end]) {
            for t in edge - 1..=edge + 1 {
                assert_eq!(find(&first, peer, t), find(&to, peer, t));
                assert_eq!(key(&first, peer, t), key(&to, peer, t));
                found += usize::from(find(&to, peer, t).is_ok());
            }
        }
    }
    assert!(found > 0);
}
