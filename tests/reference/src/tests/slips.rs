//! The slips of 01, "Slips seen in other yards": each test fails for a module that has one.

use super::{
    entries, entry, identifier, k_struct_for, message, numbered, peers, remembering, reply,
};
use super::{Bench, OWN, RECEIVER_AT, SENDER_AT, SEQUENCE_AT};
use crate::authentication::mac;
use crate::des::Des;
use crate::message::kind;
use crate::session::CLOSED;
use crate::store::{encode, find, work, Request, EDITIONS, EDITION_1};

/// A DES key for each third of the MAC's key.
const KEYS: [[u8; 8]; 3] = [[0x10; 8], [0x20; 8], [0x40; 8]];

fn triple_key() -> [u8; 24] {
    KEYS.concat().try_into().unwrap()
}

#[test]
fn all_four_bytes_of_receiver_and_sender_are_compared() {
    for (field, response) in [(RECEIVER_AT, 4), (SENDER_AT, 3)] {
        for at in field..field + 4 {
            let mut bench = Bench::new(EDITION_1, &[]);
            let mut wrong = message(kind::DELETE_ALL_KEYS, 300, &[]);
            wrong[at] ^= 1;
            bench.assert_reply(&wrong, &reply(&wrong, 700, response, &[]));
        }
    }
}

#[test]
fn all_four_bytes_of_the_recipient_are_compared() {
    for at in 0..4 {
        let mut bench = Bench::new(EDITION_1, &[]);
        let mut recipient = OWN;
        recipient[at] ^= 1;
        let structure = k_struct_for(recipient, &entry(1, 1));
        assert_eq!(bench.work(kind::ADD_KEYS, &[structure]), [5]);
    }
}

#[test]
fn all_bytes_of_issuer_and_serial_are_compared() {
    for at in 0..4 {
        let mut issuer = identifier(1);
        issuer.issuer[at] ^= 1;
        let mut serial = identifier(1);
        serial.serial[at] ^= 1;
        for key in [issuer, serial] {
            for edition in EDITIONS {
                let mut list = entries(&[1]);
                assert_eq!(work(edition, &mut list, &OWN, Request::Delete(key)), 1);
            }
        }
    }
}

#[test]
fn all_four_bytes_of_a_peer_are_compared() {
    let list = entries(&[3]);
    for edition in EDITIONS {
        let store = encode(edition, &list);
        for at in 0..4 {
            let mut peer = list[0].peers[0];
            peer[at] ^= 0x40;
            assert_eq!(find(&store, &peer, 0x1001), Err(11));
        }
    }
}

#[test]
fn all_four_bytes_tell_own_identity_from_the_peer() {
    for at in 0..4 {
        let mut peer = OWN;
        peer[at] ^= 1;
        let begun = crate::session::begin(OWN, peer, 1, &mut [0; 1032]);
        assert!(begun.is_ok());
    }
}

#[test]
fn the_old_peer_list_is_not_counted_on_replacement() {
    for edition in EDITIONS {
        let mut bench = Bench::new(edition, &entries(&[256, edition.peers_max - 256]));
        assert_eq!(bench.replace_peers(1, &peers(200, 256)), [0]);
        assert_eq!(bench.entries()[0].peers, peers(200, 256));
    }
}

#[test]
fn earlier_requests_stand_when_a_later_one_fails() {
    for edition in EDITIONS {
        let mut bench = Bench::new(edition, &entries(&[1, 1, 1]));
        assert_eq!(bench.delete(&[2, 9, 1]), [0, 1, 0]);
        assert_eq!(bench.entries(), [entry(3, 1)]);
        let mut bad = entry(5, 1);
        bad.kmac[0] ^= 1;
        assert_eq!(bench.add(&[entry(4, 1), bad, entry(6, 1)]), [0, 4, 0]);
        assert_eq!(bench.entries(), [entry(3, 1), entry(4, 1), entry(6, 1)]);
    }
}

/// l | DA | m has exactly eight octets here, so one block and no padding.
#[test]
fn whole_blocks_are_not_padded() {
    let [k1, k2, k3] = KEYS.map(|key| Des::new(&key));
    let only = [0, 6, 1, 2, 3, 0x0a, 8, 9];
    let expected = k3.encipher(&k2.decipher(&k1.encipher(&only)));
    assert_eq!(mac(&triple_key(), &[1, 2, 3], &[0x0a, 8, 9]), expected);
}

#[test]
fn the_second_key_deciphers() {
    let [k1, k2, k3] = KEYS.map(|key| Des::new(&key));
    let first = k1.encipher(&[0, 7, 1, 2, 3, 0x0a, 8, 9]);
    let mut second = first;
    second[0] ^= 5;
    let chained = k1.encipher(&second);
    let made = mac(&triple_key(), &[1, 2, 3], &[0x0a, 8, 9, 5]);
    assert_eq!(made, k3.encipher(&k2.decipher(&chained)));
    assert_ne!(made, k3.encipher(&k2.encipher(&chained)));
}

#[test]
fn the_expected_number_stays_when_a_session_closes() {
    let mut wrong_sequence = message(kind::DELETE_ALL_KEYS, 300, &[]);
    wrong_sequence[SEQUENCE_AT] ^= 1;
    let mut wrong_length = message(kind::DELETE_ALL_KEYS, 300, &[]);
    wrong_length[3] ^= 1;
    let format_error = message(kind::DELETE_ALL_KEYS, 300, &[0]);
    let repeated = numbered(7, kind::DELETE_ALL_KEYS, 300, &[]);
    let end = message(kind::END_OF_UPDATE, 300, &[]);
    for closing in [wrong_sequence, wrong_length, repeated, format_error, end] {
        let mut bench = Bench::new(EDITION_1, &[]);
        bench.session = remembering(7, bench.session);
        bench.receive(&closing);
        assert_eq!(bench.session.state, CLOSED);
        assert_eq!(bench.session.expected, 300);
    }
}
