//! The numbers of 01, "Numbers to work by hand", at the limits of each edition: where 01 says 64 keys and
//! 256 peers, edition 2 has 500 and 4,000. T = end and start = end are as change request 4 has them.

use super::{assert_fits, entries, entry, k_struct, k_struct_for, message, peers, reply, Bench};
use super::{CENTRE, OWN, RECEIVER_AT};
use crate::authentication::{check, mac};
use crate::message::kind;
use crate::session::{CLOSED, OPEN};
use crate::store::{encode, EDITIONS, EDITION_1};

#[test]
fn empty_store_delete() {
    for edition in EDITIONS {
        let mut bench = Bench::new(edition, &[]);
        assert_eq!(bench.delete(&[1]), [1]);
        assert_eq!(bench.store, encode(edition, &[]));
    }
}

#[test]
fn one_key_twice_in_a_message() {
    for edition in EDITIONS {
        let mut bench = Bench::new(edition, &[]);
        assert_eq!(bench.add(&[entry(1, 2), entry(1, 2)]), [0, 3]);
        assert_eq!(bench.entries(), entries(&[2]));
    }
}

#[test]
fn as_many_keys_as_the_edition_takes() {
    for (edition, most) in EDITIONS.into_iter().zip([64, 500]) {
        let list = entries(&vec![1; most]);
        let next = [entry(most as u32 + 1, 1)];
        let mut bench = Bench::new(edition, &list);
        assert_eq!(bench.add(&next), [2]);
        assert_eq!(bench.entries(), list);
        assert_eq!(bench.delete(&[10]), [0]);
        assert_eq!(bench.add(&next), [0]);
        let held = bench.entries();
        assert_eq!(held.len(), most);
        assert_eq!(held[8], entry(9, 1));
        assert_eq!(held[9], entry(11, 1));
        assert_eq!(held[most - 1..], next);
    }
}

#[test]
fn all_peers_but_three_used() {
    for (edition, used) in EDITIONS.into_iter().zip([253, 3997]) {
        let list = entries(&[used - 53, 53]);
        let mut bench = Bench::new(edition, &list);
        assert_eq!(bench.add(&[entry(3, 4)]), [255]);
        assert_eq!(bench.entries(), list);
        assert_eq!(bench.add(&[entry(3, 3)]), [0]);
        assert_eq!(bench.entries(), entries(&[used - 53, 53, 3]));
    }
}

#[test]
fn all_peers_used() {
    for (edition, used) in EDITIONS.into_iter().zip([256, 4000]) {
        let list = entries(&[used - 16, 10, 6]);
        let mut bench = Bench::new(edition, &list);
        assert_eq!(bench.replace_peers(2, &peers(200, 11)), [255]);
        assert_eq!(bench.entries(), list);
        assert_eq!(bench.replace_peers(2, &peers(200, 10)), [0]);
        assert_eq!(bench.entries()[1].peers, peers(200, 10));
        assert_eq!(bench.entries()[2], entry(3, 6));
    }
}

#[test]
fn kmac_byte_zero() {
    for edition in EDITIONS {
        let mut bench = Bench::new(edition, &[]);
        let mut bad = entry(1, 1);
        bad.kmac[5] = 0;
        assert_eq!(bench.work(kind::ADD_KEYS, &[k_struct(&bad)]), [4]);
        let elsewhere = k_struct_for(CENTRE, &bad);
        assert_eq!(bench.work(kind::ADD_KEYS, &[elsewhere]), [5]);
        assert_eq!(bench.store, encode(edition, &[]));
    }
}

#[test]
fn moment_against_start_and_end() {
    assert_fits([100, 200], &[100, 200], &[99, 201]);
}

#[test]
fn start_is_end() {
    assert_fits([100, 100], &[100], &[99, 101]);
}

#[test]
fn zero_is_expected_after_65535() {
    let mut bench = Bench::new(EDITION_1, &[]);
    bench.session.expected = 65535;
    bench.session.next = 65535;
    let first = message(kind::DELETE_ALL_KEYS, 65535, &[]);
    bench.assert_reply(&first, &reply(&first, 65535, 0, &[]));
    assert_eq!(bench.session.state, OPEN);
    assert_eq!(bench.session.expected, 0);
    assert_eq!(bench.session.next, 0);
    let second = message(kind::DELETE_ALL_KEYS, 0, &[]);
    bench.assert_reply(&second, &reply(&second, 0, 0, &[]));
}

#[test]
fn length_and_receiver_both_wrong() {
    let mut bench = Bench::new(EDITION_1, &[]);
    let mut wrong = message(kind::DELETE_ALL_KEYS, 300, &[]);
    wrong[3] += 1;
    wrong[RECEIVER_AT] ^= 1;
    bench.assert_reply(&wrong, &reply(&wrong, 700, 2, &[]));
    assert_eq!(bench.session.state, CLOSED);
}

#[test]
fn units_of_8_9_and_1033_bytes() {
    let key = [7; 24];
    let destination = [OWN[1], OWN[2], OWN[3]];
    let nine = [&[0x0a][..], &mac(&key, &destination, &[0x0a])].concat();
    assert_eq!(check(&nine[..8], &key, &destination, false), Err(7));
    assert_eq!(check(&nine, &key, &destination, false), Err(9));
    let message = [0x0a; 1025];
    let long = [&message[..], &mac(&key, &destination, &message)].concat();
    assert_eq!(long.len(), 1033);
    assert_eq!(check(&long, &key, &destination, false), Err(7));
}
