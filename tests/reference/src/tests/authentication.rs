//! Session keys, the MAC, and data units with their refusals.

use super::pattern;
use crate::authentication::{build, cbc_mac, check, mac, session_keys};
use crate::des::Des;
use crate::hex;

const ANNEX_B_KEY: &str = "01020407080b0d0e10131516191a1c1f20232526292a2c2f";

fn key() -> [u8; 24] {
    pattern(1)
}

fn destination() -> [u8; 3] {
    pattern(17)
}

fn ciphers(key: &[u8; 24]) -> [Des; 3] {
    [0, 8, 16].map(|at| Des::new(key[at..at + 8].try_into().unwrap()))
}

fn built(user: &[u8], direction: bool) -> Vec<u8> {
    let mut out = [0; 1032];
    let length = build(&key(), &destination(), direction, user, &mut out).unwrap();
    out[..length].to_vec()
}

fn sealed(message: &[u8]) -> Vec<u8> {
    [message, &mac(&key(), &destination(), message)].concat()
}

fn checked(unit: &[u8], direction: bool) -> Result<usize, u8> {
    check(unit, &key(), &destination(), direction)
}

#[test]
fn annex_b() {
    let key = hex::decode(ANNEX_B_KEY);
    let message: Vec<u8> = (0x00..=0x14).collect();
    assert_eq!(hex::encode(&cbc_mac(&key, &message)), "361d431ed396c175");
}

#[test]
fn annex_b_with_its_padding_written_out() {
    let key = hex::decode(ANNEX_B_KEY);
    let mut message: Vec<u8> = (0x00..=0x14).collect();
    message.extend([0, 0, 0]);
    assert_eq!(hex::encode(&cbc_mac(&key, &message)), "361d431ed396c175");
}

#[test]
fn mac_is_over_length_destination_message_and_padding() {
    let string = [0, 6, 17, 54, 91, 0x0a, 8, 9, 0, 0, 0, 0, 0, 0, 0, 0];
    assert_eq!(destination(), [17, 54, 91]);
    let expected = cbc_mac(&key(), &string[..8]);
    assert_eq!(mac(&key(), &destination(), &[0x0a, 8, 9]), expected);
}

#[test]
fn length_has_two_octets() {
    let message = [7; 1024];
    let string = [&[0x04, 0x03][..], &destination(), &message].concat();
    assert_eq!(
        mac(&key(), &destination(), &message),
        cbc_mac(&key(), &string)
    );
}

/// 002, 6.2.3.2.3.15, each formula by its steps, the parity bits left out.
#[test]
fn session_keys_are_the_three_formulas() {
    let (kmac, ra, rb) = (pattern(3), pattern(100), pattern(200));
    let [k1, k2, k3] = ciphers(&kmac);
    let left = [ra[0], ra[1], ra[2], ra[3], rb[0], rb[1], rb[2], rb[3]];
    let right = [ra[4], ra[5], ra[6], ra[7], rb[4], rb[5], rb[6], rb[7]];
    let ks1 = k3.encipher(&k2.decipher(&k1.encipher(&left)));
    let ks2 = k3.encipher(&k2.decipher(&k1.encipher(&right)));
    let ks3 = k1.encipher(&k2.decipher(&k3.encipher(&left)));
    let expected = [ks1, ks2, ks3].concat();
    let keys = session_keys(&kmac, &ra, &rb).unwrap();
    for (key, octet) in keys.iter().zip(expected) {
        assert_eq!(key >> 1, octet >> 1);
    }
}

#[test]
fn session_keys_have_odd_parity() {
    for seed in 0..32 {
        let keys = session_keys(&pattern::<24>(seed), &pattern(seed + 1), &pattern(2 * seed));
        assert!(keys
            .unwrap()
            .iter()
            .all(|octet| octet.count_ones() % 2 == 1));
    }
}

#[test]
fn session_keys_need_24_bytes() {
    for length in [0, 8, 16, 23, 25, 32] {
        let kmac = vec![1; length];
        assert_eq!(session_keys(&kmac, &[0; 8], &[0; 8]), Err(13));
    }
}

#[test]
fn unit_is_first_octet_user_data_and_mac() {
    for (direction, first) in [(false, 0x0a), (true, 0x0b)] {
        let message = [first, 1, 2, 3];
        assert_eq!(built(&[1, 2, 3], direction), sealed(&message));
    }
}

#[test]
fn build_keeps_the_bytes_past_the_unit() {
    let mut out = [0xee; 1040];
    let length = build(&key(), &destination(), false, &[1, 2, 3], &mut out).unwrap();
    assert_eq!(length, 12);
    assert_eq!(out[12..], [0xee; 1028]);
}

#[test]
fn built_units_are_accepted() {
    for n in (1..=24).chain(1016..=1023) {
        for direction in [false, true] {
            let user: Vec<u8> = (0..n).map(|i| (n + 37 * i) as u8).collect();
            let unit = built(&user, direction);
            assert_eq!(unit.len(), n + 9);
            assert_eq!(checked(&unit, direction), Ok(n));
            assert_eq!(unit[1..1 + n], user);
            assert_eq!(checked(&unit, !direction), Err(9));
        }
    }
}

#[test]
fn build_refusals_in_order() {
    let long = [0; 1024];
    let cases: [(usize, &[u8], usize, u8); 9] = [
        (23, &[], 1031, 13),
        (25, &[], 1031, 13),
        (23, &[1], 1032, 13),
        (24, &[1], 1031, 2),
        (24, &[], 1031, 2),
        (24, &long, 0, 2),
        (24, &[], 1032, 10),
        (24, &long, 1032, 10),
        (24, &long, 5000, 10),
    ];
    for (key_length, user, room, refusal) in cases {
        let mut out = vec![0xee; room];
        let lent = vec![1; key_length];
        let answer = build(&lent, &destination(), true, user, &mut out);
        assert_eq!(answer, Err(refusal));
        assert!(out.iter().all(|&byte| byte == 0xee));
    }
}

#[test]
fn h13_comes_before_all_others_of_check() {
    for length in [0, 23, 25] {
        let lent = vec![1; length];
        let unit = built(&[7], true);
        assert_eq!(check(&unit, &lent, &destination(), true), Err(13));
        assert_eq!(check(&unit[..8], &lent, &destination(), true), Err(13));
        assert_eq!(check(&[0; 1033], &lent, &destination(), true), Err(13));
    }
}

#[test]
fn h7_is_by_length_alone() {
    for length in [0, 1, 8, 1033, 2000] {
        assert_eq!(checked(&vec![0; length], false), Err(7));
    }
    assert_eq!(checked(&sealed(&[0x0a; 1025]), false), Err(7));
    assert_eq!(checked(&sealed(&[0x0a; 1024]), false), Ok(1023));
}

#[test]
fn mac_is_judged_before_first_octet_and_empty_user_data() {
    for first in [0x0a, 0x0b, 0x0c, 0x2a] {
        for message in [vec![first], vec![first, 7, 7]] {
            let mut unit = sealed(&message);
            *unit.last_mut().unwrap() ^= 1;
            assert_eq!(checked(&unit, false), Err(8));
        }
    }
}

#[test]
fn of_all_first_octets_one_is_accepted() {
    for first in 0..=255 {
        let expected = if first == 0x0b { Ok(2) } else { Err(9) };
        assert_eq!(checked(&sealed(&[first, 7, 7]), true), expected);
    }
}

#[test]
fn every_changed_bit_is_h8() {
    let unit = built(&[1, 2, 3, 4, 5, 6, 7, 8, 9, 10], true);
    for bit in 0..8 * unit.len() {
        let mut damaged = unit.clone();
        damaged[bit / 8] ^= 0x80 >> (bit % 8);
        assert_eq!(checked(&damaged, true), Err(8));
    }
}

#[test]
fn torn_and_lengthened_units_are_h8() {
    let unit = built(&[1, 2, 3, 4, 5, 6, 7, 8, 9, 10], true);
    for length in 9..unit.len() {
        assert_eq!(checked(&unit[..length], true), Err(8));
    }
    assert_eq!(checked(&[&unit[..], &[0]].concat(), true), Err(8));
}

#[test]
fn another_key_or_destination_is_h8() {
    let unit = built(&[1, 2, 3], false);
    for at in 0..3 {
        let mut other = destination();
        other[at] ^= 1;
        assert_eq!(check(&unit, &key(), &other, false), Err(8));
    }
    for at in 0..24 {
        let mut other = key();
        other[at] ^= 2;
        assert_eq!(check(&unit, &other, &destination(), false), Err(8));
    }
}

#[test]
fn parity_of_the_key_has_no_influence_on_a_unit() {
    let unit = built(&[1, 2, 3], false);
    let other = key().map(|octet| octet ^ 1);
    assert_eq!(check(&unit, &other, &destination(), false), Ok(3));
    let mut out = [0; 1032];
    assert_eq!(
        build(&other, &destination(), false, &[1, 2, 3], &mut out),
        Ok(12)
    );
    assert_eq!(out[..12], unit);
}

#[test]
fn parity_of_the_kmac_has_no_influence_on_session_keys() {
    let usual = session_keys(&key(), &pattern(3), &pattern(4));
    for at in 0..24 {
        let mut other = key();
        other[at] ^= 1;
        assert_eq!(session_keys(&other, &pattern(3), &pattern(4)), usual);
        other[at] ^= 2;
        assert_ne!(session_keys(&other, &pattern(3), &pattern(4)), usual);
    }
}

/// The length tells a unit from the same unit with zeros behind it, which padding alone would not.
#[test]
fn zeros_behind_a_message_change_its_mac() {
    for length in 1..40 {
        let message = vec![0x5a; length];
        let usual = mac(&key(), &destination(), &message);
        for zeros in 1..=8 {
            let longer = [&message[..], &vec![0; zeros]].concat();
            assert_ne!(mac(&key(), &destination(), &longer), usual);
        }
    }
}

/// A MAC has 64 bits, so distinct strings can share one: whoever has the key makes such a pair
/// at once. The second block of the string is another, and the third makes up for it.
#[test]
fn two_units_of_one_mac() {
    let [k1, ..] = ciphers(&key());
    let user: [u8; 18] = pattern(40);
    let mut other = user;
    other[2] ^= 1;
    let after_two_blocks = |user: &[u8; 18]| {
        let string = [&[0, 22], &destination()[..], &[0x0a], &user[..10]].concat();
        let second = string[8..]
            .iter()
            .zip(k1.encipher(string[..8].try_into().unwrap()));
        let sum: Vec<u8> = second.map(|(a, b)| a ^ b).collect();
        k1.encipher(sum[..].try_into().unwrap())
    };
    let (one, two) = (after_two_blocks(&user), after_two_blocks(&other));
    for at in 0..8 {
        other[10 + at] ^= one[at] ^ two[at];
    }
    let (unit, alike) = (built(&user, false), built(&other, false));
    assert_ne!(unit[..19], alike[..19]);
    assert_eq!(unit[19..], alike[19..]);
    assert_eq!(checked(&alike, false), Ok(18));
}
