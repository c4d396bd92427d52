//! DES against its published vectors and the properties 01 names.

use super::pattern;
use crate::des::{Des, S_BOXES};
use crate::published::tables;

#[test]
fn published_vectors_both_ways() {
    for table in tables() {
        for vector in table.vectors {
            let des = Des::new(&vector.key);
            assert_eq!(des.encipher(&vector.plain), vector.cipher, "{}", table.name);
            assert_eq!(des.decipher(&vector.cipher), vector.plain, "{}", table.name);
        }
    }
}

#[test]
fn published_tables_are_whole() {
    let sizes: Vec<_> = tables()
        .iter()
        .map(|table| (table.name, table.vectors.len()))
        .collect();
    let expected = [
        ("variable plaintext", 64),
        ("variable key", 56),
        ("permutation operation", 32),
        ("substitution table", 19),
    ];
    assert_eq!(sizes, expected);
}

#[test]
fn each_row_of_a_box_is_a_permutation() {
    for row in S_BOXES.iter().flat_map(|s_box| s_box.iter()) {
        let mut sorted = *row;
        sorted.sort_unstable();
        assert!(sorted.iter().copied().eq(0..16));
    }
}

#[test]
fn deciphering_inverts_enciphering() {
    for seed in 0..64 {
        let des = Des::new(&pattern(seed));
        let block = pattern(3 * seed + 1);
        assert_eq!(des.decipher(&des.encipher(&block)), block);
        assert_eq!(des.encipher(&des.decipher(&block)), block);
    }
}

#[test]
fn parity_bits_have_no_influence() {
    let block = pattern(9);
    let key: [u8; 8] = pattern(5);
    let usual = Des::new(&key).encipher(&block);
    for at in 0..8 {
        let mut other = key;
        other[at] ^= 1;
        assert_eq!(Des::new(&other).encipher(&block), usual);
    }
}

#[test]
fn every_other_key_bit_has_influence() {
    let block = pattern(9);
    let key: [u8; 8] = pattern(5);
    let usual = Des::new(&key).encipher(&block);
    for bit in (0..64).filter(|bit| bit % 8 != 7) {
        let mut other = key;
        other[bit / 8] ^= 0x80 >> (bit % 8);
        assert_ne!(Des::new(&other).encipher(&block), usual);
    }
}

#[test]
fn complement_of_key_and_block_gives_the_complement() {
    for seed in 0..64 {
        let key: [u8; 8] = pattern(77 + seed);
        let block: [u8; 8] = pattern(12 + 5 * seed);
        let usual = Des::new(&key);
        let complement = Des::new(&key.map(|octet| !octet));
        let other = block.map(|octet| !octet);
        assert_eq!(
            complement.encipher(&other),
            usual.encipher(&block).map(|octet| !octet)
        );
        assert_eq!(
            complement.decipher(&other),
            usual.decipher(&block).map(|octet| !octet)
        );
        assert_ne!(
            usual.encipher(&other),
            usual.encipher(&block).map(|octet| !octet)
        );
    }
}
