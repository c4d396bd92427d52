//! That the self-test at power-on looks up every entry of the tables of the joined rounds: the six bits of
//! each S-box, and the groups of four bits of C and D that permuted choice 2 is worked by. Its keys and
//! numbers are those of crates/self_test.

use std::array::from_fn;
use std::collections::HashSet;

use crate::des::{choice_c, choice_d, expansion, f, initial, to_bits, Des, Half, OFFSETS};

/// What was looked up: a box and its six bits; a group and its four bits.
#[derive(Default)]
struct LookedUp {
    boxes: HashSet<(usize, usize)>,
    groups: HashSet<(usize, usize)>,
}

fn number(bits: impl Iterator<Item = bool>) -> usize {
    bits.fold(0, |n, bit| 2 * n + usize::from(bit))
}

impl LookedUp {
    fn schedule(&mut self, key: u64) -> Des {
        let bits = to_bits(&key.to_be_bytes());
        for offset in OFFSETS {
            let register = |i: usize| match i {
                0..28 => bits[choice_c((i + offset) % 28)],
                _ => bits[choice_d((i - 28 + offset) % 28)],
            };
            for group in 0..14 {
                let four = number((0..4).map(|i| register(4 * group + i)));
                self.groups.insert((group, four));
            }
        }
        Des::new(&key.to_be_bytes())
    }

    /// A block enciphered or deciphered, with what each round looks up.
    fn cipher(&mut self, des: &Des, inverse: bool, block: u64) -> u64 {
        let bits = to_bits(&block.to_be_bytes());
        let mut left: Half = from_fn(|i| bits[initial(i)]);
        let mut right: Half = from_fn(|i| bits[initial(32 + i)]);
        for round in 0..16 {
            let key = &des.round_keys[if inverse { 15 - round } else { round }];
            for s in 0..8 {
                let six = number((0..6).map(|i| right[expansion(6 * s + i)] ^ key[6 * s + i]));
                self.boxes.insert((s, six));
            }
            let mixed = f(&right, key);
            (left, right) = (right, from_fn(|i| left[i] ^ mixed[i]));
        }
        let octets = block.to_be_bytes();
        u64::from_be_bytes(if inverse {
            des.decipher(&octets)
        } else {
            des.encipher(&octets)
        })
    }

    fn is_all(&self) -> bool {
        self.boxes.len() == 8 * 64 && self.groups.len() == 14 * 16
    }
}

/// The MAC of 512 bytes, byte i being i modulo 251, to the destination 123456.
fn mac(looked_up: &mut LookedUp) {
    let [k1, k2, k3] = [
        0x4561_57bf_b6ab_fbe5,
        0x9d54_6497_bf46_cd7a,
        0xf8ec_ae25_b99b_02f8,
    ]
    .map(|key| looked_up.schedule(key));
    let mut string = vec![0x02, 0x03, 0x12, 0x34, 0x56];
    string.extend((0..512).map(|i| (i % 251) as u8));
    string.resize(520, 0);
    let mut h = 0;
    for block in string.chunks(8) {
        let x = u64::from_be_bytes(block.try_into().unwrap());
        h = looked_up.cipher(&k1, false, h ^ x);
    }
    let d = looked_up.cipher(&k2, true, h);
    looked_up.cipher(&k3, false, d);
}

/// The three formulas for the KMACs that DES makes, as many as said.
fn session_keys(looked_up: &mut LookedUp, kmacs: usize) {
    let next = |key: u64, x: u64| {
        u64::from_be_bytes(Des::new(&key.to_be_bytes()).encipher(&x.to_be_bytes()))
    };
    let mut x: u64 = 0x0123_4567_89ab_cdef;
    for _ in 0..kmacs {
        let k1 = next(x, x);
        let k2 = next(x, k1);
        let k3 = next(x, k2);
        let left = x >> 32 << 32 | k3 >> 32;
        let right = x << 32 | k3 & 0xffff_ffff;
        let [s1, s2, s3] = [k1, k2, k3].map(|key| looked_up.schedule(key));
        for (first, last, block) in [(&s1, &s3, left), (&s1, &s3, right), (&s3, &s1, left)] {
            let a = looked_up.cipher(first, false, block);
            let b = looked_up.cipher(&s2, true, a);
            looked_up.cipher(last, false, b);
        }
        x = k3;
    }
}

#[test]
fn every_entry_is_looked_up() {
    let mut in_mac = LookedUp::default();
    mac(&mut in_mac);
    assert!(in_mac.is_all());

    let mut in_two = LookedUp::default();
    session_keys(&mut in_two, 2);
    assert!(!in_two.is_all());

    let mut in_three = LookedUp::default();
    session_keys(&mut in_three, 3);
    assert!(in_three.is_all());
}
